//! The benchmark's table as it is linked.

compare::padded!(0);
