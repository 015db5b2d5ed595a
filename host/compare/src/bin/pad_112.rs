//! The benchmark's table with 112 bytes more in front of all code.

compare::padded!(112);
