//! The benchmark's table with 16 bytes more in front of all code.

compare::padded!(16);
