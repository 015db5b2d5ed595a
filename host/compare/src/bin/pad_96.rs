//! The benchmark's table with 96 bytes more in front of all code.

compare::padded!(96);
