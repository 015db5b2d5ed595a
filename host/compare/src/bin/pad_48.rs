//! The benchmark's table with 48 bytes more in front of all code.

compare::padded!(48);
