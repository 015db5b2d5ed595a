//! The benchmark's table with 32 bytes more in front of all code.

compare::padded!(32);
