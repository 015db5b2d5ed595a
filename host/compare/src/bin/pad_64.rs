//! The benchmark's table with 64 bytes more in front of all code.

compare::padded!(64);
