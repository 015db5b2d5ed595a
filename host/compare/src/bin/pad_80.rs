//! The benchmark's table with 80 bytes more in front of all code.

compare::padded!(80);
