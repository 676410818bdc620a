//! Stands for the mass matrix, which is not given.
