//! Stands for the forward dynamics, which are not given.
