//! Stands for the kinematics, which are not given; only the public name is needed.

/// Stands for the options of a part that is not given.
#[derive(Clone, Copy, Debug)]
pub struct InverseKinematicsOptions;
