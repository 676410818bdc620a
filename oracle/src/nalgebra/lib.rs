//! The part of nalgebra that the given files use, with document 01's float steps.

mod matrix;
mod rotation;
mod vector;

pub use matrix::{Matrix3, Rotation3};
pub use rotation::{Isometry3, Translation3, UnitQuaternion};
pub use vector::{Unit, Vector3};
