//! Frames, twists and wrenches.

use nalgebra::{Isometry3, Vector3};

/// A rotation and a translation.
pub type Frame = Isometry3<f64>;

/// An angular and a linear motion.
#[derive(Clone, Copy, Debug, PartialEq)]
pub struct Twist {
    /// The angular part.
    pub angular: Vector3<f64>,
    /// The linear part.
    pub linear: Vector3<f64>,
}

/// A torque and a force.
#[derive(Clone, Copy, Debug, PartialEq)]
pub struct Wrench {
    /// The torque.
    pub torque: Vector3<f64>,
    /// The force.
    pub force: Vector3<f64>,
}

impl Twist {
    /// No motion: positive zeros.
    pub const fn zeros() -> Self {
        Self {
            angular: Vector3::zeros(),
            linear: Vector3::zeros(),
        }
    }
}

impl Wrench {
    /// The wrench of a torque and a force.
    pub const fn new(torque: Vector3<f64>, force: Vector3<f64>) -> Self {
        Self { torque, force }
    }

    /// No wrench: positive zeros.
    pub const fn zeros() -> Self {
        Self::new(Vector3::zeros(), Vector3::zeros())
    }

    /// Whether all six components are finite.
    pub fn is_finite(&self) -> bool {
        self.torque
            .iter()
            .chain(self.force.iter())
            .all(|value| value.is_finite())
    }
}
