//! A joint and its transform, with the half-angle pair set before the call.

use crate::Frame;
use nalgebra::{Translation3, Unit, UnitQuaternion, Vector3};

/// The kinds of a joint.
#[derive(Clone, Copy, Debug, PartialEq, Eq)]
pub enum JointType {
    /// It does not move.
    Fixed,
    /// It turns about its axis.
    Revolute,
    /// It slides along its axis.
    Prismatic,
}

/// A joint as the kernels read it.
#[derive(Clone, Copy, Debug, PartialEq)]
pub(crate) struct JointKinematics {
    /// The joint's kind.
    pub(crate) joint_type: JointType,
    /// The origin, seen from the parent link.
    pub(crate) origin: Frame,
    /// The axis, in the joint's own frame.
    pub(crate) axis: Unit<Vector3<f64>>,
    /// The half-angle pair (s, c) of a revolute joint.
    pub(crate) half: (f64, f64),
}

impl JointKinematics {
    /// The joint's transform; a revolute joint takes its pair and not the position.
    pub(crate) fn frame(&self, position: f64) -> Frame {
        let axis = self.axis.as_ref();
        let mut frame = self.origin;
        match self.joint_type {
            JointType::Fixed => {}
            JointType::Revolute => {
                let (s, c) = self.half;
                let turn = UnitQuaternion {
                    coords: [c, s * axis.x, s * axis.y, s * axis.z],
                };
                frame.rotation = self.origin.rotation * turn;
            }
            JointType::Prismatic => {
                let slide = self.origin.rotation * (position * axis);
                let vector = self.origin.translation.vector + slide;
                frame.translation = Translation3 { vector };
            }
        }
        frame
    }
}
