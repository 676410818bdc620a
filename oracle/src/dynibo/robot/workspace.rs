//! The tables that a call works in.

use super::Model;
use crate::{Frame, Wrench};
use nalgebra::{Isometry3, Translation3, UnitQuaternion, Vector3};

/// One table for each value that the kernels keep by joint.
#[derive(Debug)]
pub(super) struct Workspace {
    pub(super) step: Vec<f64>,
    pub(super) frames: Vec<Frame>,
    pub(super) angular_velocities: Vec<Vector3<f64>>,
    pub(super) angular_accelerations: Vec<Vector3<f64>>,
    pub(super) origin_accelerations: Vec<Vector3<f64>>,
    pub(super) link_accelerations: Vec<Vector3<f64>>,
    pub(super) link_loads: Vec<Wrench>,
}

impl Workspace {
    /// Tables of the model's sizes; their first contents are never used.
    pub(super) fn new(model: &Model) -> Self {
        let joints = model.model_joint_count();
        let frame = Isometry3 {
            rotation: UnitQuaternion {
                coords: [1.0, 0.0, 0.0, 0.0],
            },
            translation: Translation3 {
                vector: Vector3::zeros(),
            },
        };
        Self {
            step: vec![0.0; model.joint_count()],
            frames: vec![frame; joints],
            angular_velocities: vec![Vector3::zeros(); joints],
            angular_accelerations: vec![Vector3::zeros(); joints],
            origin_accelerations: vec![Vector3::zeros(); joints],
            link_accelerations: vec![Vector3::zeros(); joints],
            link_loads: vec![Wrench::zeros(); joints],
        }
    }
}
