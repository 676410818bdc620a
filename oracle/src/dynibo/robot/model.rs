//! The model's tables, the validators that the given files call, and how a model is made.

use super::{FloatingRobot, LinkId, Robot, RootMode, Workspace, generalized_count};
use crate::model::JointKinematics;
use crate::model::link::{Link, LinkDynamics};
use crate::{Error, Frame, JointType, Result};
use nalgebra::{Isometry3, Matrix3, Translation3, Unit, UnitQuaternion, Vector3};
use std::{path::Path, sync::Arc};

/// The tables that the kernels read.
#[derive(Debug)]
pub(super) struct Model {
    pub(super) model_id: u64,
    pub(super) joint_kinematics: Vec<JointKinematics>,
    pub(super) link_dynamics: Vec<LinkDynamics>,
    pub(super) parent_link_indices: Vec<usize>,
    pub(super) joint_dof_indices: Vec<Option<usize>>,
}

/// A shared model.
#[derive(Debug)]
pub struct RobotModel {
    pub(super) model: Arc<Model>,
}

/// One link: mass, centre, inertia by rows.
type LinkRow = [f64; 13];

/// One joint: kind, parent link, moving number, ten floats, half-angle pair.
type JointRow = (JointType, usize, Option<usize>, [f64; 10], (f64, f64));

/// A length is the expected one, or an error.
fn expect_length(input: &'static str, actual: usize, expected: usize) -> Result<()> {
    if actual == expected {
        Ok(())
    } else {
        Err(Error::InvalidLength { input })
    }
}

impl Model {
    /// The number of moving joints.
    pub(super) fn joint_count(&self) -> usize {
        self.joint_dof_indices.iter().flatten().count()
    }

    /// The number of joints.
    pub(super) fn model_joint_count(&self) -> usize {
        self.joint_kinematics.len()
    }

    /// The number of links.
    pub(super) fn link_count(&self) -> usize {
        self.link_dynamics.len()
    }

    /// A moving joint's entry of a list, and zero for a fixed joint.
    pub(super) fn joint_value(&self, list: &[f64], joint_index: usize) -> f64 {
        self.joint_dof_indices[joint_index].map_or(0.0, |number| list[number])
    }

    /// A list has one finite entry for each moving joint.
    pub(super) fn validate_slice(&self, input: &'static str, list: &[f64]) -> Result<()> {
        expect_length(input, list.len(), self.joint_count())?;
        if list.iter().all(|value| value.is_finite()) {
            Ok(())
        } else {
            Err(Error::NonFiniteInput { input })
        }
    }

    /// A length is the expected one.
    pub(super) fn validate_slice_length(
        &self,
        input: &'static str,
        actual: usize,
        expected: usize,
    ) -> Result<()> {
        expect_length(input, actual, expected)
    }

    /// A fixed output has one place for each moving joint.
    pub(super) fn validate_joint_output(&self, input: &'static str, output: &[f64]) -> Result<()> {
        expect_length(input, output.len(), self.joint_count())
    }

    /// An output has the places of its mode.
    pub(super) fn validate_output(
        &self,
        base_mode: RootMode,
        input: &'static str,
        output: &[f64],
    ) -> Result<()> {
        expect_length(input, output.len(), generalized_count(self, base_mode))
    }

    /// The number of a link that is the model's.
    pub(super) fn validate_link_id(&self, link: LinkId) -> Result<usize> {
        if link.model_id == self.model_id && link.index < self.link_count() {
            Ok(link.index)
        } else {
            Err(Error::InvalidLinkId)
        }
    }

    /// Every figure is finite.
    pub(super) fn validate_numerical_result<'a>(
        operation: &'static str,
        mut values: impl Iterator<Item = &'a f64>,
    ) -> Result<()> {
        if values.all(|value| value.is_finite()) {
            Ok(())
        } else {
            Err(Error::NumericalFailure { operation })
        }
    }
}

/// The link as the given `Link::new` makes it.
fn checked_link(row: &LinkRow) -> Result<LinkDynamics> {
    let [mass, x, y, z, a, b, c, d, e, f, g, h, i] = *row;
    let inertia = Matrix3::new(a, b, c, d, e, f, g, h, i);
    Ok(Link::new("link", mass, Vector3::new(x, y, z), inertia)?.dynamics())
}

/// The link by document 01's rule; the kernels never read the two derived fields.
fn plain_link(row: &LinkRow) -> LinkDynamics {
    let [mass, x, y, z, a, b, c, d, e, f, g, h, i] = *row;
    let center_of_mass = Vector3::new(x, y, z);
    LinkDynamics {
        mass,
        center_of_mass,
        inertia: Matrix3::new(a, b, c, d, e, f, g, h, i),
        first_moment: mass * center_of_mass,
        origin_inertia: Matrix3::new(0.0, 0.0, 0.0, 0.0, 0.0, 0.0, 0.0, 0.0, 0.0),
    }
}

/// The joint as the kernels read it.
fn joint_kinematics(row: &JointRow) -> JointKinematics {
    let (joint_type, _, _, [w, i, j, k, tx, ty, tz, x, y, z], half) = *row;
    JointKinematics {
        joint_type,
        origin: Isometry3 {
            rotation: UnitQuaternion {
                coords: [w, i, j, k],
            },
            translation: Translation3 {
                vector: Vector3::new(tx, ty, tz),
            },
        },
        axis: Unit(Vector3::new(x, y, z)),
        half,
    }
}

impl RobotModel {
    /// A model from tables that document 01 calls good.
    pub fn from_tables(model_id: u64, links: &[LinkRow], joints: &[JointRow]) -> Self {
        let dynamics = |row: &LinkRow| checked_link(row).unwrap_or_else(|_| plain_link(row));
        Self {
            model: Arc::new(Model {
                model_id,
                joint_kinematics: joints.iter().map(joint_kinematics).collect(),
                link_dynamics: links.iter().map(dynamics).collect(),
                parent_link_indices: joints.iter().map(|row| row.1).collect(),
                joint_dof_indices: joints.iter().map(|row| row.2).collect(),
            }),
        }
    }

    /// Whether the given `Link::new` takes a link.
    pub fn takes_link(row: &LinkRow) -> bool {
        checked_link(row).is_ok()
    }

    /// Refuses: reading URDF files is not given.
    pub fn from_urdf(_path: impl AsRef<Path>) -> Result<Self> {
        Err(Error::InvalidModel("no URDF reader".into()))
    }

    /// A fixed robot whose base frame is the identity until it is set.
    pub fn robot(&self) -> Robot {
        let world_from_root: Frame = Isometry3 {
            rotation: UnitQuaternion {
                coords: [1.0, 0.0, 0.0, 0.0],
            },
            translation: Translation3 {
                vector: Vector3::zeros(),
            },
        };
        Robot {
            model: Arc::clone(&self.model),
            workspace: Workspace::new(&self.model),
            world_from_root,
        }
    }

    /// A floating robot.
    pub fn floating_robot(&self) -> Result<FloatingRobot> {
        Ok(FloatingRobot {
            model: Arc::clone(&self.model),
            workspace: Workspace::new(&self.model),
        })
    }
}
