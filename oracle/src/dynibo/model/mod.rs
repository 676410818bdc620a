//! Links and joints; the joint's frame is written from document 01.

mod joint;
pub(crate) mod link;

pub(crate) use joint::JointKinematics;
pub use joint::JointType;
