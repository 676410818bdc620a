//! Link numbers: joint j leads to link j + 1.

/// A link of a certain model.
#[derive(Clone, Copy, Debug, PartialEq, Eq)]
pub struct LinkId {
    pub(super) model_id: u64,
    pub(super) index: usize,
}

impl LinkId {
    /// The link of a model's id and a number.
    pub const fn new(model_id: u64, index: usize) -> Self {
        Self { model_id, index }
    }

    /// The model's id.
    pub const fn model_id(&self) -> u64 {
        self.model_id
    }

    /// The link's number.
    pub const fn index(&self) -> usize {
        self.index
    }
}

/// The link that a joint leads to.
pub(super) const fn child_link_index(joint_index: usize) -> usize {
    joint_index + 1
}

/// The joint that leads to a link other than the root.
pub(super) const fn incoming_joint_index(link_index: usize) -> usize {
    link_index - 1
}
