//! Document 01's rules for a good model, a base state and the positions.

use crate::tables::{Case, FIXED, Model, NO_NUMBER, PRISMATIC, Pose, REVOLUTE};

/// Whether the squares, added in order, lie within 2^-40 of 1.
pub fn is_unit(values: &[f64]) -> bool {
    let tiny = 1.0 / (1u64 << 40) as f64;
    let squares = values[1..]
        .iter()
        .fold(values[0] * values[0], |sum, v| sum + v * v);
    1.0 - tiny <= squares && squares <= 1.0 + tiny
}

/// Whether all values are finite.
fn all_finite(values: &[f64]) -> bool {
    values.iter().all(|value| value.is_finite())
}

/// Whether a link's numbers keep their rule.
pub fn link_good(link: &[f64; 13]) -> bool {
    let moments = [link[0] * link[1], link[0] * link[2], link[0] * link[3]];
    all_finite(link) && link[0] >= 0.0 && all_finite(&moments)
}

/// Whether each moving joint has its own number below m, and a fixed one none.
fn numbers_good(model: &Model) -> bool {
    let mut seen = [false; 64];
    for joint in &model.joints {
        if joint.kind == FIXED {
            if joint.number != NO_NUMBER {
                return false;
            }
        } else if joint.number >= model.moving || joint.number >= 64 {
            return false;
        } else if std::mem::replace(&mut seen[joint.number as usize], true) {
            return false;
        }
    }
    seen.iter().filter(|taken| **taken).count() as u64 == model.moving
}

/// Whether a joint's parent, kind and floats keep their rules.
fn joint_good(model: &Model, at: usize) -> bool {
    let joint = &model.joints[at];
    joint.kind <= PRISMATIC
        && joint.parent <= at as u64
        && all_finite(&joint.floats)
        && is_unit(&joint.floats[..4])
        && (joint.kind == FIXED || is_unit(&joint.floats[7..]))
}

/// Whether the model is good.
pub fn model_good(model: &Model) -> bool {
    (1..=64).contains(&model.count)
        && numbers_good(model)
        && model.links.iter().all(link_good)
        && (0..model.joints.len()).all(|at| joint_good(model, at))
}

/// Whether the base state keeps its rule.
pub fn base_good(base: &[f64; 19]) -> bool {
    all_finite(base) && is_unit(&base[..4])
}

/// The refusal of one pose entry at a joint of a kind; 0 when it passes.
fn pose_refusal(pose: &Pose, kind: u8) -> u8 {
    let pair = [pose.first, pose.second];
    let (values, wanted) = if pose.tag == 1 {
        (&pair[..], REVOLUTE)
    } else {
        (&pair[..1], PRISMATIC)
    };
    if !all_finite(values) {
        5
    } else if kind != wanted || (wanted == REVOLUTE && !is_unit(values)) {
        4
    } else {
        0
    }
}

/// The refusal of the positions of a good model; 0 when they pass.
pub fn positions_refusal(case: &Case) -> u8 {
    if case.posed != case.model.moving {
        return 3;
    }
    for (number, pose) in case.poses.iter().enumerate() {
        let mut joints = case.model.joints.iter();
        let joint = joints.find(|j| j.kind != FIXED && j.number == number as u64);
        let refusal = pose_refusal(pose, joint.expect("a good model").kind);
        if refusal != 0 {
            return refusal;
        }
    }
    0
}
