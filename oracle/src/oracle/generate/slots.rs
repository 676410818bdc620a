//! The places of floats in a case, for changing one or all of them.

use crate::random::Random;
use crate::tables::{Case, FIXED};

/// The floats of the records by what they belong to; a distance's second float is no place.
pub fn groups(case: &mut Case) -> Vec<Vec<&mut f64>> {
    let links = case.model.links.iter_mut().flatten().collect();
    let joints = case.model.joints.iter_mut();
    let joints = joints.flat_map(|joint| &mut joint.floats).collect();
    let base = case.base.iter_mut().collect();
    let mut poses = Vec::new();
    for pose in &mut case.poses {
        poses.push(&mut pose.first);
        if pose.tag == 1 {
            poses.push(&mut pose.second);
        }
    }
    let speeds = case.speeds.iter_mut().collect();
    let accelerations = case.accelerations.iter_mut().collect();
    let loads = case.loads.iter_mut();
    let loads = loads.flat_map(|load| &mut load.wrench).collect();
    let mut groups = vec![links, joints, base, poses, speeds, accelerations, loads];
    groups.retain(|group| !group.is_empty());
    groups
}

/// The floats that no unit test looks at.
pub fn free(case: &mut Case) -> Vec<&mut f64> {
    let mut list: Vec<&mut f64> = Vec::new();
    list.extend(case.model.links.iter_mut().flatten());
    for joint in &mut case.model.joints {
        list.extend(&mut joint.floats[4..7]);
    }
    list.extend(&mut case.base[4..]);
    for pose in case.poses.iter_mut().filter(|pose| pose.tag == 2) {
        list.push(&mut pose.first);
    }
    list.extend(&mut case.speeds);
    list.extend(&mut case.accelerations);
    for load in &mut case.loads {
        list.extend(&mut load.wrench);
    }
    list
}

/// A group of floats that the unit test looks at: a rotation, an axis or a pair.
pub fn unit_group<'a>(random: &mut Random, case: &'a mut Case) -> Vec<&'a mut f64> {
    let mut groups: Vec<Vec<&mut f64>> = vec![case.base[..4].iter_mut().collect()];
    for joint in &mut case.model.joints {
        let fixed = joint.kind == FIXED;
        let (front, back) = joint.floats.split_at_mut(7);
        groups.push(front[..4].iter_mut().collect());
        if !fixed || random.once_in(4) {
            groups.push(back.iter_mut().collect());
        }
    }
    for pose in case.poses.iter_mut().filter(|pose| pose.tag == 1) {
        groups.push(vec![&mut pose.first, &mut pose.second]);
    }
    let at = random.below(groups.len());
    groups.swap_remove(at)
}
