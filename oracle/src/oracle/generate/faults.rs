//! Single faults, one maker for each refusal that a case can be given.

use super::extreme::not_finite;
use super::numbers::NOT_FINITE;
use crate::random::Random;
use crate::tables::{Case, FIXED, Load, NO_NUMBER, VELOCITY};

/// A number that is not finite.
fn bad_float(random: &mut Random) -> f64 {
    f64::from_bits(random.pick(&NOT_FINITE))
}

/// Spoils a joint of the model.
fn spoil_joint(random: &mut Random, case: &mut Case) {
    let at = random.below(case.model.joints.len());
    let moving = case.model.moving;
    let joint = &mut case.model.joints[at];
    match random.below(6) {
        0 => joint.parent = at as u64 + 1 + random.below(3) as u64,
        1 if joint.kind != FIXED => joint.number = random.pick(&[moving, NO_NUMBER, 64, 65534]),
        2 if joint.kind != FIXED => joint.number = (joint.number + 1) % moving.max(2),
        3 => joint.floats[random.below(10)] = bad_float(random),
        4 => joint.floats[random.below(4)] += 0.5,
        5 if joint.kind != FIXED => joint.floats[7 + random.below(3)] -= 0.25,
        _ => joint.parent = 65535,
    }
}

/// Makes the model not good (1).
pub fn model(random: &mut Random, case: &mut Case) {
    let at = random.below(case.model.links.len());
    if !case.model.joints.is_empty() && random.once_in(2) {
        return spoil_joint(random, case);
    }
    let link = &mut case.model.links[at];
    match random.below(5) {
        0 => link[0] = random.pick(&[-1.0, -5e-324, -1e308]),
        1 => link[random.below(13)] = bad_float(random),
        2 => {
            link[0] = 1e200;
            link[1 + random.below(3)] = random.pick(&[1e200, -1e120]);
        }
        _ => off_moving(random, case),
    }
}

/// Makes m differ from the number of moving joints, in the model and the call.
fn off_moving(random: &mut Random, case: &mut Case) {
    let kind = 1 + random.below(2) as u8;
    let entry = super::tree::pose(random, kind);
    if case.model.moving < 63 && (case.posed == 0 || random.once_in(2)) {
        case.model.moving += 1;
        case.poses.push(entry);
        case.speeds.push(0.5);
        case.accelerations.push(0.5);
    } else {
        case.model.moving -= 1;
        case.poses.pop();
        case.speeds.pop();
        case.accelerations.pop();
    }
    case.posed = case.model.moving;
}

/// Breaks the base state's rule (2).
pub fn base(random: &mut Random, case: &mut Case) {
    match random.below(3) {
        0 => case.base[random.below(4)] += 0.5,
        1 => case.base[..4].fill(0.0),
        _ => case.base[random.below(19)] = bad_float(random),
    }
}

/// Gives a pose entry the wrong kind or spoils its pair (4).
pub fn pose(random: &mut Random, case: &mut Case) {
    if case.poses.is_empty() {
        return;
    }
    let at = random.below(case.poses.len());
    let pose = &mut case.poses[at];
    if pose.tag == 1 && random.once_in(2) {
        pose.first += 0.5;
    } else {
        *pose = super::tree::pose(random, pose.tag % 2 + 1);
    }
}

/// Puts a number that is not finite among positions, speeds, accelerations or loads (5).
pub fn finite(random: &mut Random, case: &mut Case) {
    let m = case.poses.len();
    let at = random.below(m.max(1));
    match random.below(5) {
        0 if m > 0 => case.poses[at].first = bad_float(random),
        1 if m > 0 && case.poses[at].tag == 1 => case.poses[at].second = bad_float(random),
        2 if m > 0 => case.speeds[at] = bad_float(random),
        3 if m > 0 => case.accelerations[at] = bad_float(random),
        _ => bad_load(random, case),
    }
}

/// Puts a load that is not finite on a link of the model.
fn bad_load(random: &mut Random, case: &mut Case) {
    let mut load = load_at(case, random.below(case.model.links.len()) as u64);
    load.wrench[random.below(6)] = bad_float(random);
    insert(random, case, load);
}

/// A zero load on a link.
fn load_at(case: &Case, link: u64) -> Load {
    Load {
        id: case.model.id,
        link,
        wrench: [0.0; 6],
    }
}

/// Puts a load at a place of chance in the list.
fn insert(random: &mut Random, case: &mut Case, load: Load) {
    let at = random.below(case.loads.len() + 1);
    case.loads.insert(at, load);
}

/// Puts a load on a link that the model lacks (6).
pub fn link(random: &mut Random, case: &mut Case) {
    let past = random.pick(&[0, 0, 1, 5, 100]);
    let link = random.pick(&[case.model.count + past, 65535, 64]);
    let load = load_at(case, link.max(case.model.count));
    insert(random, case, load);
}

/// Makes a load sum overflow (7).
pub fn sum(random: &mut Random, case: &mut Case) {
    let mut load = load_at(case, random.below(case.model.links.len()) as u64);
    load.wrench[random.below(6)] = random.pick(&[f64::MAX, -f64::MAX, 1e308]);
    insert(random, case, load);
    insert(random, case, load);
}

/// Makes figures overflow (8).
pub fn figures(random: &mut Random, case: &mut Case) {
    let moving = !case.speeds.is_empty();
    if (case.function == VELOCITY || random.once_in(3)) && moving {
        let at = random.below(case.speeds.len());
        case.speeds[at] = random.pick(&[1e200, -1e160, 1e308]);
        case.base[7..10].fill(1e180);
        return;
    }
    for link in &mut case.model.links {
        link[0] = random.pick(&[f64::MAX, 1e308, 3e307]);
        link[1..4].fill(random.pick(&[0.0, 0.5, 1.0]));
    }
}

/// A pose entry that is of the wrong kind, off the unit test, not finite, or two of these.
pub fn entry(random: &mut Random, case: &mut Case) {
    if random.once_in(2) {
        pose(random, case);
    }
    if !case.poses.is_empty() && random.once_in(2) {
        let at = random.below(case.poses.len());
        case.poses[at].first = bad_float(random);
        if random.once_in(2) {
            let value = case.poses[at].first;
            case.poses[at] = super::tree::pose(random, case.poses[at].tag % 2 + 1);
            case.poses[at].first = value;
        }
    }
}

/// A bad load: no link of the model, not finite, both, or a sum that overflows.
pub fn load(random: &mut Random, case: &mut Case) {
    match random.below(5) {
        0 => link(random, case),
        1 | 2 => sum(random, case),
        3 => {
            let mut load = load_at(case, case.model.count);
            load.wrench[random.below(6)] = bad_float(random);
            insert(random, case, load);
        }
        _ => bad_load(random, case),
    }
}

/// One fault of any of the seven, or a number that is not finite at any place.
pub fn any(random: &mut Random, case: &mut Case) {
    match random.below(8) {
        0 => model(random, case),
        1 => base(random, case),
        2 => pose(random, case),
        3 => finite(random, case),
        4 => link(random, case),
        5 => sum(random, case),
        6 => figures(random, case),
        _ => not_finite(random, case),
    }
}
