//! Sparse numbers: signs of zeros that reach a figure, and rotations whose products are subnormal.

use super::slots;
use crate::random::Random;
use crate::tables::{Case, GRAVITY, INVERSE};

/// Plus or minus zero.
fn zero(random: &mut Random) -> f64 {
    random.pick(&[0.0, -0.0])
}

/// Makes a group one unit number among zeros of both signs.
fn signed_unit(random: &mut Random, group: &mut [&mut f64], at: usize) {
    for slot in group.iter_mut() {
        **slot = zero(random);
    }
    *group[at] = random.pick(&[1.0, -1.0]);
}

/// Gives every rotation, axis and pair the numbers that a maker chooses.
fn each_unit(case: &mut Case, mut maker: impl FnMut(&mut [&mut f64], bool)) {
    maker(&mut case.base[..4].iter_mut().collect::<Vec<_>>(), true);
    for joint in &mut case.model.joints {
        let (front, back) = joint.floats.split_at_mut(7);
        maker(&mut front[..4].iter_mut().collect::<Vec<_>>(), true);
        maker(&mut back.iter_mut().collect::<Vec<_>>(), false);
    }
}

/// Makes nearly every number a zero of some sign.
pub fn zeros(random: &mut Random, case: &mut Case) {
    let often = random.pick(&[1, 4, 12, 40]);
    for slot in slots::free(case) {
        *slot = if random.once_in(often) && often > 1 {
            random.pick(&[1.0, -1.0])
        } else {
            zero(random)
        };
    }
    for link in &mut case.model.links {
        link[0] = random.pick(&[0.0, -0.0, -0.0, link[0].abs()]);
        for x in &mut link[1..4] {
            *x = random.pick(&[1.0, -1.0, *x]);
        }
    }
    each_unit(case, |group, rotation| {
        let at = if rotation { 0 } else { random.below(3) };
        signed_unit(random, group, at);
    });
    for pose in case.poses.iter_mut().filter(|pose| pose.tag == 1) {
        (pose.first, pose.second) = (zero(random), random.pick(&[1.0, -1.0]));
    }
    case.function = random.pick(&[GRAVITY, INVERSE, case.function]);
}

/// A small number whose product with its like is subnormal, or zero.
fn small(random: &mut Random) -> f64 {
    let size = random.signed() * 2f64.powi(-505 - random.below(28) as i32);
    random.pick(&[size, size, 0.0])
}

/// Makes rotations whose small parts have subnormal products, and few, huge numbers.
pub fn tiny(random: &mut Random, case: &mut Case) {
    for slot in slots::free(case) {
        let huge = random.signed() * 2f64.powi(random.below(960) as i32);
        *slot = if random.once_in(6) { huge } else { 0.0 };
    }
    for link in &mut case.model.links {
        link[0] = random.pick(&[0.0, 1.0, 1.0]);
        for x in &mut link[1..4] {
            *x = random.pick(&[0.0, 1.0]);
        }
        link[4..].fill(0.0);
    }
    each_unit(case, |group, rotation| {
        let at = if rotation { 0 } else { random.below(3) };
        signed_unit(random, group, at);
        for slot in group.iter_mut().skip(1).filter(|_| rotation) {
            **slot = small(random);
        }
    });
    for pose in case.poses.iter_mut().filter(|pose| pose.tag == 1) {
        (pose.first, pose.second) = (small(random), 1.0);
    }
}
