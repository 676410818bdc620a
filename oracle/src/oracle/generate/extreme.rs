//! Extreme numbers: huge, tiny, mixed exponents, corners, zeros, and the unit test's limits.

use super::numbers::{CORNERS, NOT_FINITE};
use super::slots;
use crate::random::Random;
use crate::tables::Case;

/// A power of two; exponents below the normal range give subnormals or zero.
fn power(exponent: i32) -> f64 {
    2f64.powi(exponent / 2) * 2f64.powi(exponent - exponent / 2)
}

/// Gives all free numbers, or some of them, other magnitudes.
pub fn magnitudes(random: &mut Random, case: &mut Case) {
    let profile = random.below(6);
    let shift = match profile {
        0 => -(random.below(1070) as i32),
        1 => random.below(1010) as i32,
        _ => 0,
    };
    for slot in slots::free(case) {
        let value = match profile {
            0 | 1 => *slot * power(shift),
            2 => *slot * power(random.below(601) as i32 - 300),
            3 if random.once_in(3) => random.pick(&[0.0, -0.0]),
            4 if random.once_in(12) => random.pick(&CORNERS),
            5 if random.once_in(4) => *slot * power(random.below(2000) as i32 - 1000),
            _ => *slot,
        };
        *slot = if value.is_finite() { value } else { 1.0 };
    }
    for link in &mut case.model.links {
        link[0] = link[0].abs();
        if link[1..4].iter().any(|x| !(link[0] * x).is_finite()) && !random.once_in(8) {
            link[1..4].fill(0.0);
        }
    }
}

/// Puts a NaN or an infinity at one place of one list.
pub fn not_finite(random: &mut Random, case: &mut Case) {
    let mut groups = slots::groups(case);
    let chosen = random.below(groups.len());
    let group = &mut groups[chosen];
    let at = random.below(group.len());
    *group[at] = f64::from_bits(random.pick(&NOT_FINITE));
}

/// Moves one rotation, axis or pair to a place at or beside a limit of the unit test.
pub fn unit_limit(random: &mut Random, case: &mut Case) {
    let mut group = slots::unit_group(random, case);
    let one = random.below(group.len());
    let other = (one + 1 + random.below(group.len() - 1)) % group.len();
    let sign = random.pick(&[1.0, -1.0]);
    for slot in &mut group {
        **slot = 0.0;
    }
    let near = random.pick(&[1.0, 2.0, 4.0, 8.0, 16.0]) * power(-43);
    let bits = 1.0 + random.pick(&[1.0, -1.0]) * near;
    let nudge = random.below(5) as i64 - 2;
    let edge = f64::from_bits((bits.to_bits() as i64 + nudge) as u64);
    let side = power(random.pick(&[-20, -20, -19, -19, -21, -18]));
    let nudged = f64::from_bits((side.to_bits() as i64 + random.below(3) as i64 - 1) as u64);
    let (first, second) = match random.below(5) {
        0 => (edge, 0.0),
        1 => (1.0, side),
        2 => (1.0, nudged),
        3 => (edge, side),
        _ => random.pick(&[
            (0.0, 0.0),
            (2.0, 0.0),
            (1e200, 0.0),
            (1.0, 1.0),
            (1.0, 1e-300),
        ]),
    };
    *group[one] = sign * first;
    *group[other] = second;
}
