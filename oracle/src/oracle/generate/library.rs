//! Library-level cases: wrong lengths, foreign ids, many loads, outputs at entry.

use super::{extreme, faults, tree};
use crate::random::Random;
use crate::tables::{Case, FIXED, NO_NUMBER};

/// A length beside the right one.
fn off(random: &mut Random, right: usize) -> usize {
    random.pick(&[
        right + 1,
        right.saturating_sub(1),
        0,
        right + 6,
        64,
        right + 2,
    ])
}

/// Gives the positions another count; the entries are those that can stand.
fn positions(random: &mut Random, case: &mut Case) {
    let near = off(random, case.poses.len()) as u64;
    let count = random.pick(&[near, near, 64, u64::MAX]);
    let held = count.min(63) as usize;
    while case.poses.len() < held {
        case.poses.push(tree::pose(random, 1));
    }
    case.poses.truncate(held);
    case.posed = count;
}

/// Spoils the model in ways that records cannot.
fn model(random: &mut Random, case: &mut Case) {
    let big = random.pick(&[65u64, 64 + 4096, u64::MAX]);
    let at = random.below(case.model.joints.len().max(1));
    match random.below(6) {
        0 => {
            case.model.count = 0;
            case.model.links.clear();
            case.model.joints.clear();
        }
        1 => case.model.moving = random.pick(&[64, 65536, u64::MAX]),
        _ if case.model.joints.is_empty() => case.model.moving = big,
        2 => case.model.joints[at].kind = random.pick(&[3, 255]),
        3 => case.model.joints[at].parent = random.pick(&[at as u64 + 1, 65536, u64::MAX]),
        4 => case.model.joints[at].number = random.pick(&[64, 65536, u64::MAX]),
        _ => {
            case.model.joints[at].kind = FIXED;
            case.model.joints[at].number = random.pick(&[0, 65534, NO_NUMBER, u64::MAX]);
        }
    }
}

/// Makes the link count more than 64.
fn oversize(random: &mut Random) -> Case {
    let mut case = tree::case(random, 64, tree::Shape::Any);
    case.model.count = random.pick(&[65, 1 << 32, u64::MAX]);
    case
}

/// Gives a load another model's id.
fn foreign(random: &mut Random, case: &mut Case) {
    if case.loads.is_empty() {
        case.loads = tree::loads(random, case.model.id, case.model.links.len().max(1), 3);
    }
    let at = random.below(case.loads.len());
    case.loads[at].id = random.pick(&[case.model.id ^ 1, case.model.id ^ (1 << 63), u64::MAX, 0]);
    if random.once_in(3) {
        case.loads[at].link = random.pick(&[case.model.count, u64::MAX, 1 << 32]);
    }
}

/// Gives a call more loads than it takes, or just as many.
fn many(random: &mut Random, case: &mut Case) {
    let count = random.pick(&[257, 257, 256, 300]);
    case.loads = tree::loads(random, case.model.id, case.model.links.len().max(1), count);
}

/// Whether the lists still have the lengths that the makers of record faults count on.
fn whole(case: &Case) -> bool {
    let m = case.poses.len();
    case.model.count != 0
        && case.model.moving == m as u64
        && case.posed == m as u64
        && case.speeds.len() == m
        && case.accelerations.len() == m
}

/// One fault that the library can meet.
fn fault(random: &mut Random, case: &mut Case) {
    let m = case.model.moving.min(63) as usize;
    match random.below(15) {
        0 => positions(random, case),
        1 => case.speeds = vec![0.5; off(random, m)],
        2 => case.accelerations = vec![-0.5; off(random, m)],
        3 | 4 => case.output = vec![0.0; off(random, case.output.len())],
        5 => model(random, case),
        6 | 7 => foreign(random, case),
        8 if random.once_in(8) => many(random, case),
        9 | 10 => faults::figures(random, case),
        11..15 if whole(case) => faults::any(random, case),
        _ if case.model.count != 0 => extreme::unit_limit(random, case),
        _ => {}
    }
}

/// Fills the output at entry with numbers of all sorts, NaN too.
fn fill(random: &mut Random, case: &mut Case) {
    for figure in &mut case.output {
        *figure = match random.below(4) {
            0 => f64::from_bits(random.pick(&super::numbers::NOT_FINITE)),
            1 => random.pick(&super::numbers::CORNERS),
            _ => random.signed(),
        };
    }
}

/// A library case: a good one, one with a fault, or one with several.
pub fn case(seed: u64, at: usize) -> Case {
    let mut random = Random::new(seed ^ 0x6c69_6272_6172_79, at as u64);
    let mut case = tree::any(&mut random, true);
    if at % 100 == 99 {
        case = oversize(&mut random);
    }
    case.model.id = random.pick(&[0, 1, 77, u64::MAX, 1 << 63]);
    for load in &mut case.loads {
        load.id = case.model.id;
    }
    if at % 64 == 63 {
        many(&mut random, &mut case);
    }
    for _ in 0..random.pick(&[0, 1, 1, 1, 2, 2, 3]) {
        fault(&mut random, &mut case);
    }
    fill(&mut random, &mut case);
    case
}
