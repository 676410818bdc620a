//! Good cases: trees of every shape and size with every mix of kinds.

use super::numbers::{axis, pair, plain, plains, rotation};
use crate::random::Random;
use crate::tables::{Case, FIXED, Joint, Load, Model, NO_NUMBER, Pose, REVOLUTE};

/// The shapes of a tree.
#[derive(Clone, Copy)]
pub enum Shape {
    Chain,
    Star,
    Branches,
    Any,
}

/// The parent of a joint in a shape.
fn parent(random: &mut Random, shape: Shape, joint: usize) -> usize {
    match shape {
        Shape::Chain => joint,
        Shape::Star => 0,
        Shape::Branches => joint.saturating_sub(1),
        Shape::Any => random.below(joint + 1),
    }
}

/// A link with plain numbers.
fn link(random: &mut Random) -> [f64; 13] {
    let mut link: [f64; 13] = plains(random, 2.0);
    link[0] = match random.below(8) {
        0 => random.pick(&[0.0, -0.0, 1.0, 2.0]),
        _ => (random.signed() + 1.0) * 5.0,
    };
    if random.once_in(6) {
        link[4..].fill(0.0);
    }
    link
}

/// A joint's origin rotation, origin translation and axis.
fn joint_floats(random: &mut Random) -> [f64; 10] {
    let mut floats: [f64; 10] = plains(random, 1.5);
    floats[..4].copy_from_slice(&rotation(random));
    floats[7..].copy_from_slice(&axis(random));
    if random.once_in(5) {
        floats[4..7].fill(0.0);
    }
    floats
}

/// The numbers below m in an order of chance, or rising.
fn numbers(random: &mut Random, m: usize) -> Vec<u64> {
    let mut list: Vec<u64> = (0..m as u64).collect();
    if random.once_in(2) {
        for at in (1..m).rev() {
            list.swap(at, random.below(at + 1));
        }
    }
    list
}

/// A model of so many links; one kind alone, or any mix of kinds.
fn model(random: &mut Random, count: usize, shape: Shape) -> Model {
    let only = random.below(8) as u8;
    let kind = |random: &mut Random| {
        if only < 3 {
            only
        } else {
            random.below(3) as u8
        }
    };
    let kinds: Vec<u8> = (1..count).map(|_| kind(random)).collect();
    let moving = kinds.iter().filter(|kind| **kind != FIXED).count();
    let mut free = numbers(random, moving).into_iter();
    let mut joints = Vec::new();
    for (at, kind) in kinds.iter().enumerate() {
        joints.push(Joint {
            kind: *kind,
            parent: parent(random, shape, at) as u64,
            number: if *kind == FIXED {
                NO_NUMBER
            } else {
                free.next().expect("m numbers")
            },
            floats: joint_floats(random),
        });
    }
    Model {
        id: 0,
        count: count as u64,
        moving: moving as u64,
        links: (0..count).map(|_| link(random)).collect(),
        joints,
    }
}

/// A pose entry for a joint of a kind.
pub fn pose(random: &mut Random, kind: u8) -> Pose {
    if kind == REVOLUTE {
        let [first, second] = pair(random);
        return Pose {
            tag: 1,
            first,
            second,
        };
    }
    Pose {
        tag: 2,
        first: plain(random, 2.0),
        second: 0.0,
    }
}

/// Loads on links of chance.
pub fn loads(random: &mut Random, id: u64, links: usize, count: usize) -> Vec<Load> {
    let load = |_| Load {
        id,
        link: random.below(links) as u64,
        wrench: plains(random, 30.0),
    };
    (0..count).map(load).collect()
}

/// A base state with plain numbers.
fn base(random: &mut Random) -> [f64; 19] {
    let mut base: [f64; 19] = plains(random, 3.0);
    base[..4].copy_from_slice(&rotation(random));
    if random.once_in(3) {
        base[7..].fill(0.0);
    }
    base
}

/// The number of links of a small, middle or big tree.
pub fn size(random: &mut Random, small: bool) -> usize {
    match random.below(40) {
        _ if small => 1 + random.below(4),
        0..30 => 1 + random.below(6),
        30..38 => 7 + random.below(10),
        _ => 17 + random.below(48),
    }
}

/// A good case of so many links.
pub fn case(random: &mut Random, count: usize, shape: Shape) -> Case {
    let model = model(random, count, shape);
    let m = model.moving as usize;
    let mut poses = vec![pose(random, REVOLUTE); m];
    for joint in model.joints.iter().filter(|joint| joint.kind != FIXED) {
        poses[joint.number as usize] = pose(random, joint.kind);
    }
    let (function, mode) = (1 + random.below(3) as u8, random.below(2) as u8);
    let load_count = if random.once_in(2) {
        0
    } else {
        random.below(8)
    };
    Case {
        function,
        mode,
        base: base(random),
        posed: m as u64,
        poses,
        speeds: (0..m).map(|_| plain(random, 4.0)).collect(),
        accelerations: (0..m).map(|_| plain(random, 9.0)).collect(),
        loads: loads(random, 0, count, load_count),
        output: vec![0.0; m + 6 * usize::from(mode)],
        model,
    }
}

/// A good case of a shape and size of chance.
pub fn any(random: &mut Random, small: bool) -> Case {
    let shape = random.pick(&[Shape::Chain, Shape::Star, Shape::Branches, Shape::Any]);
    let count = size(random, small);
    case(random, count, shape)
}
