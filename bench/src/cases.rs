//! The calls that are timed: a tree of a shape and size, four joints in five revolute, four loads.

use crate::random::Random;
use crate::tables::{Case, PRISMATIC, REVOLUTE};
use crate::tree::{Shape, case, loads, pose};

/// The functions by their numbers in a record, less one.
pub const FUNCTIONS: [&str; 3] = ["inverse dynamics", "gravity", "velocity product"];

/// The modes by their numbers.
pub const MODES: [&str; 2] = ["fixed", "floating"];

/// The trees: each with its name.
pub const SHAPES: [(&str, Shape); 3] = [
    ("chain", Shape::Chain),
    ("two branches", Shape::Branches),
    ("random", Shape::Any),
];

/// How many loads a call has, where its function takes any.
const LOADS: usize = 4;

/// The same call for the same arguments, always.
pub fn made(function: u8, mode: u8, shape: usize, count: usize) -> Case {
    let mut random = Random::new(10, count as u64 * 3 + shape as u64);
    let mut made = case(&mut random, count, SHAPES[shape].1);
    let m = count - 1;
    for (at, joint) in made.model.joints.iter_mut().enumerate() {
        joint.kind = if at % 5 == 4 { PRISMATIC } else { REVOLUTE };
        joint.number = at as u64;
    }
    let values = |random: &mut Random| (0..m).map(|_| random.signed() * 4.0).collect();
    made.model.moving = m as u64;
    made.posed = m as u64;
    let kinds: Vec<u8> = made.model.joints.iter().map(|joint| joint.kind).collect();
    made.poses = kinds.iter().map(|kind| pose(&mut random, *kind)).collect();
    made.speeds = values(&mut random);
    made.accelerations = values(&mut random);
    made.loads = loads(&mut random, 0, count, LOADS);
    made.function = function;
    made.mode = mode;
    made.output = vec![0.0; m + 6 * usize::from(mode)];
    made
}
