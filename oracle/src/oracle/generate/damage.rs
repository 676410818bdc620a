//! Damaged bytes: layout faults at known fields, and blind changes.

use crate::random::Random;
use crate::records;
use crate::tables::{Case, FIXED};

/// Gives one field of the model record a wrong value.
fn model_field(random: &mut Random, bytes: &mut [u8], links: usize) {
    let byte = random.bits() as u8;
    let joint = 10 + 104 * links + 85 * random.below(links);
    let at = match random.below(6) {
        0 => random.below(4),
        1 => 4,
        2 => 5,
        3 => 6 + random.below(2),
        4 => 8 + random.below(2),
        _ => joint + random.below(5),
    };
    let near = bytes[at].wrapping_add(random.pick(&[1, 255, 2]));
    bytes[at] = if random.once_in(2) { near } else { byte };
}

/// Gives one field of the call record, which starts at a place, a wrong value.
fn call_field(random: &mut Random, bytes: &mut [u8], start: usize, poses: usize) {
    let byte = random.bits() as u8;
    let pose = 164 + 17 * random.below(poses + 1);
    let at = start
        + match random.below(8) {
            0 => random.below(4),
            1 => 4,
            2 => 5,
            3 => 6,
            4 => 7,
            5 => 160 + random.below(4),
            6 => pose,
            _ => pose + 9 + random.below(8),
        };
    let at = at.min(bytes.len() - 1);
    let near = bytes[at].wrapping_add(random.pick(&[1, 255, 2]));
    bytes[at] = if random.once_in(2) { near } else { byte };
}

/// A layout fault at a known field.
pub fn field(random: &mut Random, case: &Case) -> Vec<u8> {
    let mut bytes = records::write(case);
    let start = records::write_model(&case.model).len();
    if random.once_in(2) {
        model_field(random, &mut bytes, case.model.links.len());
    } else {
        call_field(random, &mut bytes, start, case.poses.len());
    }
    bytes
}

/// The first bytes of an input; every length comes in turn.
pub fn cut(mut input: Vec<u8>, at: usize) -> Vec<u8> {
    input.truncate(at % (input.len() + 1));
    input
}

/// An input with one bit changed; every bit comes in turn.
pub fn flip(mut input: Vec<u8>, at: usize) -> Vec<u8> {
    let bit = at % (8 * input.len());
    input[bit / 8] ^= 1 << (bit % 8);
    input
}

/// The records in another order, doubled, or one of them alone.
fn shuffled(random: &mut Random, case: &Case) -> Vec<u8> {
    let (model, call) = (records::write_model(&case.model), records::write_call(case));
    let parts = match random.below(5) {
        0 => vec![call, model],
        1 => vec![model],
        2 => vec![call],
        3 => vec![model.clone(), model, call],
        _ => vec![model, call.clone(), call],
    };
    parts.concat()
}

/// Blind changes of the bytes.
pub fn blind(random: &mut Random, case: &Case) -> Vec<u8> {
    let mut bytes = records::write(case);
    let at = random.below(bytes.len());
    let few = 1 + random.below(9);
    match random.below(9) {
        0 | 1 => {
            for _ in 0..1 + random.below(4) {
                let bit = random.below(8 * bytes.len());
                bytes[bit / 8] ^= 1 << (bit % 8);
            }
        }
        2 => bytes.truncate(at),
        3 => bytes.truncate(bytes.len() - few),
        4 => bytes.extend((0..few).map(|_| random.bits() as u8)),
        5 => bytes.insert(at, random.bits() as u8),
        6 => {
            bytes.remove(at);
        }
        7 => bytes = shuffled(random, case),
        _ => {
            let length = random.below(300);
            bytes = (0..length).map(|_| random.bits() as u8).collect();
        }
    }
    bytes
}

/// A count or a field just past its limit, in a record whose length agrees with it.
pub fn past_limit(random: &mut Random, case: &mut Case) -> Vec<u8> {
    let not_zero = random.pick(&[-0.0, 1.0, f64::NAN, 5e-324]);
    match random.below(6) {
        0 => *case = super::tree::case(random, 65, super::tree::Shape::Any),
        1 => {
            case.model.moving = 64;
            resize(random, case, 64);
        }
        2 => resize(random, case, case.poses.len() + 1),
        3 => {
            for pose in case.poses.iter_mut().filter(|pose| pose.tag == 2) {
                pose.second = not_zero;
            }
        }
        4 => {
            for joint in case
                .model
                .joints
                .iter_mut()
                .filter(|joint| joint.kind == FIXED)
            {
                joint.number = random.pick(&[0, 1, 65534]);
            }
        }
        _ => case.loads = super::tree::loads(random, 0, 1, 257),
    }
    records::write(case)
}

/// Gives the call's lists a length.
fn resize(random: &mut Random, case: &mut Case, length: usize) {
    let pose = super::tree::pose(random, 1);
    case.poses.resize(length, pose);
    case.speeds.resize(length, 1.0);
    case.accelerations.resize(length, 1.0);
    case.posed = length as u64;
}

/// A layout that a model or call of other counts would have.
pub fn counts(random: &mut Random, case: &mut Case) -> Vec<u8> {
    let tag = random.pick(&[0, 3, 255]);
    let many = 257 + random.below(3);
    match random.below(7) {
        0 => case.model.moving = random.pick(&[64, 63, 65535, case.posed + 1]),
        1 => case.model.count = random.pick(&[0, 65, 65535, case.model.count + 1]),
        2 => case.loads = super::tree::loads(random, 0, 1, many),
        3 => case.function = random.pick(&[0, 4, 255]),
        4 => case.mode = random.pick(&[2, 255]),
        5 if !case.poses.is_empty() => case.poses[0].tag = tag,
        _ => case.posed = random.pick(&[64, 65535, case.posed + 1]),
    }
    records::write(case)
}
