//! Load buffer scripts: operations of chance, refused ones among them.

use super::numbers::{CORNERS, NOT_FINITE, plains};
use crate::buffer::{ADD, CLEAR, LEN, LIST, NEW, REMOVE, SET};
use crate::bytes::{put, put_floats};
use crate::random::Random;

/// What the script's maker knows of the buffer: its id and link count.
struct Scene {
    id: u64,
    count: u64,
}

/// A new buffer's operation.
fn new(id: u64, count: u64) -> Vec<u8> {
    let mut out = vec![NEW];
    put(&mut out, 8, id);
    put(&mut out, 8, count);
    out
}

/// An operation that names a link.
fn on_link(code: u8, id: u64, link: u64) -> Vec<u8> {
    let mut out = vec![code];
    put(&mut out, 8, id);
    put(&mut out, 8, link);
    out
}

/// A wrench, finite or not.
fn wrench(random: &mut Random) -> [f64; 6] {
    let mut values: [f64; 6] = plains(random, 20.0);
    match random.below(12) {
        0 => values[random.below(6)] = f64::from_bits(random.pick(&NOT_FINITE)),
        1 => values = [-0.0; 6],
        2 => values[random.below(6)] = random.pick(&CORNERS),
        3..6 => values[0] = random.pick(&[f64::MAX, -f64::MAX, 1e308, 1e308]),
        6 => values = values.map(|v| if v > 0.0 { v } else { -0.0 }),
        _ => {}
    }
    values
}

/// A set, add or remove on a link, now and then not the buffer's.
fn change(random: &mut Random, scene: &Scene, code: u8) -> Vec<u8> {
    let mut id = scene.id;
    let mut link = random.below(scene.count as usize) as u64;
    match random.below(14) {
        0 => id = random.pick(&[scene.id ^ 1, scene.id ^ (1 << 63)]),
        1 => link = random.pick(&[scene.count, 64, 65535, u64::MAX]),
        _ => {}
    }
    let mut out = on_link(code, id, link);
    if code != REMOVE {
        put_floats(&mut out, &wrench(random));
    }
    out
}

/// The next operation of a scene.
fn next(random: &mut Random, scene: &Scene) -> Vec<u8> {
    match random.below(40) {
        0..16 => change(random, scene, SET),
        16..26 => change(random, scene, ADD),
        26..35 => change(random, scene, REMOVE),
        35..38 => {
            let mut out = vec![LIST];
            let places = random.below(scene.count as usize + 3) as u64;
            put(&mut out, 8, places);
            out
        }
        38 => vec![LEN],
        _ if random.once_in(4) => vec![CLEAR],
        _ => new(scene.id, random.pick(&[0, 65, 1 << 32, u64::MAX])),
    }
}

/// Fills every link of a full buffer, listing it at its limits.
fn fill_all(script: &mut Vec<Vec<u8>>, scene: &Scene) {
    for link in 0..scene.count {
        let mut out = on_link(SET, scene.id, (link * 5) % scene.count);
        put_floats(&mut out, &[link as f64, -0.0, 0.5, 1.0, -1.0, 0.0]);
        script.push(out);
    }
    for places in [scene.count - 1, scene.count, scene.count + 1] {
        let mut out = vec![LIST];
        put(&mut out, 8, places);
        script.push(out);
    }
    script.push(on_link(REMOVE, scene.id, 0));
    script.push(vec![CLEAR]);
}

/// A script of so many operations: scenes of about a hundred, each with its own buffer.
pub fn script(seed: u64, count: usize) -> Vec<Vec<u8>> {
    let mut random = Random::new(seed ^ 0x6275_6666_6572, 0);
    let mut script: Vec<Vec<u8>> = Vec::new();
    for at in 0.. {
        if script.len() >= count {
            break;
        }
        let full = at % 40 == 3;
        let id = random.pick(&[0, 7, u64::MAX]);
        let links = if full { 64 } else { 1 + random.below(6) as u64 };
        let scene = Scene { id, count: links };
        script.push(new(id, links));
        if full {
            fill_all(&mut script, &scene);
        }
        for _ in 0..if full { 10 } else { 100 } {
            let operation = next(&mut random, &scene);
            script.push(operation);
        }
    }
    script.truncate(count);
    script
}
