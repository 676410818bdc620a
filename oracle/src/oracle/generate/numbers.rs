//! Numbers, rotations, axes and pairs for cases.

use crate::random::Random;

/// The square root of a half, as a double.
const HALF_ROOT: f64 = std::f64::consts::FRAC_1_SQRT_2;

/// Rotations that are exact or simple.
const SIMPLE_ROTATIONS: [[f64; 4]; 8] = [
    [1.0, 0.0, 0.0, 0.0],
    [1.0, 0.0, 0.0, 0.0],
    [0.0, 1.0, 0.0, 0.0],
    [0.0, 0.0, -1.0, 0.0],
    [0.5, 0.5, 0.5, 0.5],
    [0.6, 0.8, 0.0, 0.0],
    [HALF_ROOT, 0.0, HALF_ROOT, 0.0],
    [-HALF_ROOT, 0.0, -0.0, HALF_ROOT],
];

/// Axes that are exact or simple.
const SIMPLE_AXES: [[f64; 3]; 7] = [
    [1.0, 0.0, 0.0],
    [0.0, 1.0, 0.0],
    [0.0, 0.0, 1.0],
    [0.0, -1.0, 0.0],
    [-0.0, 0.0, -1.0],
    [0.6, 0.0, 0.8],
    [HALF_ROOT, HALF_ROOT, 0.0],
];

/// Doubles at the ends and corners of the range.
pub const CORNERS: [f64; 14] = [
    0.0,
    -0.0,
    f64::MAX,
    -f64::MAX,
    f64::MIN_POSITIVE,
    -f64::MIN_POSITIVE,
    5e-324,
    -5e-324,
    1e200,
    -1e200,
    1e-200,
    1e308,
    2.2250738585072009e-308,
    1.0,
];

/// The bits of NaNs of several payloads and both signs, and of both infinities.
pub const NOT_FINITE: [u64; 9] = [
    0x7ff8_0000_0000_0000,
    0xfff8_0000_0000_0000,
    0x7ff0_0000_0000_0001,
    0xfff0_0000_0000_0001,
    0x7ff4_dead_beef_cafe,
    0x7fff_ffff_ffff_ffff,
    0xffff_ffff_ffff_ffff,
    0x7ff0_0000_0000_0000,
    0xfff0_0000_0000_0000,
];

/// A plain number: simple or with all bits in use.
pub fn plain(random: &mut Random, scale: f64) -> f64 {
    match random.below(8) {
        0 => random.pick(&[0.0, -0.0, 1.0, -1.0, 2.0, 0.5, 0.25]),
        1 => (random.below(17) as f64 - 8.0) * 0.25 * scale,
        _ => random.signed() * scale,
    }
}

/// An array of plain numbers.
pub fn plains<const N: usize>(random: &mut Random, scale: f64) -> [f64; N] {
    std::array::from_fn(|_| plain(random, scale))
}

/// Numbers scaled to a sum of squares of 1.
fn unit<const N: usize>(random: &mut Random) -> [f64; N] {
    loop {
        let values: [f64; N] = std::array::from_fn(|_| random.signed());
        let squares: f64 = values.iter().map(|v| v * v).sum();
        if squares > 0.01 {
            return values.map(|v| v / squares.sqrt());
        }
    }
}

/// A rotation that passes the unit test.
pub fn rotation(random: &mut Random) -> [f64; 4] {
    if random.once_in(3) {
        random.pick(&SIMPLE_ROTATIONS)
    } else {
        unit(random)
    }
}

/// An axis that passes the unit test.
pub fn axis(random: &mut Random) -> [f64; 3] {
    if random.once_in(3) {
        random.pick(&SIMPLE_AXES)
    } else {
        unit(random)
    }
}

/// A half-angle pair (s, c) that passes the unit test.
pub fn pair(random: &mut Random) -> [f64; 2] {
    if random.once_in(4) {
        random.pick(&[
            [0.0, 1.0],
            [1.0, 0.0],
            [-1.0, -0.0],
            [0.6, 0.8],
            [HALF_ROOT, HALF_ROOT],
        ])
    } else {
        unit(random)
    }
}
