//! Looks for a small tree at rest where gravity and inverse dynamics differ in the last bit.

use crate::call;
use crate::records;
use crate::tables::{Case, GRAVITY, INVERSE, Joint, REVOLUTE};

/// Simple origin rotations.
const ROTATIONS: [[f64; 4]; 5] = [
    [1.0, 0.0, 0.0, 0.0],
    [0.5, 0.5, 0.5, 0.5],
    [0.8, 0.6, 0.0, 0.0],
    [0.6, 0.8, 0.0, 0.0],
    [0.6, 0.0, 0.8, 0.0],
];

/// The unit vectors, used as axes and as centres.
const UNITS: [[f64; 3]; 3] = [[1.0, 0.0, 0.0], [0.0, 1.0, 0.0], [0.0, 0.0, 1.0]];

/// One link of mass 1 on a revolute joint at the root, at rest.
fn case(function: u8, rotation: [f64; 4], axis: [f64; 3], centre: [f64; 3]) -> Case {
    let mut link = [0.0; 13];
    link[0] = 1.0;
    link[1..4].copy_from_slice(&centre);
    let mut floats = [0.0; 10];
    floats[..4].copy_from_slice(&rotation);
    floats[7..].copy_from_slice(&axis);
    let joint = Joint {
        kind: REVOLUTE,
        parent: 0,
        number: 0,
        floats,
    };
    let mut case = Case::at_rest(0, vec![[0.0; 13], link], vec![joint]);
    case.function = function;
    case
}

/// The only figure of a case that is accepted.
fn figure(mut case: Case) -> f64 {
    assert_eq!(call::answer(&mut case), 0);
    case.output[0]
}

/// A record as hexadecimal digits.
fn hex(bytes: &[u8]) -> String {
    bytes.iter().map(|byte| format!("{byte:02x}")).collect()
}

/// The two figures of a tree as text, when they differ by one unit in the last place.
fn compared(rotation: [f64; 4], axis: [f64; 3], centre: [f64; 3]) -> Option<String> {
    let gravity = figure(case(GRAVITY, rotation, axis, centre));
    let inverse = figure(case(INVERSE, rotation, axis, centre));
    if gravity.to_bits().abs_diff(inverse.to_bits()) != 1 {
        return None;
    }
    let records = records::write(&case(GRAVITY, rotation, axis, centre));
    Some(format!(
        "origin rotation {rotation:?}, axis {axis:?}, centre {centre:?}\n\
         gravity {gravity:?} 0x{:016x}\n\
         inverse dynamics at rest {inverse:?} 0x{:016x}\n\
         records of the gravity call {}\n",
        gravity.to_bits(),
        inverse.to_bits(),
        hex(&records),
    ))
}

/// The first tree of the search on which the two figures differ in the last bit.
pub fn report() -> String {
    for rotation in ROTATIONS {
        for axis in UNITS {
            for centre in UNITS {
                if let Some(text) = compared(rotation, axis, centre) {
                    return text;
                }
            }
        }
    }
    "none found\n".to_string()
}
