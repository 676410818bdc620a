//! The worked table of document 01, W1 to W9, and the inputs on which the Rust and 01 part.

use crate::records;
use crate::tables::{Case, Joint, Load, VELOCITY};

/// The link of the table: mass 2, centre (1, 0, 0), zero inertia.
const LINK: [f64; 13] = [
    2.0, 1.0, 0.0, 0.0, 0.0, 0.0, 0.0, 0.0, 0.0, 0.0, 0.0, 0.0, 0.0,
];

/// A joint at the root with an identity origin.
fn joint(kind: u8, number: u64, axis: [f64; 3]) -> Joint {
    let mut floats = [1.0, 0.0, 0.0, 0.0, 0.0, 0.0, 0.0, 0.0, 0.0, 0.0];
    floats[7..].copy_from_slice(&axis);
    Joint {
        kind,
        parent: 0,
        number,
        floats,
    }
}

/// A gravity call at rest over the given joints, with a bare root.
fn case(joints: Vec<Joint>) -> Case {
    let mut links = vec![LINK; joints.len() + 1];
    links[0] = [0.0; 13];
    Case::at_rest(0, links, joints)
}

/// A load on a link.
fn load(link: u64, wrench: [f64; 6]) -> Load {
    Load {
        id: 0,
        link,
        wrench,
    }
}

/// The case with some loads.
fn loaded(mut case: Case, loads: &[Load]) -> Vec<u8> {
    case.loads = loads.to_vec();
    records::write(&case)
}

/// The input of W1 to W9, by its number.
pub fn input(number: usize) -> Vec<u8> {
    let y = [0.0, 1.0, 0.0];
    let turn = [0.0, 10.0, 0.0, 0.0, 0.0, 0.0];
    let push = [0.0, 0.0, 0.0, f64::MAX, 0.0, 0.0];
    let m1 = || case(vec![joint(1, 0, y)]);
    match number {
        1 => loaded(m1(), &[]),
        2 => loaded(m1(), &[load(1, turn)]),
        3 => {
            let mut case = m1();
            case.function = VELOCITY;
            case.speeds = vec![5.0];
            records::write(&case)
        }
        4 => loaded(case(vec![joint(2, 0, [0.0, 0.0, 1.0])]), &[]),
        5 => loaded(case(vec![joint(1, 0, y), joint(1, 1, y)]), &[load(2, turn)]),
        6 => loaded(m1(), &[load(1, push), load(1, push)]),
        7 => loaded(m1(), &[load(2, [0.0; 6])]),
        8 => loaded(case(vec![]), &[]),
        _ => vec![],
    }
}

/// The smallest inputs on which the given Rust and document 01 part: a link, then a base state.
pub fn parting(at: usize) -> Vec<u8> {
    let mut case = case(vec![]);
    if at % 2 == 0 {
        case.model.links[0][0] = 1.0;
        case.model.links[0][1] = 2f64.powi(512);
    } else {
        case.base[0] = 2.0;
    }
    records::write(&case)
}
