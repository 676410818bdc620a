//! Load buffer scripts: each operation is answered by the given `LoadBuffer`.

use crate::bytes::{Reader, put, put_floats};
use crate::call;
use crate::tables::{Case, FIXED, Joint, NO_NUMBER};
use dynibo::{LinkId, LoadBuffer, Result, Wrench};

/// The operations of a script.
pub const NEW: u8 = 1;
pub const SET: u8 = 2;
pub const ADD: u8 = 3;
pub const REMOVE: u8 = 4;
pub const CLEAR: u8 = 5;
pub const LIST: u8 = 6;
pub const LEN: u8 = 7;

/// A place of the lent table: id, link and six floats.
type Place = (u64, u64, [f64; 6]);

/// A model of fixed joints, for its id and link count alone.
fn bare_case(id: u64, count: usize) -> Case {
    let joint = Joint {
        kind: FIXED,
        parent: 0,
        number: NO_NUMBER,
        floats: [1.0, 0.0, 0.0, 0.0, 0.0, 0.0, 0.0, 0.0, 0.0, 1.0],
    };
    Case::at_rest(id, vec![[0.0; 13]; count], vec![joint; count - 1])
}

/// A new buffer; nothing when the link count is not 1 to 64.
fn new_buffer(id: u64, count: u64) -> Option<LoadBuffer> {
    let make = |count| {
        call::robot_model(&bare_case(id, count))
            .robot()
            .load_buffer()
    };
    (1..=64).contains(&count).then(|| make(count as usize))
}

/// The six floats of a wrench.
fn six(wrench: &Wrench) -> [f64; 6] {
    let (t, f) = (wrench.torque, wrench.force);
    [t.x, t.y, t.z, f.x, f.y, f.z]
}

/// What stands at a place of the lent table before a listing.
fn place_at_entry(at: u64) -> Place {
    let floats = std::array::from_fn(|c| (6 * at + c as u64) as f64 + 0.5);
    (1000 + at, 2000 + at, floats)
}

/// Lists the loads into a table of some places; 3 when it is too short.
fn list(buffer: &LoadBuffer, places: u64) -> (u8, Vec<Place>) {
    let mut table: Vec<Place> = (0..places).map(place_at_entry).collect();
    if table.len() < buffer.len() {
        return (3, table);
    }
    for (place, load) in table.iter_mut().zip(buffer.as_slice()) {
        let link = load.link;
        *place = (link.model_id(), link.index() as u64, six(&load.wrench));
    }
    (0, table)
}

/// The refusal number of a buffer call.
fn number(result: Result<()>) -> u8 {
    result.err().map_or(0, |error| error.category().0)
}

/// Does one operation; the number, and the table when it is a listing.
fn apply(buffer: &mut Option<LoadBuffer>, operation: &[u8]) -> Option<(u8, Option<Vec<Place>>)> {
    let mut reader = Reader::new(operation);
    let code = reader.number(1)? as u8;
    if code == NEW {
        let made = new_buffer(reader.number(8)?, reader.number(8)?);
        let refusal = u8::from(made.is_none());
        *buffer = made.or(buffer.take());
        return Some((refusal, None));
    }
    let held = buffer.as_mut()?;
    if code == LIST {
        let (refusal, table) = list(held, reader.number(8)?);
        return Some((refusal, Some(table)));
    }
    if code == CLEAR {
        held.clear();
    }
    if code == CLEAR || code == LEN {
        return Some((0, None));
    }
    let link = LinkId::new(reader.number(8)?, reader.number(8)? as usize);
    let result = match code {
        SET => held.set(link, call::wrench(&reader.floats()?)),
        ADD => held.add(link, call::wrench(&reader.floats()?)),
        REMOVE => held.remove(link),
        _ => return None,
    };
    Some((number(result), None))
}

/// The answer bytes: number, count, the stored loads, and a listing's table.
fn answer_bytes(refusal: u8, buffer: &LoadBuffer, table: Option<Vec<Place>>) -> Vec<u8> {
    assert_eq!(buffer.is_empty(), buffer.len() == 0);
    let mut out = vec![refusal];
    put(&mut out, 2, buffer.len() as u64);
    for load in buffer.as_slice() {
        put(&mut out, 2, load.link.index() as u64);
        put_floats(&mut out, &six(&load.wrench));
    }
    for (id, link, floats) in table.unwrap_or_default() {
        put(&mut out, 8, id);
        put(&mut out, 8, link);
        put_floats(&mut out, &floats);
    }
    out
}

/// The answers to a script's operations, one for each.
pub fn run(operations: &[&[u8]]) -> Vec<Vec<u8>> {
    let mut buffer = None;
    let mut answers = Vec::new();
    for operation in operations {
        let (refusal, table) = apply(&mut buffer, operation).expect("a buffer operation");
        let held = buffer.as_ref().expect("a script begins with a good new");
        answers.push(answer_bytes(refusal, held, table));
    }
    answers
}
