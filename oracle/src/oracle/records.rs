//! The byte records of document 01: reading, writing, and the answer to any input.

use crate::bytes::{Reader, put, put_floats, put_frame};
use crate::call;
use crate::tables::{Case, FIXED, Joint, Load, Model, NO_NUMBER, Pose};

/// The version byte of every record.
const VERSION: u64 = 1;

/// Passes when the test holds.
fn need(test: bool) -> Option<()> {
    test.then_some(())
}

/// The next record's body after its length, version and kind.
fn body<'a>(input: &mut Reader<'a>, kind: u64) -> Option<Reader<'a>> {
    let length = input.number(4)? as usize;
    let mut record = Reader::new(input.take(length)?);
    need(record.number(1)? == VERSION && record.number(1)? == kind)?;
    Some(record)
}

/// Reads a joint.
fn read_joint(record: &mut Reader) -> Option<Joint> {
    let joint = Joint {
        kind: record.number(1)? as u8,
        parent: record.number(2)?,
        number: record.number(2)?,
        floats: record.floats()?,
    };
    need(joint.kind <= 2 && (joint.kind != FIXED || joint.number == NO_NUMBER))?;
    Some(joint)
}

/// Reads a model record.
fn read_model(input: &mut Reader) -> Option<Model> {
    let mut record = body(input, 1)?;
    let (count, moving) = (record.number(2)?, record.number(2)?);
    need((1..=64).contains(&count) && moving <= 63)?;
    need(record.left() as u64 == 104 * count + 85 * (count - 1))?;
    let links = (0..count).map(|_| record.floats()).collect::<Option<_>>()?;
    let joints = (1..count)
        .map(|_| read_joint(&mut record))
        .collect::<Option<_>>()?;
    Some(Model {
        id: 0,
        count,
        moving,
        links,
        joints,
    })
}

/// Reads a pose entry.
fn read_pose(record: &mut Reader) -> Option<Pose> {
    let pose = Pose {
        tag: record.number(1)? as u8,
        first: record.float()?,
        second: record.float()?,
    };
    need(pose.tag == 1 || (pose.tag == 2 && pose.second.to_bits() == 0))?;
    Some(pose)
}

/// Reads a load; its id is the model's.
fn read_load(record: &mut Reader) -> Option<Load> {
    Some(Load {
        id: 0,
        link: record.number(2)?,
        wrench: record.floats()?,
    })
}

/// Reads a call record that belongs to a model.
fn read_call(input: &mut Reader, model: Model) -> Option<Case> {
    let mut record = body(input, 2)?;
    let (function, mode) = (record.number(1)? as u8, record.number(1)? as u8);
    need((1..=3).contains(&function) && mode <= 1)?;
    let base = record.floats()?;
    let (m, k) = (record.number(2)?, record.number(2)?);
    need(m == model.moving && k <= 256)?;
    need(record.left() as u64 == 33 * m + 50 * k)?;
    let poses = (0..m)
        .map(|_| read_pose(&mut record))
        .collect::<Option<_>>()?;
    let speeds = (0..m).map(|_| record.float()).collect::<Option<_>>()?;
    let accelerations = (0..m).map(|_| record.float()).collect::<Option<_>>()?;
    let loads = (0..k)
        .map(|_| read_load(&mut record))
        .collect::<Option<_>>()?;
    let output = vec![0.0; m as usize + 6 * usize::from(mode)];
    Some(Case {
        function,
        mode,
        model,
        base,
        posed: m,
        poses,
        speeds,
        accelerations,
        loads,
        output,
    })
}

/// Reads one model and one call with nothing after them.
pub fn read(input: &[u8]) -> Option<Case> {
    let mut reader = Reader::new(input);
    let model = read_model(&mut reader)?;
    let case = read_call(&mut reader, model)?;
    need(reader.left() == 0)?;
    Some(case)
}

/// Writes the model record of a case.
pub fn write_model(model: &Model) -> Vec<u8> {
    let mut record = vec![VERSION as u8, 1];
    put(&mut record, 2, model.count);
    put(&mut record, 2, model.moving);
    for link in &model.links {
        put_floats(&mut record, link);
    }
    for joint in &model.joints {
        put(&mut record, 1, u64::from(joint.kind));
        put(&mut record, 2, joint.parent);
        put(&mut record, 2, joint.number);
        put_floats(&mut record, &joint.floats);
    }
    let mut out = Vec::new();
    put_frame(&mut out, &record);
    out
}

/// Writes the call record of a case.
pub fn write_call(case: &Case) -> Vec<u8> {
    let mut record = vec![VERSION as u8, 2, case.function, case.mode];
    put_floats(&mut record, &case.base);
    put(&mut record, 2, case.posed);
    put(&mut record, 2, case.loads.len() as u64);
    for pose in &case.poses {
        put(&mut record, 1, u64::from(pose.tag));
        put_floats(&mut record, &[pose.first, pose.second]);
    }
    put_floats(&mut record, &case.speeds);
    put_floats(&mut record, &case.accelerations);
    for load in &case.loads {
        put(&mut record, 2, load.link);
        put_floats(&mut record, &load.wrench);
    }
    let mut out = Vec::new();
    put_frame(&mut out, &record);
    out
}

/// Writes both records of a case.
pub fn write(case: &Case) -> Vec<u8> {
    let mut out = write_model(&case.model);
    out.extend(write_call(case));
    out
}

/// The answer record of a number and figures; a refused one has none.
fn answer_record(number: u8, figures: &[f64]) -> Vec<u8> {
    let figures = if number == 0 { figures } else { &[] };
    let mut record = vec![VERSION as u8, 3, number];
    put(&mut record, 2, figures.len() as u64);
    put_floats(&mut record, figures);
    let mut out = Vec::new();
    put_frame(&mut out, &record);
    out
}

/// The answer record to any input at all.
pub fn answer(input: &[u8]) -> Vec<u8> {
    match read(input) {
        None => answer_record(9, &[]),
        Some(mut case) => {
            let number = call::answer(&mut case);
            answer_record(number, &case.output)
        }
    }
}
