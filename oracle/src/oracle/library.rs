//! Library-level cases: reading, writing and answering what records cannot reach.

use crate::bytes::{Reader, put, put_floats};
use crate::call;
use crate::tables::{Case, Joint, Load, Model, Pose};

/// The bits that stand for every NaN among the figures of refusal 8.
const ANY_NAN: u64 = 0x7ff8_0000_0000_0000;

/// The links that stand in a case of a link count.
fn links_held(count: u64) -> u64 {
    count.min(64)
}

/// The pose entries that stand in a case of a positions count.
fn poses_held(count: u64) -> u64 {
    count.min(63)
}

/// Reads a model.
fn read_model(reader: &mut Reader) -> Option<Model> {
    let (id, count, moving) = (reader.number(8)?, reader.number(8)?, reader.number(8)?);
    let held = links_held(count);
    let links = (0..held).map(|_| reader.floats()).collect::<Option<_>>()?;
    let mut joints = Vec::new();
    for _ in 1..held {
        joints.push(Joint {
            kind: reader.number(1)? as u8,
            parent: reader.number(8)?,
            number: reader.number(8)?,
            floats: reader.floats()?,
        });
    }
    Some(Model {
        id,
        count,
        moving,
        links,
        joints,
    })
}

/// Reads a list of floats with its length before it.
fn read_list(reader: &mut Reader) -> Option<Vec<f64>> {
    let count = reader.number(8)?;
    (0..count).map(|_| reader.float()).collect()
}

/// Reads the positions: their count, and the entries that stand there.
fn read_poses(reader: &mut Reader) -> Option<(u64, Vec<Pose>)> {
    let posed = reader.number(8)?;
    let mut poses = Vec::new();
    for _ in 0..poses_held(posed) {
        poses.push(Pose {
            tag: reader.number(1)? as u8,
            first: reader.float()?,
            second: reader.float()?,
        });
    }
    Some((posed, poses))
}

/// Reads the loads.
fn read_loads(reader: &mut Reader) -> Option<Vec<Load>> {
    let count = reader.number(8)?;
    let mut loads = Vec::new();
    for _ in 0..count {
        loads.push(Load {
            id: reader.number(8)?,
            link: reader.number(8)?,
            wrench: reader.floats()?,
        });
    }
    Some(loads)
}

/// Reads a case.
pub fn read(bytes: &[u8]) -> Option<Case> {
    let mut reader = Reader::new(bytes);
    let (function, mode) = (reader.number(1)? as u8, reader.number(1)? as u8);
    let model = read_model(&mut reader)?;
    let base = reader.floats()?;
    let (posed, poses) = read_poses(&mut reader)?;
    Some(Case {
        function,
        mode,
        model,
        base,
        posed,
        poses,
        speeds: read_list(&mut reader)?,
        accelerations: read_list(&mut reader)?,
        loads: read_loads(&mut reader)?,
        output: read_list(&mut reader)?,
    })
}

/// Writes a model.
fn write_model(out: &mut Vec<u8>, model: &Model) {
    put(out, 8, model.id);
    put(out, 8, model.count);
    put(out, 8, model.moving);
    assert_eq!(links_held(model.count), model.links.len() as u64);
    for link in &model.links {
        put_floats(out, link);
    }
    for joint in &model.joints {
        put(out, 1, u64::from(joint.kind));
        put(out, 8, joint.parent);
        put(out, 8, joint.number);
        put_floats(out, &joint.floats);
    }
}

/// Writes a list of floats with its length before it.
fn write_list(out: &mut Vec<u8>, list: &[f64]) {
    put(out, 8, list.len() as u64);
    put_floats(out, list);
}

/// Writes a case.
pub fn write(case: &Case) -> Vec<u8> {
    let mut out = vec![case.function, case.mode];
    write_model(&mut out, &case.model);
    put_floats(&mut out, &case.base);
    put(&mut out, 8, case.posed);
    assert_eq!(poses_held(case.posed), case.poses.len() as u64);
    for pose in &case.poses {
        put(&mut out, 1, u64::from(pose.tag));
        put_floats(&mut out, &[pose.first, pose.second]);
    }
    write_list(&mut out, &case.speeds);
    write_list(&mut out, &case.accelerations);
    put(&mut out, 8, case.loads.len() as u64);
    for load in &case.loads {
        put(&mut out, 8, load.id);
        put(&mut out, 8, load.link);
        put_floats(&mut out, &load.wrench);
    }
    write_list(&mut out, &case.output);
    out
}

/// The answer: the number, then the output at exit; under 8 every NaN is one value.
pub fn answer(bytes: &[u8]) -> Vec<u8> {
    let mut case = read(bytes).expect("a library case");
    let number = call::answer(&mut case);
    let mut out = vec![number];
    put(&mut out, 8, case.output.len() as u64);
    for figure in &case.output {
        let open = number == 8 && figure.is_nan();
        put(&mut out, 8, if open { ANY_NAN } else { figure.to_bits() });
    }
    out
}
