//! One call of the given Rust, with document 01's checks before it.

use crate::check;
use crate::tables::{Case, FIXED, GRAVITY, INVERSE, Load, PRISMATIC, REVOLUTE, VELOCITY};
use dynibo::{BaseState, Frame, IndexedLoad, JointType, LinkId, Result, RobotModel, Twist, Wrench};
use nalgebra::{Isometry3, Translation3, UnitQuaternion, Vector3};

/// The most loads that a call takes.
const MOST_LOADS: usize = 256;

/// The vector at a place of a list.
fn vector(list: &[f64], at: usize) -> Vector3<f64> {
    Vector3::new(list[at], list[at + 1], list[at + 2])
}

/// The wrench of six floats.
pub fn wrench(values: &[f64; 6]) -> Wrench {
    Wrench::new(vector(values, 0), vector(values, 3))
}

/// The base frame of a base state's floats.
pub fn base_frame(base: &[f64; 19]) -> Frame {
    Isometry3 {
        rotation: UnitQuaternion {
            coords: [base[0], base[1], base[2], base[3]],
        },
        translation: Translation3 {
            vector: vector(base, 4),
        },
    }
}

/// The motion at a place of a base state's floats.
fn twist(base: &[f64; 19], at: usize) -> Twist {
    Twist {
        angular: vector(base, at),
        linear: vector(base, at + 3),
    }
}

/// The base state as the given `BaseState::new` makes it.
pub fn base_state(base: &[f64; 19]) -> Result<BaseState> {
    BaseState::new(base_frame(base), twist(base, 7), twist(base, 13))
}

/// The given Rust's model of a good model, with the pairs set in its joints.
pub fn robot_model(case: &Case) -> RobotModel {
    let mut joints = Vec::new();
    for joint in &case.model.joints {
        let number = (joint.kind != FIXED).then_some(joint.number as usize);
        let half = match (joint.kind, number) {
            (REVOLUTE, Some(n)) => (case.poses[n].first, case.poses[n].second),
            _ => (0.0, 1.0),
        };
        let joint_type = match joint.kind {
            REVOLUTE => JointType::Revolute,
            PRISMATIC => JointType::Prismatic,
            _ => JointType::Fixed,
        };
        joints.push((
            joint_type,
            joint.parent as usize,
            number,
            joint.floats,
            half,
        ));
    }
    RobotModel::from_tables(case.model.id, &case.model.links, &joints)
}

/// The positions that the given Rust sees: distances, and a dummy 0 for a pair.
pub fn positions(case: &Case) -> Vec<f64> {
    let value = |pose: &crate::tables::Pose| if pose.tag == 2 { pose.first } else { 0.0 };
    case.poses.iter().map(value).collect()
}

/// The given Rust's load of a load record.
pub fn indexed(load: &Load) -> IndexedLoad {
    IndexedLoad {
        link: LinkId::new(load.id, load.link as usize),
        wrench: wrench(&load.wrench),
    }
}

/// Calls the fixed robot.
fn run_fixed(case: &Case, loads: &[IndexedLoad], output: &mut [f64]) -> Result<()> {
    let q = positions(case);
    let mut robot = robot_model(case).robot();
    robot.set_base_frame(base_frame(&case.base))?;
    match case.function {
        INVERSE => robot.inverse_dynamics(&q, &case.speeds, &case.accelerations, loads, output),
        GRAVITY => robot.gravity(&q, loads, output),
        VELOCITY => robot.velocity_product_forces(&q, &case.speeds, output),
        _ => unreachable!("functions are 1 to 3"),
    }
}

/// Calls the floating robot.
fn run_floating(case: &Case, loads: &[IndexedLoad], output: &mut [f64]) -> Result<()> {
    let q = positions(case);
    let base = base_state(&case.base)?;
    let mut robot = robot_model(case).floating_robot()?;
    let (qd, qdd) = (&case.speeds, &case.accelerations);
    match case.function {
        INVERSE => robot.inverse_dynamics(&base, &q, qd, qdd, loads, output),
        GRAVITY => robot.gravity(&base, &q, loads, output),
        VELOCITY => robot.velocity_product_forces(&base, &q, qd, output),
        _ => unreachable!("functions are 1 to 3"),
    }
}

/// Calls the robot of the case's mode; 0 or the refusal number.
pub fn run(case: &Case, loads: &[IndexedLoad], output: &mut [f64]) -> u8 {
    let result = if case.mode == 0 {
        run_fixed(case, loads, output)
    } else {
        run_floating(case, loads, output)
    };
    result.err().map_or(0, |error| error.category().0)
}

/// The whole answer: the number, with the case's output as it is at exit.
pub fn answer(case: &mut Case) -> u8 {
    if !check::model_good(&case.model) {
        return 1;
    }
    if base_state(&case.base).is_err() || !check::base_good(&case.base) {
        return 2;
    }
    let refusal = check::positions_refusal(case);
    if refusal != 0 {
        return refusal;
    }
    let mut output = std::mem::take(&mut case.output);
    let number = if case.function != VELOCITY && case.loads.len() > MOST_LOADS {
        match run(case, &[], &mut output.clone()) {
            number @ (3 | 5) => number,
            _ => 10,
        }
    } else {
        let loads: Vec<IndexedLoad> = case.loads.iter().map(indexed).collect();
        run(case, &loads, &mut output)
    };
    case.output = output;
    number
}
