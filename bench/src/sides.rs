//! Both sides of the comparison: the archive of the proved library, and the given Rust.

use crate::call::{base_frame, base_state, indexed, positions, robot_model};
use crate::check::model_good;
use crate::tables::{Case, GRAVITY, INVERSE};
use crate::timing::Side;
use dynibo::IndexedLoad;
use std::hint::black_box;

unsafe extern "C" {
    fn fatonjuki_turns(
        input: *const u8,
        length: usize,
        turns: usize,
        output: *mut f64,
        room: usize,
    ) -> u8;
    fn fatonjuki_checks(input: *const u8, length: usize, turns: usize) -> u8;
}

/// The call of two records so many times over, by the proved library.
pub fn ours(input: &[u8], turns: usize, output: &mut [f64]) -> u8 {
    // SAFETY: both tables are lent with their lengths, and nothing is kept.
    unsafe {
        fatonjuki_turns(
            input.as_ptr(),
            input.len(),
            turns,
            output.as_mut_ptr(),
            output.len(),
        )
    }
}

/// Its model check alone.
pub fn our_check(input: &[u8], turns: usize) -> u8 {
    // SAFETY: the table is lent with its length, and nothing is kept.
    unsafe { fatonjuki_checks(input.as_ptr(), input.len(), turns) }
}

/// The rules of a good model as the oracle's own plain Rust tests them; the given Rust has no such check in a call.
pub fn given_check(case: &Case, turns: usize) -> u8 {
    (0..turns).fold(0, |_, _| {
        u8::from(!black_box(model_good(black_box(&case.model))))
    })
}

/// The same call by the given Rust, its robot made once; the last turn's number.
pub fn given(case: &Case) -> Side {
    let loads: Vec<IndexedLoad> = case.loads.iter().map(indexed).collect();
    let (q, qd, qdd) = (
        positions(case),
        case.speeds.clone(),
        case.accelerations.clone(),
    );
    let (function, mut output) = (case.function, case.output.clone());
    let number = |result: dynibo::Result<()>| result.err().map_or(0, |error| error.category().0);
    if case.mode == 0 {
        let mut robot = robot_model(case).robot();
        robot
            .set_base_frame(base_frame(&case.base))
            .expect("a good base");
        return Box::new(move |turns| {
            (0..turns).fold(0, |_, _| {
                let (q, qd, qdd, loads) = black_box((&q, &qd, &qdd, &loads));
                number(match function {
                    INVERSE => robot.inverse_dynamics(q, qd, qdd, loads, &mut output),
                    GRAVITY => robot.gravity(q, loads, &mut output),
                    _ => robot.velocity_product_forces(q, qd, &mut output),
                })
            })
        });
    }
    let base = base_state(&case.base).expect("a good base");
    let mut robot = robot_model(case).floating_robot().expect("a good model");
    Box::new(move |turns| {
        (0..turns).fold(0, |_, _| {
            let (q, qd, qdd, loads) = black_box((&q, &qd, &qdd, &loads));
            number(match function {
                INVERSE => robot.inverse_dynamics(&base, q, qd, qdd, loads, &mut output),
                GRAVITY => robot.gravity(&base, q, loads, &mut output),
                _ => robot.velocity_product_forces(&base, q, qd, &mut output),
            })
        })
    })
}

/// Stops the run unless both sides accept the call and give the same bits.
pub fn same_figures(case: &Case, input: &[u8]) {
    let mut output = case.output.clone();
    let number = ours(input, 1, &mut output);
    let mut theirs = case.clone();
    assert_eq!(
        (number, crate::call::answer(&mut theirs)),
        (0, 0),
        "refused"
    );
    let bits = |list: &[f64]| list.iter().map(|v| v.to_bits()).collect::<Vec<_>>();
    assert_eq!(bits(&output), bits(&theirs.output), "figures differ");
}
