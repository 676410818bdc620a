//! Times each call by the proved library and by the given Rust: same inputs, one process, turn about.

#[path = "../../oracle/src/oracle/bytes.rs"]
#[allow(dead_code)]
mod bytes;
#[path = "../../oracle/src/oracle/call.rs"]
#[allow(dead_code)]
mod call;
mod cases;
#[path = "../../oracle/src/oracle/check.rs"]
#[allow(dead_code)]
mod check;
#[path = "../../oracle/src/oracle/generate/numbers.rs"]
#[allow(dead_code)]
mod numbers;
#[path = "../../oracle/src/oracle/random.rs"]
mod random;
#[path = "../../oracle/src/oracle/records.rs"]
#[allow(dead_code)]
mod records;
mod sides;
#[path = "../../oracle/src/oracle/tables.rs"]
#[allow(dead_code)]
mod tables;
mod timing;
#[path = "../../oracle/src/oracle/generate/tree.rs"]
#[allow(dead_code)]
mod tree;

use cases::{FUNCTIONS, MODES, SHAPES, made};
use sides::{given, given_check, our_check, ours, same_figures};
use timing::{Timed, fit, rounds};

/// The sizes that are told one by one.
const COUNTS: [usize; 3] = [7, 16, 64];

/// A function, a mode, a tree and a link count.
type Row = (u8, u8, usize, usize);

/// The call of a row on both sides, which must agree to the bit.
fn timed(&(function, mode, shape, count): &Row) -> Timed {
    let case = made(function, mode, shape, count);
    let input = records::write(&case);
    same_figures(&case, &input);
    let mut output = case.output.clone();
    let ours = Box::new(move |turns| ours(&input, turns, &mut output));
    Timed::new(ours, given(&case))
}

/// The model check alone, on a chain.
fn checked(count: &usize) -> Timed {
    let case = made(1, 0, 0, *count);
    let input = records::write(&case);
    Timed::new(
        Box::new(move |turns| our_check(&input, turns)),
        Box::new(move |turns| given_check(&case, turns)),
    )
}

/// Each function in each mode.
fn calls() -> impl Iterator<Item = (u8, u8)> {
    (1..=3).flat_map(|function| (0..=1).map(move |mode| (function, mode)))
}

/// Every call at the three sizes.
fn tell_calls() {
    let rows: Vec<Row> = calls()
        .flat_map(|(function, mode)| {
            (0..SHAPES.len()).flat_map(move |shape| COUNTS.map(|n| (function, mode, shape, n)))
        })
        .collect();
    let mut list: Vec<Timed> = rows.iter().map(timed).collect();
    rounds(&mut list);
    println!("| function | mode | tree | links | ours, ns | given Rust, ns | ratio |");
    println!("|---|---|---|---|---|---|---|");
    for (&(function, mode, shape, count), time) in rows.iter().zip(&mut list) {
        let (function, mode) = (FUNCTIONS[function as usize - 1], MODES[mode as usize]);
        let (ours, given) = time.least;
        println!(
            "| {function} | {mode} | {} | {count} | {ours:.0} | {given:.0} | {:.2} |",
            SHAPES[shape].0,
            time.ratio()
        );
    }
}

/// The model check at the three sizes.
fn tell_checks() {
    let mut list: Vec<Timed> = COUNTS.iter().map(checked).collect();
    rounds(&mut list);
    println!("\n| links | our model check, ns | the oracle's, ns | ratio |");
    println!("|---|---|---|---|");
    for (count, time) in COUNTS.iter().zip(&mut list) {
        let (ours, given) = time.least;
        println!("| {count} | {ours:.0} | {given:.0} | {:.2} |", time.ratio());
    }
}

/// Nanoseconds for each link and besides, over chains of 1 to 64 links.
fn tell_fits() {
    println!(
        "\n| function | mode | ours, ns a link | ours, ns besides | given, ns a link | given, ns besides |"
    );
    println!("|---|---|---|---|---|---|");
    for (function, mode) in calls() {
        let rows = (1..=64).map(|count| (function, mode, 0, count));
        let mut list: Vec<Timed> = rows.map(|row| timed(&row)).collect();
        rounds(&mut list);
        let points = |side: fn(&Timed) -> f64| {
            let links = list.iter().enumerate();
            fit(&links
                .map(|(at, time)| (at as f64 + 1.0, side(time)))
                .collect::<Vec<_>>())
        };
        let (ours, given) = (points(|time| time.least.0), points(|time| time.least.1));
        let (function, mode) = (FUNCTIONS[function as usize - 1], MODES[mode as usize]);
        println!(
            "| {function} | {mode} | {:.1} | {:.0} | {:.1} | {:.0} |",
            ours.0, ours.1, given.0, given.1
        );
    }
}

fn main() {
    tell_calls();
    tell_checks();
    tell_fits();
}
