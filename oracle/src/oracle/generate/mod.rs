//! The families of record cases; a seed and a number give one case.

mod buffer;
mod damage;
mod extreme;
mod faults;
mod library;
mod numbers;
mod slots;
mod sparse;
mod tree;
mod worked;

pub use buffer::script;
pub use library::case as library_case;

use crate::random::Random;
use crate::records;
use crate::tables::Case;
use tree::Shape;

/// The families in the order of a round; a family stands as often as it is wanted.
const ROUND: [&str; 46] = [
    "chain",
    "star",
    "branches",
    "random",
    "refuse",
    "clash",
    "extreme",
    "notfinite",
    "unit",
    "damage",
    "chain",
    "random",
    "clash",
    "refuse",
    "extreme",
    "layout",
    "random",
    "sizes",
    "notfinite",
    "damage",
    "star",
    "branches",
    "clash",
    "loads",
    "extreme",
    "unit",
    "random",
    "layout",
    "refuse",
    "chain",
    "clash",
    "damage",
    "extreme",
    "random",
    "notfinite",
    "layout",
    "refuse",
    "unit",
    "clash",
    "random",
    "zeros",
    "tiny",
    "poses",
    "badloads",
    "zeros",
    "tiny",
];

/// A good case of a shape.
fn shaped(random: &mut Random, small: bool, shape: Shape) -> Vec<u8> {
    let count = tree::size(random, small);
    records::write(&tree::case(random, count, shape))
}

/// A good case with many loads; 257 of them once in a while.
fn loaded(random: &mut Random, small: bool) -> Vec<u8> {
    let mut case = tree::any(random, small);
    let count = match random.below(6) {
        0 => random.pick(&[256, 255, 257]),
        _ => random.below(21),
    };
    let links = case.model.links.len();
    case.loads = tree::loads(random, 0, links, count);
    records::write(&case)
}

/// A case changed by one maker, or by several.
fn changed(
    random: &mut Random,
    small: bool,
    times: usize,
    maker: fn(&mut Random, &mut Case),
) -> Vec<u8> {
    let mut case = tree::any(random, small);
    for _ in 0..times {
        maker(random, &mut case);
    }
    records::write(&case)
}

/// Several faults at once; now and then the layout is broken as well.
fn clash(random: &mut Random, small: bool) -> Vec<u8> {
    let mut case = tree::any(random, small);
    for _ in 0..2 + random.below(2) {
        faults::any(random, &mut case);
    }
    if random.once_in(12) {
        damage::field(random, &case)
    } else {
        records::write(&case)
    }
}

/// A layout fault: a count, a limit, or a known field.
fn layout(random: &mut Random, small: bool) -> Vec<u8> {
    let mut case = tree::any(random, small);
    match random.below(3) {
        0 => damage::counts(random, &mut case),
        1 => damage::past_limit(random, &mut case),
        _ => damage::field(random, &case),
    }
}

/// The input of a family; `at` chooses the size or the row where that is fixed.
fn input(random: &mut Random, family: &str, at: usize, small: bool) -> Vec<u8> {
    match family {
        "worked" => worked::input(at % 9 + 1),
        "sizes" => records::write(&tree::case(random, at % 64 + 1, Shape::Any)),
        "chain" => shaped(random, small, Shape::Chain),
        "star" => shaped(random, small, Shape::Star),
        "branches" => shaped(random, small, Shape::Branches),
        "random" => shaped(random, small, Shape::Any),
        "loads" => loaded(random, small),
        "extreme" => changed(random, small, 1, extreme::magnitudes),
        "notfinite" => changed(random, small, 1, extreme::not_finite),
        "unit" => changed(random, small, 1, extreme::unit_limit),
        "zeros" => changed(random, small, 1, sparse::zeros),
        "tiny" => changed(random, small, 1, sparse::tiny),
        "refuse" => changed(random, small, 1, faults::any),
        "poses" => changed(random, small, 2, faults::entry),
        "badloads" => changed(random, small, 3, faults::load),
        "clash" => clash(random, small),
        "layout" => layout(random, small),
        "damage" => {
            let case = tree::any(random, small);
            damage::blind(random, &case)
        }
        "parting" => worked::parting(at),
        "cuts" => damage::cut(worked::input(5), at),
        "flips" => damage::flip(worked::input(5), at),
        _ => panic!("no such family: {family}"),
    }
}

/// The family of a case of the whole mix, and the number that chooses size or row.
fn mixed(at: usize, small: bool) -> (&'static str, usize) {
    let sizes = if small { 64 } else { 0 };
    match at {
        0..9 => ("worked", at),
        _ if at < 9 + sizes => ("sizes", at - 9),
        _ => {
            let after = at - 9 - sizes;
            let family = ROUND[after % ROUND.len()];
            let plain = small && (family == "sizes" || (family == "loads" && after % 7 != 0));
            (if plain { "random" } else { family }, after / ROUND.len())
        }
    }
}

/// A case's family and input; `all` is the whole mix, `fixed` the mix with small trees.
pub fn case(seed: u64, at: usize, family: &str) -> (String, Vec<u8>) {
    let mut random = Random::new(seed, at as u64);
    let small = family == "fixed";
    let (name, row) = if family == "all" || small {
        mixed(at, small)
    } else {
        (family, at)
    };
    (name.to_string(), input(&mut random, name, row, small))
}
