//! Counts the record cases in which the given Rust and document 01 part.

use crate::tables::Case;
use crate::{call, check, records};
use dynibo::{IndexedLoad, LinkId, RobotModel, Wrench};

/// How many cases were read, and how many part for each reason.
#[derive(Default)]
struct Counts {
    cases: usize,
    links: usize,
    taken: usize,
    base: usize,
}

/// Counts one case.
fn count(counts: &mut Counts, input: &[u8]) {
    let Some(case) = records::read(input) else {
        return;
    };
    counts.cases += 1;
    let refused = |link| !RobotModel::takes_link(link);
    if check::model_good(&case.model) && case.model.links.iter().any(refused) {
        counts.links += 1;
    }
    let taken = |link| RobotModel::takes_link(link) && !check::link_good(link);
    if case.model.links.iter().any(taken) {
        counts.taken += 1;
    }
    if call::base_state(&case.base).is_ok() && !check::base_good(&case.base) {
        counts.base += 1;
    }
}

/// The given Rust's own number for 257 zero loads on the only link of a model.
fn many_loads() -> u8 {
    let load = IndexedLoad {
        link: LinkId::new(0, 0),
        wrench: Wrench::zeros(),
    };
    let case = Case::at_rest(0, vec![[0.0; 13]], vec![]);
    call::run(&case, &[load; 257], &mut [])
}

/// The counts as text.
pub fn report(inputs: &[&[u8]]) -> String {
    let mut counts = Counts::default();
    for input in inputs {
        count(&mut counts, input);
    }
    format!(
        "readable cases {}\n\
         good models with a link that Link::new refuses {}\n\
         models with a link that Link::new takes and 01 refuses {}\n\
         base states that BaseState::new takes and 01 refuses {}\n\
         the given Rust's number for 257 loads {}\n",
        counts.cases,
        counts.links,
        counts.taken,
        counts.base,
        many_loads(),
    )
}
