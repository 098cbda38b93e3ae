//! The operations: what each runs, and what it answers.

mod draws;
mod relays;
mod samplers;
mod seeds;
mod stakes;
mod turbine;

use crate::answer::Answer;
use crate::case::Case;

/// An operation with its fields, in order; what it runs may panic.
pub struct Operation {
    name: &'static str,
    pub fields: &'static [&'static str],
    pub run: fn(&Case) -> Answer,
}

const fn operation(
    name: &'static str,
    fields: &'static [&'static str],
    run: fn(&Case) -> Answer,
) -> Operation {
    Operation { name, fields, run }
}

#[rustfmt::skip]
const OPERATIONS: [Operation; 25] = [
    operation("below", &["m", "words"], draws::below),
    operation("fraction", &["words"], draws::fraction),
    operation("weighted", &["weights", "words"], draws::weighted),
    operation("list_shuffle", &["list", "words"], draws::list_shuffle),
    operation("iid", &["stakes", "k", "words"], samplers::iid),
    operation("partition", &["stakes", "bins", "words", "words2"], samplers::partition),
    operation("fa1_bins", &["stakes", "k", "words", "words2"], samplers::fa1_bins),
    operation("fa1_draws", &["stakes", "k", "words"], samplers::fa1_draws),
    operation("decaying", &["stakes", "k", "max_samples", "allowed", "counts", "words"], samplers::decaying),
    operation("decaying_one", &["stakes", "max_samples", "allowed", "counts", "words"], samplers::decaying_one),
    operation("reset", &["counts"], samplers::reset),
    operation("tree", &["stakes"], turbine::tree),
    operation("sizes", &["count"], turbine::sizes),
    operation("shuffle", &["stakes", "words"], turbine::shuffle),
    operation("turbine", &["stakes", "fanout", "own", "words"], turbine::view),
    operation("turbine_seed", &["slot", "shred"], seeds::turbine),
    operation("rotor_seed", &["slot", "slice"], seeds::rotor),
    operation("relay", &["seats", "shred"], relays::relay),
    operation("div_ceil", &["stake", "divisor"], stakes::div_ceil),
    operation("checked_add", &["stake", "rhs"], stakes::checked_add),
    operation("sub", &["stake", "rhs"], stakes::sub),
    operation("mul", &["stake", "rhs"], stakes::mul),
    operation("sum", &["stakes"], stakes::sum),
    operation("stake_fmt", &["stake"], stakes::stake_fmt),
    operation("index_fmt", &["id"], stakes::index_fmt),
];

/// The operation of this name.
pub fn find(name: &str) -> Result<&'static Operation, String> {
    let found = OPERATIONS.iter().find(|operation| operation.name == name);
    found.ok_or(format!("no operation {name:?}"))
}
