//! The seeds: the bytes that the commit's code hands to its generator.

use alpenglow::disseminator::{rotor, turbine};
use alpenglow::shredder::TOTAL_SHREDS;
use rand::tape;

use crate::answer::Answer;
use crate::case::Case;

/// A tree of one validator reads one word.
pub fn turbine(case: &Case) -> Answer {
    tape::load(vec![0]);
    turbine::probe::view(&[1], 1, 0, case.number("slot"), case.index("shred"));
    seed()
}

/// A committee of one validator reads one word for each shred.
pub fn rotor(case: &Case) -> Answer {
    tape::load(vec![0; TOTAL_SHREDS]);
    rotor::probe::relays_of_one(case.number("slot"), case.index("slice"));
    seed()
}

fn seed() -> Answer {
    let bytes = tape::seed().expect("a seeded generator");
    Answer::new().list("bytes", bytes)
}
