//! The relay of a shred.

use alpenglow::disseminator::rotor::probe;

use crate::answer::Answer;
use crate::case::Case;

/// The committee's seats are those of the case.
pub fn relay(case: &Case) -> Answer {
    let relay = probe::relay(case.list("seats"), case.index("shred"));
    Answer::new().field("id", relay)
}
