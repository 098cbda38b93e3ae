//! What is measured of which entry, on which input.

use crate::entries::*;
use crate::input::Input;

pub struct Row<V> {
    pub name: &'static str,
    pub n: usize,
    pub k: usize,
    pub zeros: bool,
    pub value: V,
}

/// A way to measure an entry.
pub trait Measure {
    type Value;

    fn measure<E: Entry>(&self, input: &Input) -> Self::Value;
}

/// The rows of the entries whose names have the filter in them.
pub fn rows<M: Measure>(measure: &M, filter: &str) -> Vec<Row<M::Value>> {
    let mut rows = Vec::new();
    add::<Sample, M>(measure, filter, &mut rows);
    add::<Iid, M>(measure, filter, &mut rows);
    add::<DecayingOne, M>(measure, filter, &mut rows);
    add::<DecayingQuorum, M>(measure, filter, &mut rows);
    add::<Partition, M>(measure, filter, &mut rows);
    add::<Fa1Bins, M>(measure, filter, &mut rows);
    add::<Fa1Draws, M>(measure, filter, &mut rows);
    add::<Order, M>(measure, filter, &mut rows);
    add::<View, M>(measure, filter, &mut rows);
    add::<Seeds, M>(measure, filter, &mut rows);
    add::<Relay, M>(measure, filter, &mut rows);
    add::<Sizes, M>(measure, filter, &mut rows);
    rows
}

fn add<E: Entry, M: Measure>(measure: &M, filter: &str, rows: &mut Vec<Row<M::Value>>) {
    if E::NAME.contains(filter) {
        rows.extend(inputs::<E>().map(|input| Row {
            name: E::NAME,
            n: input.n(),
            k: input.k,
            zeros: input.zeros,
            value: measure.measure::<E>(&input),
        }));
    }
}

/// Each length with each number of seats; an entry that draws also has the longest list with stakes of 0.
fn inputs<E: Entry>() -> impl Iterator<Item = Input> {
    let seats = |n: &'static usize| E::SEATS.iter().map(|k| (*n, *k, false));
    let plain = E::LENGTHS.iter().flat_map(seats);
    let longest = E::LENGTHS.last().zip(E::SEATS.last());
    let zeros = longest.filter(|_| !E::WORDS_READ.is_empty());
    let zeros = zeros.map(|(n, k)| (*n, *k, true));
    plain
        .chain(zeros)
        .map(|(n, k, zeros)| Input::new(n, k, zeros))
}
