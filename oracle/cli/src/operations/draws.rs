//! The draws themselves: these run the stand-in for rand alone.

use rand::distr::weighted::WeightedIndex;
use rand::prelude::*;
use rand::rng;

use crate::answer::Answer;
use crate::case::Case;

pub fn below(case: &Case) -> Answer {
    let value = rng().random_range(0..case.number("m"));
    Answer::new().field("value", value).read()
}

pub fn fraction(_case: &Case) -> Answer {
    let fraction: f64 = rng().random();
    Answer::new().field("bits", fraction.to_bits()).read()
}

pub fn weighted(case: &Case) -> Answer {
    let weights = case.list("weights").iter().copied();
    let index = WeightedIndex::new(weights).expect("weights with a sum");
    Answer::new()
        .field("place", index.sample(&mut rng()))
        .read()
}

pub fn list_shuffle(case: &Case) -> Answer {
    let mut list = case.list("list").to_vec();
    list.shuffle(&mut rng());
    Answer::new().list("list", list).read()
}
