//! Arithmetic on stakes, and how stakes and ids are written.

use std::fmt::Display;

use alpenglow::{Stake, ValidatorIndex};

use crate::answer::Answer;
use crate::case::Case;

pub fn div_ceil(case: &Case) -> Answer {
    result(stake(case).div_ceil(case.number("divisor")))
}

pub fn checked_add(case: &Case) -> Answer {
    let rhs = Stake::new(case.number("rhs"));
    let sum = stake(case).checked_add(rhs);
    sum.map_or(Answer::new().field("result", "none"), result)
}

pub fn sub(case: &Case) -> Answer {
    result(stake(case) - Stake::new(case.number("rhs")))
}

pub fn mul(case: &Case) -> Answer {
    result(stake(case) * case.number("rhs"))
}

pub fn sum(case: &Case) -> Answer {
    let stakes = case.list("stakes").iter();
    result(stakes.map(|stake| Stake::new(*stake)).sum())
}

pub fn stake_fmt(case: &Case) -> Answer {
    written(stake(case))
}

pub fn index_fmt(case: &Case) -> Answer {
    written(ValidatorIndex::new(case.number("id")))
}

fn stake(case: &Case) -> Stake {
    Stake::new(case.number("stake"))
}

fn result(stake: Stake) -> Answer {
    Answer::new().field("result", stake.inner())
}

fn written(value: impl Display) -> Answer {
    Answer::new().list("bytes", value.to_string().bytes())
}
