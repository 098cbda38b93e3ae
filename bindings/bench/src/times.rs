//! Times the library and the Rust in turns.

use std::hint::black_box;
use std::time::Instant;

use crate::entries::{Entry, Given, Listed};
use crate::input::{Input, cursors};
use crate::lent::Lent;
use crate::rows::Measure;

/// How long a batch of calls takes at most, in nanoseconds, if it has more than one.
const LONGEST: f64 = 200_000.0;

/// How long a batch takes at least, if its side can have so many calls.
const SHORTEST: f64 = 20_000.0;

/// The most validators that are copied for a batch of the Rust, so that they stay in the processor's caches.
const MOST_COPIED: usize = 4096;

/// What is timed: the library, the Rust from its preparation on, or a draw of the Rust from a sampler that was made before.
#[derive(Clone, Copy, PartialEq)]
pub enum Side {
    Ours,
    Whole,
    Draw,
}

/// The times of a call in each round, in nanoseconds, and how many words a call read.
pub struct Times {
    sides: Vec<(Side, Vec<f64>)>,
    pub words_read: u64,
}

/// A time of the Rust, the library's time over it, and how far apart the ratios of the middle half of all rounds are.
pub struct Compared {
    pub time: f64,
    pub ratio: f64,
    pub spread: f64,
}

impl Times {
    /// Adds the rounds of the same row.
    pub fn extend(&mut self, more: Self) {
        for ((_, times), (_, more)) in self.sides.iter_mut().zip(more.sides) {
            times.extend(more);
        }
    }

    /// The library's time.
    pub fn ours(&self) -> f64 {
        self.find(Side::Ours)
            .map_or(0.0, |times| quartile(times, 2))
    }

    /// A side of the Rust, where it is timed.
    pub fn compared(&self, side: Side) -> Option<Compared> {
        let (ours, rust) = self.find(Side::Ours).zip(self.find(side))?;
        let ratios = ours.iter().zip(rust).map(|(ours, rust)| ours / rust);
        let ratios: Vec<f64> = ratios.collect();
        Some(Compared {
            time: quartile(rust, 2),
            ratio: quartile(&ratios, 2),
            spread: quartile(&ratios, 3) - quartile(&ratios, 1),
        })
    }

    fn find(&self, side: Side) -> Option<&[f64]> {
        let found = self.sides.iter().find(|(found, _)| *found == side);
        found.map(|(_, times)| &times[..])
    }
}

/// Times both sides of an entry in so many rounds, in which they take turns.
pub struct Clock {
    pub rounds: usize,
}

impl Measure for Clock {
    type Value = Times;

    fn measure<E: Entry>(&self, input: &Input) -> Times {
        let mut bench = Bench::<E>::new(input);
        bench.check();
        let sides = [&[Side::Ours], E::RUST].concat();
        let times = bench.times(&sides, self.rounds);
        Times {
            sides: sides.into_iter().zip(times).collect(),
            words_read: bench.words_read(),
        }
    }
}

/// The number at so many quarters of a list in rising order.
fn quartile(list: &[f64], quarters: usize) -> f64 {
    let mut list = list.to_vec();
    list.sort_by(f64::total_cmp);
    list[(list.len() - 1) * quarters / 4]
}

/// An entry with what both sides need.
struct Bench<'a, E: Entry> {
    input: &'a Input,
    lent: Lent,
    sampler: E::Sampler,
    /// How long a batch of one call takes that does nothing.
    nothing: f64,
}

impl<'a, E: Entry> Bench<'a, E> {
    fn new(input: &'a Input) -> Self {
        let nothing = (0..100).map(|round| time(vec![()], round, |(), _| ()));
        Self {
            input,
            lent: Lent::new(),
            sampler: E::make(E::Given::of(input), input, 0),
            nothing: nothing.fold(f64::MAX, f64::min),
        }
    }

    /// Both sides have to give the same answers.
    fn check(&mut self) {
        for cursor in cursors(0).take(20) {
            E::renew_lent(&mut self.lent, self.input);
            E::ours(&mut self.lent, self.input, cursor);
            let answer = whole::<E>(E::Given::of(self.input), self.input, cursor);
            assert_eq!(
                E::told(&self.lent, self.input),
                answer.list(),
                "{}",
                E::NAME
            );
        }
    }

    /// The times of each side in each round.
    fn times(&mut self, sides: &[Side], rounds: usize) -> Vec<Vec<f64>> {
        let calls = self.calls(sides);
        let mut times = vec![Vec::new(); sides.len()];
        for round in 0..rounds {
            for turn in 0..sides.len() {
                let last = sides.len() - 1;
                let at = if round % 2 == 0 { turn } else { last - turn };
                times[at].push(self.time(sides[at], calls[at], round));
            }
        }
        times
    }

    /// How many words the library's last call read.
    fn words_read(&self) -> u64 {
        let places = E::WORDS_READ.iter();
        places.map(|place| self.lent.answer[*place]).sum()
    }

    /// How many calls a batch of each side has: as many as the others', which then are the same calls, unless it would be too short.
    fn calls(&mut self, sides: &[Side]) -> Vec<usize> {
        let quickest: Vec<f64> = sides.iter().map(|side| self.quickest(*side)).collect();
        let within = |limit: f64, at: usize| {
            let calls = (limit / quickest[at]) as usize;
            calls.clamp(1, self.most_calls(sides[at]))
        };
        let common = (0..sides.len())
            .map(|at| within(LONGEST, at))
            .min()
            .unwrap_or(1);
        (0..sides.len())
            .map(|at| within(SHORTEST, at).max(common))
            .collect()
    }

    /// The least time of a call of one side.
    fn quickest(&mut self, side: Side) -> f64 {
        let times = (0..20).map(|round| self.time(side, 1, round));
        times.fold(f64::MAX, f64::min).max(1.0)
    }

    fn most_calls(&self, side: Side) -> usize {
        match side {
            Side::Whole => MOST_COPIED / self.input.n(),
            _ => E::MOST_CALLS,
        }
    }

    /// The time of a call of one side, in a batch of so many.
    fn time(&mut self, side: Side, calls: usize, round: usize) -> f64 {
        let input = self.input;
        let batch = match side {
            Side::Ours => {
                E::renew_lent(&mut self.lent, input);
                let call = |(), cursor| E::ours(&mut self.lent, input, cursor);
                time(vec![(); calls], round, call)
            }
            Side::Whole => {
                let given = (0..calls).map(|_| E::Given::of(input)).collect();
                time(given, round, |given, cursor| {
                    whole::<E>(given, input, cursor)
                })
            }
            Side::Draw => {
                E::renew_sampler(&mut self.sampler, input);
                let call = |(), cursor| E::draw(&mut self.sampler, input, cursor);
                time(vec![(); calls], round, call)
            }
        };
        (batch - self.nothing).max(0.0) / calls as f64
    }
}

/// The Rust's answer, with its preparation. What it makes is freed.
fn whole<E: Entry>(given: E::Given, input: &Input, cursor: usize) -> E::Answer {
    let mut sampler = E::make(given, input, cursor);
    E::draw(&mut sampler, input, cursor)
}

/// The time of a batch, which has a call for each of what is given.
fn time<G, A>(given: Vec<G>, round: usize, mut call: impl FnMut(G, usize) -> A) -> f64 {
    let mut calls = given.into_iter().zip(cursors(round));
    let start = Instant::now();
    for (given, cursor) in calls.by_ref() {
        black_box(call(given, black_box(cursor)));
    }
    start.elapsed().as_nanos() as f64
}
