//! Times each entry of the library beside the commit's Rust, or measures the stack that it needs.

mod entries;
// Of the library's functions the arithmetic on stakes is not timed.
#[allow(dead_code)]
#[path = "../../rust/src/sys/ffi.rs"]
mod ffi;
mod input;
mod lent;
mod options;
mod report;
mod rows;
mod stack;
mod times;

use std::env;
use std::process::exit;

use options::Options;
use rows::{Row, rows};
use stack::Stack;
use times::{Clock, Times};

/// How often all rows are gone through, so that the rounds of each are spread over the whole time.
const PASSES: usize = 5;

fn main() {
    let options = Options::parse(env::args().skip(1)).unwrap_or_else(|message| {
        eprintln!("{message}");
        exit(2);
    });
    if options.stack {
        report::print_stack(&rows(&Stack, &options.filter));
    } else {
        let rows = timed_rows(&options);
        report::print_times(&rows);
        report::print_growth(&rows);
    }
}

fn timed_rows(options: &Options) -> Vec<Row<Times>> {
    let rounds = options.rounds.div_ceil(PASSES);
    let pass = || rows(&Clock { rounds }, &options.filter);
    let mut all = pass();
    for _ in 1..PASSES {
        for (row, more) in all.iter_mut().zip(pass()) {
            row.value.extend(more.value);
        }
    }
    all
}
