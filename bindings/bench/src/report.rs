//! The tables, in Markdown.

use crate::rows::Row;
use crate::times::{Compared, Side, Times};

/// Times and ratios.
pub fn print_times(rows: &[Row<Times>]) {
    println!("| entry | n | k | library | Rust, whole | ratio | Rust, draw alone | ratio |");
    println!("|---|--:|--:|--:|--:|--:|--:|--:|");
    for row in rows {
        let zeros = if row.zeros { ", a tenth 0" } else { "" };
        let [whole, draw] = [Side::Whole, Side::Draw].map(|side| match row.value.compared(side) {
            Some(rust) => format!("{} | {}", duration(rust.time), ratio(&rust)),
            None => " | ".into(),
        });
        println!(
            "| {} | {}{zeros} | {} | {} | {whole} | {draw} |",
            row.name,
            grouped(row.n),
            seats(row.k),
            duration(row.value.ours()),
        );
    }
}

/// How many times as long the longest list takes as the shortest, and what it takes for a validator and for a word.
pub fn print_growth(rows: &[Row<Times>]) {
    println!("\n| entry | k | from n to n | library | Rust, whole | ns a validator | ns a word |");
    println!("|---|--:|--:|--:|--:|--:|--:|");
    let plain: Vec<_> = rows.iter().filter(|row| !row.zeros).collect();
    for (at, short) in plain.iter().enumerate() {
        let same = |row: &&&Row<Times>| (row.name, row.k) == (short.name, short.k);
        let first = !plain[..at].iter().any(|row| same(&row));
        let last = plain[at + 1..].iter().rfind(same);
        if let (true, Some(long)) = (first, last) {
            print_growth_of(short, long);
        }
    }
}

fn print_growth_of(short: &Row<Times>, long: &Row<Times>) {
    let [from, to] = [short, long].map(|row| row.value.compared(Side::Whole));
    let whole = from.zip(to).map(|(from, to)| to.time / from.time);
    let ours = long.value.ours();
    println!(
        "| {} | {} | {} to {} | {:.1} | {} | {:.2} | {} |",
        long.name,
        seats(long.k),
        grouped(short.n),
        grouped(long.n),
        ours / short.value.ours(),
        whole.map_or(String::new(), |growth| format!("{growth:.1}")),
        ours / long.n as f64,
        for_a_word(&long.value),
    );
}

/// The stack of each entry, over all inputs.
pub fn print_stack(rows: &[Row<usize>]) {
    println!("| entry | least bytes of stack | most |");
    println!("|---|--:|--:|");
    for rows in rows.chunk_by(|a, b| a.name == b.name) {
        let bytes = rows.iter().map(|row| row.value);
        let [least, most] = [bytes.clone().min(), bytes.max()].map(Option::unwrap_or_default);
        println!(
            "| {} | {} | {} |",
            rows[0].name,
            grouped(least),
            grouped(most)
        );
    }
}

fn ratio(rust: &Compared) -> String {
    let digits = if rust.ratio < 10.0 { 2 } else { 0 };
    format!("{:.digits$} ± {:.digits$}", rust.ratio, rust.spread / 2.0)
}

fn for_a_word(times: &Times) -> String {
    match times.words_read {
        0 => String::new(),
        words => format!("{:.2}", times.ours() / words as f64),
    }
}

/// A number of seats, where an entry has more than one.
fn seats(k: usize) -> String {
    if k == 1 { String::new() } else { grouped(k) }
}

/// A time in nanoseconds or microseconds.
fn duration(nanoseconds: f64) -> String {
    match nanoseconds {
        ..100.0 => format!("{nanoseconds:.1} ns"),
        ..1000.0 => format!("{nanoseconds:.0} ns"),
        ..10_000.0 => format!("{:.2} µs", nanoseconds / 1000.0),
        _ => format!("{:.1} µs", nanoseconds / 1000.0),
    }
}

/// A number with commas, as in 4,096.
fn grouped(number: usize) -> String {
    match number {
        ..1000 => number.to_string(),
        _ => format!("{},{:03}", grouped(number / 1000), number % 1000),
    }
}
