//! What the program is asked for.

pub const USAGE: &str = "usage: run.sh [--rounds N] [--stack] [PART OF AN ENTRY'S NAME]";

pub struct Options {
    /// How often both sides of an entry are timed.
    pub rounds: usize,
    /// Whether the stack is measured, and no time.
    pub stack: bool,
    /// What the name of an entry has in it; nothing for all.
    pub filter: String,
}

impl Options {
    pub fn parse(mut words: impl Iterator<Item = String>) -> Result<Self, String> {
        let mut options = Self {
            rounds: 2000,
            stack: false,
            filter: String::new(),
        };
        while let Some(word) = words.next() {
            match word.as_str() {
                "--rounds" => options.rounds = rounds(words.next())?,
                "--stack" => options.stack = true,
                _ if word.starts_with('-') => return Err(USAGE.into()),
                _ => options.filter = word,
            }
        }
        Ok(options)
    }
}

fn rounds(word: Option<String>) -> Result<usize, String> {
    let number = word.and_then(|word| word.parse().ok());
    number.filter(|rounds| *rounds > 0).ok_or(USAGE.into())
}
