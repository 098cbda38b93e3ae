//! The line of an accepted answer.

use std::fmt::{self, Display};

pub struct Answer(String);

impl Answer {
    pub fn new() -> Self {
        Self("ok".into())
    }

    pub fn field(self, name: &str, value: impl Display) -> Self {
        Self(format!("{} {name}={value}", self.0))
    }

    /// A list, joined by commas; an empty one is a dash.
    pub fn list<T: Display>(self, name: &str, values: impl IntoIterator<Item = T>) -> Self {
        let values: Vec<String> = values.into_iter().map(|value| value.to_string()).collect();
        match values.is_empty() {
            true => self.field(name, "-"),
            false => self.field(name, values.join(",")),
        }
    }

    /// How many of the case's first words were read.
    pub fn read(self) -> Self {
        self.field("read", rand::tape::read())
    }
}

impl Display for Answer {
    fn fmt(&self, f: &mut fmt::Formatter<'_>) -> fmt::Result {
        f.write_str(&self.0)
    }
}
