//! Answers cases in the format of `FORMAT.md` by running the commit's files.

mod answer;
mod case;
mod operations;

use std::any::Any;
use std::panic::{AssertUnwindSafe, catch_unwind};

use rand::words::Dry;

use crate::case::Case;

/// Answers one case, or tells what is wrong with its line.
pub fn answer(line: &str) -> Result<String, String> {
    let (name, fields) = line.split_once(' ').unwrap_or((line, ""));
    let operation = operations::find(name)?;
    let case = Case::parse(fields, operation.fields)?;

    alpenglow::steps::reset();
    rand::tape::load(case.list("words").to_vec());
    let result = catch_unwind(AssertUnwindSafe(|| (operation.run)(&case)));
    Ok(match result {
        Ok(answer) => answer.to_string(),
        Err(end) if end.is::<Dry>() => "dry".into(),
        Err(end) => format!("panic {}", message(&*end)),
    })
}

/// The message of a panic, on one line.
fn message(end: &(dyn Any + Send)) -> String {
    let text = match (end.downcast_ref::<&str>(), end.downcast_ref::<String>()) {
        (Some(text), _) => text,
        (_, Some(text)) => text.as_str(),
        _ => "without a message",
    };
    text.lines().collect::<Vec<_>>().join(" ")
}

#[cfg(test)]
mod tests {
    use super::message;

    #[test]
    fn messages_are_put_on_one_line() {
        assert_eq!(message(&"one\ntwo"), "one two");
        assert_eq!(message(&String::from("one\ntwo")), "one two");
        assert_eq!(message(&3), "without a message");
    }
}
