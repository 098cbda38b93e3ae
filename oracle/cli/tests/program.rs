//! The program as it is run: lines in, lines out, and its status.

use std::io::Write;
use std::process::{Command, Output, Stdio};

fn run(input: &str) -> Output {
    let mut program = Command::new(env!("CARGO_BIN_EXE_oracle"))
        .stdin(Stdio::piped())
        .stdout(Stdio::piped())
        .stderr(Stdio::piped())
        .spawn()
        .unwrap();
    let mut stdin = program.stdin.take().unwrap();
    stdin.write_all(input.as_bytes()).unwrap();
    drop(stdin);
    program.wait_with_output().unwrap()
}

#[test]
fn each_case_gets_a_line_and_panics_are_silent() {
    let output = run("below m=10 words=13\niid stakes=0 k=1 words=0\nbelow m=1 words=-\n");
    let expected = "ok value=3 read=1\n\
        panic validator stakes should be non-empty and positive: InsufficientNonZero\n\
        dry\n";
    assert_eq!(String::from_utf8(output.stdout).unwrap(), expected);
    assert_eq!(output.stderr, b"");
    assert_eq!(output.status.code(), Some(0));
}

#[test]
fn malformed_cases_end_the_program() {
    for case in [
        "",
        "below",
        "above m=10 words=13",
        "below m=10",
        "below words=13 m=10",
        "below m=10 words=13 words2=13",
        "below  m=10 words=13",
        "below m=10,11 words=13",
        "below m=- words=13",
        "below m=10 words=",
        "below m=10 words=13,",
        "below m=10 words=-1",
        "below m=18446744073709551616 words=13",
        "below m=ten words=13",
    ] {
        let output = run(&format!(
            "below m=10 words=13\n{case}\nbelow m=10 words=14\n"
        ));
        assert_eq!(output.status.code(), Some(2), "{case}");
        assert_eq!(output.stdout, b"ok value=3 read=1\n", "{case}");
        assert!(output.stderr.starts_with(b"oracle: line 2: "), "{case}");
    }
}
