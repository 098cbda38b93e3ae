//! The crate's declarations and numbers are those of `valwydr.h`.

use std::collections::HashMap;

use valwydr::{
    DEFAULT_FANOUT, MAX_FANOUT, MAX_SEATS, MAX_TRIES_PER_SAMPLE, MAX_VALIDATORS, Refusal,
    SEED_BYTES, TOTAL_SHREDS,
};

const HEADER: &str = include_str!("../../include/valwydr.h");
const DECLARATIONS: &str = include_str!("../src/sys/ffi.rs");

/// The header without its comments.
fn header() -> String {
    let mut parts = HEADER.split("/*");
    let first = parts.next().unwrap_or_default().to_owned();
    parts.fold(first, |code, part| code + part.split_once("*/").unwrap().1)
}

/// The numbers of the header's enumerations, without the prefix of their names.
fn enumerated(header: &str) -> Vec<(String, u64)> {
    let bodies = header
        .split("enum {")
        .skip(1)
        .map(|rest| rest.split_once('}').unwrap().0);
    bodies.flat_map(enumeration).collect()
}

/// The numbers of one enumeration: each is given, or one more than the one before.
fn enumeration(body: &str) -> Vec<(String, u64)> {
    let mut next = 0;
    let number = |item: &str| {
        let (name, value) = item.split_once('=').unwrap_or((item, ""));
        let number = value.trim().parse().unwrap_or(next);
        next = number + 1;
        (without_prefix(name), number)
    };
    body.split(',').map(number).collect()
}

/// The numbers that the header defines.
fn defined(header: &str) -> HashMap<String, String> {
    let lines = header.lines();
    lines
        .filter_map(|line| line.strip_prefix("#define ")?.split_once(' '))
        .map(|(name, value)| (without_prefix(name), value.to_owned()))
        .collect()
}

/// A name of the header as the crate has it.
fn without_prefix(name: &str) -> String {
    name.trim().strip_prefix("VALWYDR_").unwrap().to_owned()
}

/// The header's functions as Rust declares them, without spaces.
fn prototypes(header: &str) -> Vec<String> {
    let lengths = HashMap::from_iter(enumerated(header));
    let lines = header.lines().filter(|line| !line.starts_with('#'));
    let code = lines.collect::<Vec<_>>().join(" ");
    code.split(';')
        .filter_map(|statement| statement.trim().strip_suffix(')')?.split_once('('))
        .map(|(head, parameters)| prototype(head, parameters, &lengths))
        .collect()
}

/// One function of the header as Rust declares it.
fn prototype(head: &str, parameters: &str, lengths: &HashMap<String, u64>) -> String {
    let (result, name) = head.rsplit_once(' ').unwrap();
    let parameters: Vec<_> = parameters
        .split(',')
        .map(|parameter| parameter_of(parameter.trim(), lengths))
        .collect();
    let result = match result.trim() {
        "void" => String::new(),
        kind => format!("->{}", rust_type(kind)),
    };
    format!("{name}({}){result}", parameters.join(","))
}

/// One parameter of the header as Rust declares it.
fn parameter_of(parameter: &str, lengths: &HashMap<String, u64>) -> String {
    let (declared, length) = parameter.split_once('[').unwrap_or((parameter, ""));
    let (kind, name) = declared.split_at(declared.rfind([' ', '*']).unwrap() + 1);
    match length.strip_suffix(']') {
        None => format!("{name}:{}", rust_type(kind.trim())),
        Some(length) => {
            let length = lengths[&without_prefix(length)];
            format!("{name}:*mut[{};{length}]", rust_type(kind.trim()))
        }
    }
}

/// The Rust type of a C type.
fn rust_type(kind: &str) -> &str {
    match kind {
        "bool" => "bool",
        "double" => "f64",
        "size_t" => "usize",
        "uint64_t" => "u64",
        "const uint64_t *" => "*constu64",
        "uint64_t *" => "*mutu64",
        "uint32_t *" => "*mutu32",
        "uint8_t *" => "*mutu8",
        "size_t *" => "*mutusize",
        "struct valwydr_node *" => "*mutNode",
        _ => panic!("the header has a type '{kind}'"),
    }
}

/// The crate's declarations, without spaces.
fn declarations() -> Vec<String> {
    let block = DECLARATIONS.split_once("extern \"C\" {").unwrap().1;
    let block = block.rsplit_once('}').unwrap().0;
    block
        .split("pub fn ")
        .skip(1)
        .map(|declaration| declaration.split_whitespace().collect::<String>())
        .map(|declaration| declaration.strip_suffix(';').unwrap().replace(",)", ")"))
        .collect()
}

/// `LIST_LENGTH` as `ListLength`.
fn camel_case(name: &str) -> String {
    let words = name.split('_').map(|word| word.split_at(1));
    words
        .map(|(first, rest)| first.to_owned() + &rest.to_lowercase())
        .collect()
}

#[test]
fn the_functions_are_those_of_the_header() {
    let header = header();
    let prototypes = prototypes(&header);
    assert_eq!(prototypes.len(), header.matches('(').count());
    assert_eq!(declarations(), prototypes);
}

#[test]
fn a_node_is_that_of_the_header() {
    assert!(header().contains("struct valwydr_node {\n    uint64_t sums[16];\n};"));
    assert!(DECLARATIONS.contains("pub type Node = [u64; 16];"));
}

#[test]
fn the_refusals_are_those_of_the_header() {
    let header = enumerated(&header());
    let refusals = header.iter().skip_while(|(name, _)| name != "OK").skip(1);
    let refusals: Vec<_> = refusals.take_while(|(_, number)| *number != 0).collect();
    assert_eq!(refusals.len(), 13);
    for (name, number) in refusals {
        let refusal = Refusal::from_result(*number).unwrap_err();
        assert_eq!(refusal.number(), *number);
        assert_eq!(format!("{refusal:?}"), camel_case(name));
    }
}

#[test]
fn the_limits_are_those_of_the_header() {
    let header = defined(&header());
    let limits = [
        ("MAX_VALIDATORS", MAX_VALIDATORS),
        ("MAX_SEATS", MAX_SEATS),
        ("MAX_TRIES_PER_SAMPLE", MAX_TRIES_PER_SAMPLE),
        ("MAX_FANOUT", MAX_FANOUT),
        ("DEFAULT_FANOUT", DEFAULT_FANOUT),
        ("TOTAL_SHREDS", TOTAL_SHREDS),
        ("SEED_BYTES", SEED_BYTES),
    ];
    for (name, limit) in limits {
        assert_eq!(header[name], limit.to_string(), "{name}");
    }
    assert_eq!(header["NO_PARENT"], "UINT64_MAX");
}
