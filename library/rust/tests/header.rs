//! The header against the Rust side: every number and every size that `kitesonnet.h` defines, and the four calls that it declares.
//! A name that is added to the one and forgotten in the other fails here.

use kitesonnet::{words, Level, Operation, Refusal};
use std::collections::BTreeMap;

const HEADER: &str = include_str!("../../include/kitesonnet.h");
const WORDS: &str = include_str!("../src/words.rs");

/// Arguments for the sizes, among them those of the smallest and the largest rows that can be in use.
const ARGUMENTS: [u64; 6] = [0, 1, 2, 16, 4096, 1_000_000];

/// What a name is defined as: a parameter if it has one, and factors that are numbers, that parameter or other names.
struct Definition {
    parameter: Option<String>,
    factors: Vec<String>,
}

/// The words of C's text without its punctuation. Only products occur in the header, so a sum must not be read as one.
fn names_in(text: &str) -> Vec<String> {
    let is_part = |c: char| c.is_ascii_alphanumeric() || c == '_';
    let is_other = |c: char| !is_part(c) && !"()* ".contains(c);
    assert!(!text.contains(is_other), "only products can be read here: {text}");
    text.split(|c| !is_part(c)).filter(|name| !name.is_empty()).map(str::to_string).collect()
}

/// One `#define` line. The name has its parameter right behind it, without a blank.
fn definition(line: &str) -> Option<(String, Definition)> {
    let defined = line.strip_prefix("#define KITE_")?;
    let defined = defined.split("/*").next()?.trim();
    let (head, body) = defined.split_once(' ').expect("a name and what it is");
    let mut head = names_in(head).into_iter();
    let name = head.next().expect("a name");
    let parameter = head.next();
    let body = parameter.as_ref().map_or(body.to_string(), |parameter| without_cast(body, parameter));
    Some((name, Definition { parameter, factors: names_in(&body) }))
}

/// A size is counted in `size_t`, or a caller's `int` would be multiplied as an `int`; the cast itself is no factor.
fn without_cast(body: &str, parameter: &str) -> String {
    let cast = format!("(size_t)({parameter})");
    assert!(body.contains(&cast), "{parameter} is not cast: {body}");
    body.replace(&cast, parameter)
}

fn definitions() -> BTreeMap<String, Definition> {
    HEADER.lines().filter_map(definition).collect()
}

/// The value of a definition for an argument, which a definition without a parameter does not look at.
fn value(all: &BTreeMap<String, Definition>, name: &str, argument: u64) -> u64 {
    let definition = &all[name];
    let factor = |factor: &String| match factor.strip_prefix("KITE_") {
        Some(other) => value(all, other, argument),
        None if definition.parameter.as_ref() == Some(factor) => argument,
        None => factor.parse().expect("a whole number"),
    };
    definition.factors.iter().map(factor).product()
}

/// Names of constants with their values, as the Rust side has them.
macro_rules! numbers {
    ($($name:ident)*) => { BTreeMap::from([$((stringify!($name).to_string(), words::$name as u64)),*]) };
}

#[test]
fn every_number_is_the_headers() {
    let rust = numbers! {
        LEAST_CELLS MOST_CELLS MOST_WORKERS MOST_LEVEL MOST_VERSIONS RECORD_WORDS ANSWER_WORDS
        INSERT DELETE FIND SELECT RANK TOTAL
        ON YES NO NONE LEVEL CELL SUMS ENERGY
        OK REFUSED_CELLS REFUSED_WORKERS REFUSED_TABLES REFUSED_WORKER REFUSED_BUSY REFUSED_IDLE REFUSED_ARGUMENT
        REFUSED_FULL REFUSED_DAMAGED REFUSED_OPERATION REFUSED_ANSWER
    };
    let all = definitions();
    let numbers = all.iter().filter(|(_, definition)| definition.parameter.is_none());
    let header: BTreeMap<String, u64> = numbers.map(|(name, _)| (name.clone(), value(&all, name, 0))).collect();
    assert_eq!(header, rust);
}

#[test]
fn every_size_is_the_headers() {
    let rust = BTreeMap::from([
        ("NODE_WORDS".to_string(), ARGUMENTS.map(words::node_words)),
        ("VERSION_WORDS".to_string(), ARGUMENTS.map(words::version_words)),
        ("BOARD_WORDS".to_string(), ARGUMENTS.map(words::board_words)),
    ]);
    let all = definitions();
    let sizes = all.iter().filter(|(_, definition)| definition.parameter.is_some());
    let sizes = sizes.map(|(name, _)| (name.clone(), ARGUMENTS.map(|argument| value(&all, name, argument) as usize)));
    assert_eq!(sizes.collect::<BTreeMap<_, _>>(), rust);
}

#[test]
fn every_refusal_has_its_number() {
    let all = definitions();
    let refused = all.keys().filter(|name| name.starts_with("REFUSED_"));
    let mut header: Vec<u64> = refused.map(|name| value(&all, name, 0)).collect();
    header.sort();
    assert_eq!(Refusal::ALL.into_iter().filter_map(Refusal::number).collect::<Vec<_>>(), header);
}

#[test]
fn every_operation_has_its_words() {
    let (cell, level, nth) = (3, Level(40), 2);
    let operations = [
        (Operation::Insert { cell, level }, [words::INSERT, 3, 40]),
        (Operation::Delete { cell }, [words::DELETE, 3, 0]),
        (Operation::Find { cell }, [words::FIND, 3, 0]),
        (Operation::Select { nth }, [words::SELECT, 2, 0]),
        (Operation::Rank { cell }, [words::RANK, 3, 0]),
        (Operation::Total, [words::TOTAL, 0, 0]),
    ];
    assert_eq!(operations.map(|(operation, _)| operation.words()), operations.map(|(_, words)| words));
}

/// The declarations in a text that begin so, each as its name and then its parameters, blanks evened out.
fn declarations(text: &str, begin: &str) -> Vec<Vec<String>> {
    let declared = text.split(begin).skip(1).map(|rest| {
        let end = rest.find(')').expect("an end of the parameters");
        let parts = rest[..end].split(['(', ',']).map(|part| part.split_whitespace().collect::<Vec<_>>().join(" "));
        parts.filter(|part| !part.is_empty()).collect()
    });
    declared.collect()
}

/// A parameter as C writes it, for one as Rust does.
fn in_c(parameter: &str) -> String {
    let Some((name, rust_type)) = parameter.split_once(": ") else {
        return parameter.to_string();
    };
    match rust_type {
        "u64" => format!("uint64_t {name}"),
        "usize" => format!("size_t {name}"),
        "*mut u64" => format!("uint64_t *{name}"),
        "*const u64" => format!("const uint64_t *{name}"),
        other => panic!("{other} has no counterpart in the header"),
    }
}

#[test]
fn every_call_is_declared_as_in_the_header() {
    let header = declarations(HEADER, "\nuint64_t kite_");
    let rust = declarations(WORDS, "    fn kite_");
    let rust: Vec<Vec<String>> = rust.iter().map(|call| call.iter().map(|part| in_c(part)).collect()).collect();
    assert_eq!(header.len(), 4);
    assert_eq!(rust, header);
}
