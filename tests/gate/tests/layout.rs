//! The structs that Rust lends have the places and sizes that C gives them; the
//! header's static asserts say the same numbers to C compilers. And the header's
//! named numbers are those of documents 01 and 02.

use gate_tests::{lent, Entry, Gate, Node};
use reference::{Kind, Rule};
use std::collections::BTreeMap;
use std::fmt::Debug;
use std::mem::{align_of, offset_of, size_of};
use std::path::Path;

#[test]
fn a_gate_takes_eight_bytes() {
    assert_eq!((size_of::<Gate>(), align_of::<Gate>()), (8, 4));
    assert_eq!((offset_of!(Gate, phase), offset_of!(Gate, tag)), (0, 4));
}

#[test]
fn an_entry_takes_six_bytes() {
    assert_eq!((size_of::<Entry>(), align_of::<Entry>()), (6, 2));
    let places = [
        offset_of!(Entry, kind),
        offset_of!(Entry, a),
        offset_of!(Entry, b),
    ];
    assert_eq!(places, [0, 2, 4]);
}

#[test]
fn a_node_takes_twelve_bytes() {
    assert_eq!((size_of::<Node>(), align_of::<Node>()), (12, 2));
    let places = [
        offset_of!(Node, rule),
        offset_of!(Node, principal),
        offset_of!(Node, first),
        offset_of!(Node, second),
        offset_of!(Node, back),
        offset_of!(Node, count),
    ];
    assert_eq!(places, [0, 2, 4, 6, 8, 10]);
}

/// The names that the header gives to numbers, by `NAME = n` or `#define NAME n`.
fn header_numbers() -> BTreeMap<String, usize> {
    let file = Path::new(env!("CARGO_MANIFEST_DIR")).join("../../include/focus_gate.h");
    let text = std::fs::read_to_string(file).expect("the header");
    let mut numbers = BTreeMap::new();
    for line in text.lines() {
        let line = line.trim_start().trim_start_matches("#define ");
        let words: Vec<&str> = line
            .split([' ', '=', ','])
            .filter(|word| !word.is_empty())
            .collect();
        if let [name, number, ..] = words[..] {
            if let (true, Ok(number)) = (name.starts_with("FOCUS_"), number.parse()) {
                let known = numbers.insert(name.to_string(), number);
                assert_eq!(known, None, "{name} twice");
            }
        }
    }
    numbers
}

#[test]
fn the_header_names_the_lengths_the_phases_the_forms_and_every_refusal() {
    let mut numbers = header_numbers();
    for (name, number) in [
        ("FOCUS_ENTRIES", lent::ENTRIES),
        ("FOCUS_NODES", lent::NODES),
        ("FOCUS_CODES", lent::CODES),
        ("FOCUS_WORDS", lent::WORDS),
        ("FOCUS_CLAIM_BYTES", lent::CLAIM_BYTES),
        ("FOCUS_PROOF_BYTES", lent::PROOF_BYTES),
        ("FOCUS_GOALS", reference::GOALS),
        ("FOCUS_MEMBERS", lent::MEMBERS),
        ("FOCUS_STATES", lent::STATES),
        ("FOCUS_FILE_BYTES", lent::FILE_BYTES),
        ("FOCUS_STACK_BYTES", lent::STACK_BYTES),
        ("FOCUS_GOALS_CLAIM_BYTES", lent::GOALS_CLAIM_BYTES),
        ("FOCUS_GOALS_PROOF_BYTES", lent::GOALS_PROOF_BYTES),
        ("FOCUS_FORM_ONE", reference::Form::One as usize),
        ("FOCUS_FORM_SEVERAL", reference::Form::Several as usize),
        ("FOCUS_MODEL_BYTES", lent::MODEL_BYTES),
        ("FOCUS_PHASE_CLOSED", usize::from(Gate::CLOSED)),
        ("FOCUS_PHASE_OPEN", usize::from(Gate::OPEN)),
        ("FOCUS_PHASE_HOLDING", usize::from(Gate::HOLDING)),
    ] {
        assert_eq!(numbers.remove(name), Some(number), "{name}");
    }
    numbers.retain(|name, _| !name.starts_with("FOCUS_KIND_") && !name.starts_with("FOCUS_RULE_"));
    let mut refusals: Vec<usize> = numbers.into_values().collect();
    refusals.sort_unstable();
    let ranges = [1..=1, 10..=14, 20..=23, 30..=39, 50..=53, 60..=64, 70..=74];
    assert_eq!(refusals, ranges.into_iter().flatten().collect::<Vec<_>>());
}

/// The header's numbers of one prefix, by the rest of the name.
fn header_family(prefix: &str) -> BTreeMap<String, usize> {
    let family = header_numbers().into_iter();
    family
        .filter_map(|(name, number)| Some((name.strip_prefix(prefix)?.to_string(), number)))
        .collect()
}

/// The constants that the gate's own source has for a type: `pub const NAME: u8 = n;`.
fn gate_constants(owner: &str) -> BTreeMap<String, usize> {
    let file = Path::new(env!("CARGO_MANIFEST_DIR")).join("../../crates/formula/src/lib.rt");
    let text = std::fs::read_to_string(file).expect("the gate's kinds and rules");
    let start = format!("impl {owner} {{");
    let lines = text.lines().skip_while(|line| *line != start);
    lines
        .take_while(|line| *line != "}")
        .filter_map(|line| {
            let constant = line.trim().strip_prefix("pub const ")?.strip_suffix(';')?;
            let (name, number) = constant.split_once(": u8 = ")?;
            Some((name.to_string(), number.parse().expect("a number")))
        })
        .collect()
}

/// The names and numbers that the reference has.
fn by_name<T: Debug + Copy>(all: &[T], number: fn(T) -> usize) -> BTreeMap<String, usize> {
    let named = |&one: &T| (format!("{one:?}").to_uppercase(), number(one));
    all.iter().map(named).collect()
}

#[test]
fn the_header_names_every_kind() {
    let kinds = header_family("FOCUS_KIND_");
    assert_eq!(kinds, gate_constants("Kind"));
    assert_eq!(kinds, by_name(&Kind::ALL, |kind| kind as usize));
}

#[test]
fn the_header_names_every_rule() {
    let rules = header_family("FOCUS_RULE_");
    assert_eq!(rules, gate_constants("Rule"));
    assert_eq!(rules, by_name(&Rule::ALL, |rule| rule as usize));
}
