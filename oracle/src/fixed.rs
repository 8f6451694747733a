//! Writes the fixed list of answers, for a replay without the Rust at hand.
//!
//!   fixed cases     the inputs, as crates/try_readings takes them
//!   fixed answers   what the rules expect of each, as crates/try_readings writes it
//!
//! Before a call every word is A5A5A5A5 and every text byte A5 (hexadecimal).

use std::collections::BTreeMap;
use std::fmt::{Display, Write as _};
use std::io::{self, Write as _};
use std::process::ExitCode;

use inputs::{Case, Random, FILL_BYTE, FILL_WORD};
use oracle::answer::Numbers;
use oracle::rules::{self, RECORD_WORDS};

const SEED: u64 = 1;
const CASES: usize = 2_300;

/// What crates/try_readings has room for: bytes of all inputs, and of one input list numbers, words
/// and bytes.
const MOST_BYTES: usize = 1_048_640;
const MOST_NUMBERS: usize = 8_192;
const MOST_WORDS: usize = 65_536;

/// How many inputs at the edges there may be of each first kind and number: small ones, and
/// those whose list numbers and script bytes are more than LARGE together.
const SMALL_SHARE: usize = 10;
const LARGE_SHARE: usize = 1;
const LARGE: usize = 600;

/// How many random inputs there may be of each refusal, and how many that are accepted.
const REFUSED_SHARE: usize = 70;
const ACCEPTED_SHARE: usize = 500;

const NUMBERS: [u32; 23] =
    [0, 1, 2, 3, 4, 5, 6, 7, 10, 11, 12, 13, 20, 21, 22, 23, 24, 25, 26, 27, 28, 30, 31];

struct Answered {
    case: Case,
    numbers: Numbers,
    words: Vec<u32>,
    text: Vec<u8>,
}

fn main() -> ExitCode {
    let argument = std::env::args().nth(1);
    let file = match argument.as_deref() {
        Some("cases") => inputs_file(&cases()),
        Some("answers") => answers_file(&cases()).into_bytes(),
        _ => {
            eprintln!("usage: fixed cases | fixed answers");
            return ExitCode::from(2);
        }
    };
    io::stdout().write_all(&file).expect("standard output takes it");
    ExitCode::SUCCESS
}

/// The named inputs, a share of those at the edges, then random ones.
fn cases() -> Vec<Answered> {
    let mut cases = Vec::new();
    inputs::named(&mut |case| cases.push(answered(case.clone(), cases.len())));
    let mut shares = BTreeMap::new();
    inputs::edges(&mut |case| {
        let large = case.script.len() + case.list.len() > LARGE;
        let limit = if large { LARGE_SHARE } else { SMALL_SHARE };
        let class = (case.list.first().copied(), number(case), large);
        take_within(&mut shares, class, limit, case, &mut cases);
    });
    let mut random = Random::new(SEED);
    let mut shares = BTreeMap::new();
    while cases.len() < CASES {
        let case = inputs::random(&mut random);
        let number = number(&case);
        let limit = if number == 0 { ACCEPTED_SHARE } else { REFUSED_SHARE };
        take_within(&mut shares, number, limit, &case, &mut cases);
    }
    cases
}

/// The number that a case is refused with where room does not matter, or 0.
fn number(case: &Case) -> u32 {
    rules::reading(&case.script, &case.list).map_or_else(|refusal| refusal.number, |_| 0)
}

/// Takes a case unless there are enough of its class.
fn take_within<Class: Ord>(
    shares: &mut BTreeMap<Class, usize>,
    class: Class,
    limit: usize,
    case: &Case,
    cases: &mut Vec<Answered>,
) {
    let taken = shares.entry(class).or_default();
    if *taken < limit {
        *taken += 1;
        cases.push(answered(case.clone(), cases.len()));
    }
}

/// The room that is lent changes from case to case: more than needed, just enough, or too
/// little for the records, the text or both.
fn answered(case: Case, index: usize) -> Answered {
    let (words, text) = match rules::reading(&case.script, &case.list) {
        Ok(accepted) => (accepted.records.len() * RECORD_WORDS, accepted.text.len()),
        Err(_) => (0, 0),
    };
    let (words, text) = match index % 12 {
        0 => (words, text),
        1 => (words.saturating_sub(1), text),
        2 => (words, text.saturating_sub(1)),
        3 => (words.saturating_sub(1), text.saturating_sub(1)),
        _ => (words + 3, text + 2),
    };
    let (mut words, mut text) = (vec![FILL_WORD; words], vec![FILL_BYTE; text]);
    let numbers = rules::expected(&case.script, &case.list, &mut words, &mut text);
    Answered { case, numbers, words, text }
}

/// Each script is one piece that stands there once.
fn inputs_file(cases: &[Answered]) -> Vec<u8> {
    let mut file = Vec::new();
    put_sizes(&mut file, &[cases.len()]);
    for Answered { case, words, text, .. } in cases {
        put_sizes(&mut file, &[case.list.len(), 1, words.len(), text.len()]);
        put(&mut file, &case.list);
        put_sizes(&mut file, &[1, case.script.len()]);
        file.extend_from_slice(&case.script);
        let bytes = case.script.len().max(text.len());
        assert!(
            case.list.len() <= MOST_NUMBERS && words.len() <= MOST_WORDS && bytes <= MOST_BYTES
        );
    }
    assert!(file.len() <= MOST_BYTES, "{} bytes", file.len());
    check_coverage(cases, file.len());
    file
}

fn answers_file(cases: &[Answered]) -> String {
    let mut file = String::new();
    for Answered { numbers, words, text, .. } in cases {
        put_line(&mut file, "answer", numbers);
        put_line(&mut file, "words", words);
        put_line(&mut file, "text", text);
    }
    file
}

/// Equal elements that stand together are written once, with their count.
fn put_line<Element: Display + PartialEq>(file: &mut String, name: &str, elements: &[Element]) {
    file.push_str(name);
    for run in elements.chunk_by(PartialEq::eq) {
        let written = match run.len() {
            1 => write!(file, " {}", run[0]),
            count => write!(file, " {count}*{}", run[0]),
        };
        written.expect("a string takes it");
    }
    file.push('\n');
}

fn put_sizes(file: &mut Vec<u8>, sizes: &[usize]) {
    sizes.iter().for_each(|&size| put(file, &[size as u32]));
}

fn put(file: &mut Vec<u8>, numbers: &[u32]) {
    numbers.iter().for_each(|number| file.extend_from_slice(&number.to_le_bytes()));
}

/// Every number of a reading in RULES 11 and every kind must be there.
fn check_coverage(cases: &[Answered], bytes: usize) {
    let mut by_number = BTreeMap::new();
    let mut by_kind = BTreeMap::new();
    for Answered { case, numbers, .. } in cases {
        *by_number.entry(numbers[0]).or_insert(0) += 1;
        if numbers[0] == 0 {
            case.list.iter().step_by(6).for_each(|kind| *by_kind.entry(*kind).or_insert(0) += 1);
        }
    }
    assert!(by_number.keys().copied().eq(NUMBERS), "numbers missing: {by_number:?}");
    assert!(by_kind.keys().copied().eq(0..7), "kinds missing: {by_kind:?}");
    eprintln!("fixed: {} cases, {bytes} bytes; by number: {by_number:?}", cases.len());
    eprintln!("fixed: literals of each kind in accepted cases: {by_kind:?}");
}
