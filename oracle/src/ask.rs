//! Answers questions from standard input, one line each.
//!
//!   ask rust    what the published Rust gives (1, 2, 4 and 6 stand for lists it cannot take)
//!   ask rules   what the rules expect, with room enough
//!
//! A file of names may follow: names are then those of the file.
//!
//! A question is the list's numbers and, last, the script in hexadecimal after a `|`:
//!
//!   1 0 2 3 0 6 | 6622 7b787d 22     (blanks between hexadecimal digits are passed over)
//!
//! The answer is `refused NUMBER LITERAL PLACE DETAIL DETAIL`, or
//! `accepted SORT U_MARK FIRST_START LAST_END | WORDS | TEXT IN HEXADECIMAL`.

#[allow(dead_code)]
#[path = "files/model.rs"]
mod model;

use std::io::{self, BufRead, Write};
use std::process::ExitCode;
use std::rc::Rc;

use oracle::answer::{Acceptance, Outcome};
use oracle::rules;

type Read = fn(&[u8], &[u32]) -> Outcome;

fn main() -> ExitCode {
    let read: Read = match std::env::args().nth(1).as_deref() {
        Some("rust") => rules::reading_by_the_rust,
        Some("rules") => rules::reading,
        _ => {
            eprintln!("usage: ask rust [FILE] | ask rules [FILE]");
            return ExitCode::from(2);
        }
    };
    let names = std::env::args().nth(2).map(|path| names(&path));
    let mut answers = io::stdout().lock();
    for line in io::stdin().lock().lines() {
        let line = line.expect("a readable line");
        let (script, list) = question(&line).unwrap_or_else(|| panic!("not a question: {line}"));
        let outcome = match &names {
            Some(names) => oracle::with_names(names.clone(), || read(&script, &list)),
            None => read(&script, &list),
        };
        writeln!(answers, "{}", answer(&outcome)).expect("a writable output");
    }
    ExitCode::SUCCESS
}

fn names(path: &str) -> Rc<oracle::Names> {
    let file = std::fs::read(path).expect("a readable file of names");
    let names = model::names(&file).expect("a sound file of names");
    Rc::new(move |name| model::lookup(&names, name.as_bytes()))
}

fn question(line: &str) -> Option<(Vec<u8>, Vec<u32>)> {
    let (numbers, digits) = line.split_once('|')?;
    let list = numbers.split_whitespace().map(str::parse).collect::<Result<_, _>>().ok()?;
    let digits: Vec<u32> =
        digits.chars().filter(|c| *c != ' ').map(|c| c.to_digit(16)).collect::<Option<_>>()?;
    let script = digits.chunks(2).map(|pair| (pair[0] << 4 | pair[1]) as u8).collect();
    Some((script, list))
}

fn answer(outcome: &Outcome) -> String {
    match outcome {
        Err(refusal) => format!("refused {}", spaced(&refusal.numbers()[..5])),
        Ok(accepted) => {
            let Acceptance { records, text, .. } = accepted;
            let digits: String = text.iter().map(|byte| format!("{byte:02x}")).collect();
            let head = spaced(&accepted.numbers()[1..5]);
            format!("accepted {head} | {} | {digits}", spaced(records.as_flattened()))
        }
    }
}

fn spaced(numbers: &[u32]) -> String {
    numbers.iter().map(u32::to_string).collect::<Vec<_>>().join(" ")
}
