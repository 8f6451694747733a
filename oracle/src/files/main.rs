//! Compares the calls that lend a file of names, over random files, indexes and literals.
//!
//!   files COUNT SEED     so many files
//!
//! What a file is and what a name has for a code is said by model.rs, and what is read then by the
//! published Rust and the rules, with these names in place of the held ones. Stops at the first
//! difference.

mod library;
mod make;
mod model;

use std::collections::BTreeMap;
use std::process::ExitCode;
use std::rc::Rc;

use inputs::{Case, Random, FILL_BYTE, FILL_WORD};
use library::{Answer, Call, Lent, Library};
use model::Named;
use oracle::answer::{Numbers, Outcome};
use oracle::listing;
use oracle::rules::{self, RECORD_WORDS, ROW_NUMBERS};

/// The entry checks, which come before those of the file.
const LAST_ENTRY_CHECK: u32 = 7;

/// A file, and its names or its number.
struct Subject {
    file: Vec<u8>,
    names: Result<Vec<Named>, u32>,
}

struct Checker {
    library: Library,
    files: BTreeMap<u32, u64>,
    /// Calls by their number, for each of the five.
    calls: [BTreeMap<u32, u64>; 5],
}

fn main() -> ExitCode {
    let arguments: Vec<String> = std::env::args().skip(1).collect();
    let numbers: Vec<u64> = arguments.iter().filter_map(|word| word.parse().ok()).collect();
    let [count, seed] = numbers[..] else {
        eprintln!("usage: files COUNT SEED");
        return ExitCode::from(2);
    };
    println!("files: seed {seed}");
    let mut random = Random::new(seed);
    let mut checker =
        Checker { library: Library::start(), files: BTreeMap::new(), calls: Default::default() };
    for _ in 0..count {
        let file = make::file(&mut random);
        let names = model::names(&file);
        checker.check(&Subject { file, names }, &mut random);
    }
    println!("files: {count} files, no difference; by number: {:?}", checker.files);
    let calls = ["build", "check", "read_named", "read_searched", "fields_named"];
    for (name, counts) in calls.iter().zip(&checker.calls) {
        println!("files: {} calls of {name}, by number: {counts:?}", counts.values().sum::<u64>());
    }
    ExitCode::SUCCESS
}

impl Subject {
    /// Nothing but the file and an index.
    fn lent<'a>(&'a self, call: Call, index: &'a [u32]) -> Lent<'a> {
        Lent { call, file: &self.file, index, script: &[], list: &[], words: 0, text: 0 }
    }

    /// The character of a name by the file, or by a search.
    fn lookup(&self, call: Call, index: &[u32]) -> Rc<oracle::Names> {
        if call == Call::ReadSearched {
            let (file, index) = (self.file.clone(), index.to_vec());
            return Rc::new(move |name| model::search(&file, &index, name.as_bytes()));
        }
        let names = self.names.clone().unwrap_or_default();
        Rc::new(move |name| model::lookup(&names, name.as_bytes()))
    }
}

impl Checker {
    /// A file by every call, with its own index and with others.
    fn check(&mut self, subject: &Subject, random: &mut Random) {
        let Subject { file, names } = subject;
        *self.files.entry(*names.as_ref().err().unwrap_or(&0)).or_default() += 1;
        let none = Vec::new();
        let names = names.as_ref().unwrap_or(&none);
        let right = model::index(names);
        let wrong = make::index(random, file, &right);
        let other = make::index(random, file, &right);

        let count = right.len();
        for room in [0, count.saturating_sub(1), count, count + 3] {
            self.build(subject, room);
        }
        for index in [&right, &wrong, &other] {
            self.check_index(subject, index);
        }
        for index in [&right, &right, &right, &wrong] {
            let case = make::case(random, file, names, index);
            self.read(subject, Call::ReadNamed, index, &case);
        }
        for index in [&right, &wrong, &other, &other] {
            let case = make::case(random, file, names, index);
            self.read(subject, Call::ReadSearched, index, &case);
        }
        for index in [&right, &right, &wrong] {
            let script = make::script(random, file, names, index);
            self.fields(subject, index, &script);
        }
    }

    fn build(&mut self, subject: &Subject, room: usize) {
        let lent = Lent { words: room, ..subject.lent(Call::Build, &[]) };
        self.compare(&lent, |words, text| match model::build(&subject.names, room) {
            Ok(index) => {
                words[..index.len()].copy_from_slice(&index);
                accepted(index.len())
            }
            Err(number) => refused(number, words, text),
        });
    }

    fn check_index(&mut self, subject: &Subject, index: &[u32]) {
        let lent = subject.lent(Call::Check, index);
        self.compare(&lent, |words, text| match model::check(&subject.names, index) {
            Ok(count) => accepted(count),
            Err(number) => refused(number, words, text),
        });
    }

    fn read(&mut self, subject: &Subject, call: Call, index: &[u32], case: &Case) {
        let read = || rules::reading(&case.script, &case.list);
        let outcome = oracle::with_names(subject.lookup(call, index), read);
        let of_file = match (&outcome, call) {
            (Err(refusal), _) if refusal.number <= LAST_ENTRY_CHECK => None,
            (_, Call::ReadNamed) => model::check(&subject.names, index).err(),
            _ => None,
        };
        for (words, text) in rooms(&outcome) {
            let (script, list) = (&case.script, &case.list);
            let lent = Lent { script, list, words, text, ..subject.lent(call, index) };
            self.compare(&lent, |words, text| match of_file {
                Some(number) => refused(number, words, text),
                None => rules::lay_out(&outcome, words, text),
            });
        }
    }

    fn fields(&mut self, subject: &Subject, index: &[u32], script: &[u8]) {
        let names = subject.lookup(Call::FieldsNamed, index);
        let listing = oracle::with_names(names, || listing::listing(script));
        let of_file = listing.as_ref().and_then(|_| model::check(&subject.names, index).err());
        let rows = listing.as_ref().map_or(0, |listing| listing.rows.len());
        let needed = ROW_NUMBERS * rows;
        for words in [needed + 11, needed, needed.saturating_sub(1)] {
            let lent = Lent { script, words, ..subject.lent(Call::FieldsNamed, index) };
            self.compare(&lent, |words, text| match of_file {
                Some(number) => refused(number, words, text),
                None => listing::lay_out(listing.as_ref(), words),
            });
        }
    }

    /// Ends the program if the library answers otherwise than what answers and fills both buffers.
    fn compare(&mut self, lent: &Lent, lay_out: impl FnOnce(&mut [u32], &mut [u8]) -> Numbers) {
        let (mut words, mut text) = (vec![FILL_WORD; lent.words], vec![FILL_BYTE; lent.text]);
        let numbers = lay_out(&mut words, &mut text);
        let wanted = Answer { numbers, words, text };
        let given = self.library.call(lent);
        *self.calls[lent.call as usize].entry(wanted.numbers[0]).or_default() += 1;
        if given != wanted {
            let case = Case { script: lent.script.to_vec(), list: lent.list.to_vec() };
            println!("files: DIFFERENT, {:?}\nfile: \"{}\"", lent.call, lent.file.escape_ascii());
            println!("index: {:?}\n{case}\nexpected: {wanted:?}\ngiven:    {given:?}", lent.index);
            std::process::exit(1);
        }
    }
}

fn accepted(count: usize) -> Numbers {
    let mut numbers = [0; 12];
    numbers[1] = count as u32;
    numbers
}

/// A refusal of a file or an index: its number alone, and zeros.
fn refused(number: u32, words: &mut [u32], text: &mut [u8]) -> Numbers {
    words.fill(0);
    text.fill(0);
    let mut numbers = [0; 12];
    numbers[0] = number;
    numbers
}

/// More room than needed, just enough, and too little of each.
fn rooms(outcome: &Outcome) -> Vec<(usize, usize)> {
    let Ok(accepted) = outcome else {
        return vec![(11, 5)];
    };
    let (words, text) = (accepted.records.len() * RECORD_WORDS, accepted.text.len());
    let mut rooms = vec![(words + 11, text + 3), (words, text)];
    if words > 0 {
        rooms.push((words - 1, text));
    }
    if text > 0 {
        rooms.push((words, text - 1));
    }
    rooms
}
