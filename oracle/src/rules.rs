//! The rules (docs/RULES.md) for what the Rust does not have, around what the Rust gives.
//!
//! * 1 to 6 are checked here, before the Rust is asked.
//! * 28 is found by a scan of its own. The scan may assume that the Rust refuses nothing up
//!   to the place it looks for, since an earlier refusal wins over 28.
//! * Why a brace counts as unclosed, the first detail of 20, is found by the same scan. The Rust
//!   gives number and place, and the detail is added only if the scan comes to the same place.
//! * Where the bracket of 23 was opened is found by the same scan, and added only if the scan comes
//!   to the same place with the same two brackets.
//! * Line and column of 10 to 28 (RULES 5.6) are counted in the characters of the
//!   refused body before the place.
//! * The characters that were read (RULES 5.6) are counted in all bodies, or in
//!   those before a refused one and in that one before the place.
//! * 30 and 31 compare an acceptance with the room that is lent.
//! * A field's signs (RULES 7.1) are found by the same scan; the rest of its
//!   row is the field's record.

use std::ops::Range;
use std::str::Chars;

use crate::answer::{Acceptance, Numbers, Outcome, Refusal, Row};
use crate::literal::{opening, Literal, StringKind};
use crate::rust;

pub const MAX_LITERALS: usize = 1_024;
pub const MAX_BODY_BYTES: usize = 1_048_576;
const MAX_OPEN_BRACKETS: usize = 64;

/// RULES 11.20: the body ends right after `!`; the character after a conversion is neither `}` nor
/// `:`, or there is none; something not allowed follows a self-documenting `=`; the body ends
/// elsewhere inside a field; a `{` at depth 0 is the last character.
const AFTER_BANG: u32 = 1;
const AFTER_CONVERSION: u32 = 2;
const AFTER_EQUALS: u32 = 3;
const IN_FIELD: u32 = 4;
const LAST_BRACE: u32 = 5;

/// Words of a record, numbers of a row, and numbers of a literal.
pub const RECORD_WORDS: usize = 8;
pub const ROW_NUMBERS: usize = 10;
pub const NUMBERS: usize = 6;

/// What the call must return and leave in both lent buffers.
pub fn expected(script: &[u8], list: &[u32], words: &mut [u32], text: &mut [u8]) -> Numbers {
    lay_out(&reading(script, list), words, text)
}

/// What a list reads as where room does not matter.
pub fn reading(script: &[u8], list: &[u32]) -> Outcome {
    check_shape(list)?;
    check_count(list)?;
    let (literals, ranges) = descriptors(script, list)?;
    check_size(&ranges)?;
    let bodies = well_formed_bodies(script, &literals, &ranges)?;
    match reading_of_bodies(&literals, &bodies) {
        Ok(accepted) => Ok(Acceptance { chars: characters(&bodies), ..accepted }),
        Err(refusal) => Err(with_counts(refusal, &literals, &bodies)),
    }
}

/// How many characters the bodies have.
fn characters(bodies: &[String]) -> u32 {
    bodies.iter().map(|body| body.chars().count() as u32).sum()
}

fn reading_of_bodies(literals: &[Literal], bodies: &[String]) -> Outcome {
    let outcome = rust::read(literals, bodies)
        .map_err(|refusal| with_reason(literals, bodies, refusal));
    let Some(bracket) = first_65th_bracket(literals, bodies) else {
        return outcome;
    };
    match outcome {
        Err(refusal) if comes_before(&refusal, &bracket) => Err(refusal),
        _ => Err(bracket),
    }
}

/// Line and column of a refusal in a body, from 0: how often its text up to the place has a line
/// end, and how many characters follow the last one; and the characters of that text and of all
/// bodies before.
fn with_counts(refusal: Refusal, literals: &[Literal], bodies: &[String]) -> Refusal {
    if !(10..=28).contains(&refusal.number) {
        return refusal;
    }
    let literal = refusal.literal as usize;
    let taken = refusal.place - literals[literal].place(0);
    let read = &bodies[literal][..taken as usize];
    let chars = characters(&bodies[..literal]) + read.chars().count() as u32;
    let lines: Vec<&str> = read.split('\n').collect();
    let column = lines[lines.len() - 1].chars().count();
    Refusal { line: lines.len() as u32 - 1, column: column as u32, chars, ..refusal }
}

/// What the Rust itself gives, on its domain or off it, for a list of sound literals.
pub fn reading_by_the_rust(script: &[u8], list: &[u32]) -> Outcome {
    check_shape(list)?;
    let (literals, ranges) = descriptors(script, list)?;
    rust::read(&literals, &well_formed_bodies(script, &literals, &ranges)?)
}

/// What the Rust takes for a list of sound literals.
pub fn values(script: &[u8], list: &[u32]) -> Result<rust::Values, Refusal> {
    let (literals, ranges) = descriptors(script, list)?;
    Ok(rust::values(&literals, &well_formed_bodies(script, &literals, &ranges)?))
}

/// Answers with an outcome if there is room for it, and fills both buffers accordingly.
pub fn lay_out(outcome: &Outcome, words: &mut [u32], text: &mut [u8]) -> Numbers {
    match fitting(outcome, words.len(), text.len()) {
        Ok(accepted) => {
            let records = accepted.records.as_flattened();
            words[..records.len()].copy_from_slice(records);
            text[..accepted.text.len()].copy_from_slice(&accepted.text);
            accepted.numbers()
        }
        Err(refusal) => {
            words.fill(0);
            text.fill(0);
            refusal.numbers()
        }
    }
}

/// The outcome, or 30 or 31 for want of room.
fn fitting(outcome: &Outcome, words: usize, text: usize) -> Result<&Acceptance, Refusal> {
    let accepted = outcome.as_ref().map_err(|refusal| *refusal)?;
    let needed = [accepted.records.len() as u32, accepted.text.len() as u32];
    let chars = accepted.chars;
    if words / RECORD_WORDS < accepted.records.len() {
        Err(Refusal { details: needed, chars, ..Refusal::new(30, 0, 0) })
    } else if text < accepted.text.len() {
        Err(Refusal { details: needed, chars, ..Refusal::new(31, 0, 0) })
    } else {
        Ok(accepted)
    }
}

/// The reason of a conversion, RULES 7.2: written after `!`; none, and no self-documenting `=`;
/// repr, because `=` stands with neither conversion nor spec; none, because `=` stands with a spec.
fn reason(signs: &Signs) -> u32 {
    match (signs.bang, signs.equals, signs.colon) {
        (Some(_), _, _) => 1,
        (None, None, _) => 2,
        (None, Some(_), None) => 3,
        (None, Some(_), Some(_)) => 4,
    }
}

/// The rows of a list that is accepted, in record order: each field's record with its signs.
pub fn rows(script: &[u8], list: &[u32], accepted: &Acceptance) -> Vec<Row> {
    let (literals, ranges) = descriptors(script, list).expect("an accepted list has literals");
    let bodies = well_formed_bodies(script, &literals, &ranges).expect("and they are UTF-8");
    let signs = (0..literals.len()).flat_map(|index| signs_of(&literals[index], &bodies[index]));
    let fields = accepted.records.iter().filter(|record| record[0] == 2);
    let row = |(record, signs): (&[u32; 8], (u32, Signs))| {
        let &[_, _, length, start, _, conversion, _, place] = record;
        let (base, signs) = signs;
        let at = |taken: Option<usize>| taken.map_or(0, |taken| base + taken as u32);
        let Signs { equals, bang, colon, close } = signs;
        let [equals, bang, colon, close] = [equals, bang, colon, close].map(at);
        [reason(&signs), start, place, length, conversion, equals, bang, colon, close, 0]
    };
    fields.zip(signs).map(row).collect()
}

/// The signs of a literal's fields, each with the place where the body begins.
fn signs_of(literal: &Literal, body: &str) -> Vec<(u32, Signs)> {
    if !literal.kind.is_any_fstring() {
        return Vec::new();
    }
    let mut scan = Scan::new(body, literal.kind.is_raw());
    let _ = scan.text(0);
    scan.signs.into_iter().map(|signs| (literal.place(0), signs)).collect()
}

/// Answers with the rows of an outcome if there is room for them, and fills the buffer accordingly.
pub fn lay_out_rows(outcome: &Outcome, rows: &[Row], buffer: &mut [u32]) -> Numbers {
    let count = rows.len() as u32;
    let refusal = match outcome {
        Err(refusal) => *refusal,
        Ok(accepted) if buffer.len() / ROW_NUMBERS < rows.len() => {
            Refusal { details: [count, 0], chars: accepted.chars, ..Refusal::new(30, 0, 0) }
        }
        Ok(accepted) => {
            let numbers = rows.as_flattened();
            buffer[..numbers.len()].copy_from_slice(numbers);
            let mut numbers = accepted.numbers();
            numbers[5..7].copy_from_slice(&[count, 0]);
            return numbers;
        }
    };
    buffer.fill(0);
    refusal.numbers()
}

/// The entry checks 1 and 2.
fn check_shape(list: &[u32]) -> Result<(), Refusal> {
    if list.is_empty() {
        Err(Refusal::new(1, 0, 0))
    } else if list.len() % NUMBERS != 0 {
        Err(Refusal::new(2, 0, 0))
    } else {
        Ok(())
    }
}

/// The entry check 3.
fn check_count(list: &[u32]) -> Result<(), Refusal> {
    if list.len() / NUMBERS > MAX_LITERALS {
        return Err(Refusal::new(3, 0, 0));
    }
    Ok(())
}

/// The entry check 4: the literals and where their bodies lie.
fn descriptors(script: &[u8], list: &[u32]) -> Result<(Vec<Literal>, Vec<Range<usize>>), Refusal> {
    let mut literals: Vec<Literal> = Vec::new();
    let mut ranges = Vec::new();
    for numbers in list.chunks_exact(NUMBERS) {
        let previous_end = literals.last().map_or(0, |literal| literal.end);
        let (literal, range) =
            descriptor(script, numbers, previous_end).ok_or(Refusal::new(4, literals.len(), 0))?;
        literals.push(literal);
        ranges.push(range);
    }
    Ok((literals, ranges))
}

/// One literal and where its body lies, unless its descriptor is bad.
fn descriptor(
    script: &[u8],
    numbers: &[u32],
    previous_end: u32,
) -> Option<(Literal, Range<usize>)> {
    let &[kind, flag, offset, length, start, end] = numbers else {
        unreachable!("a descriptor is six numbers")
    };
    let kind = StringKind::of(kind)?;
    let literal = Literal { kind, triple: flag == 1, start, end };
    let body_end = u64::from(offset) + u64::from(length);
    let close = u64::from(start) + u64::from(opening(kind, literal.triple)) + u64::from(length);
    let good = flag <= 1
        && body_end <= script.len() as u64
        && start <= end
        && previous_end <= start
        && close <= u64::from(end);
    good.then(|| (literal, offset as usize..body_end as usize))
}

/// The entry check 5.
fn check_size(ranges: &[Range<usize>]) -> Result<(), Refusal> {
    if ranges.iter().map(|range| range.len() as u64).sum::<u64>() > MAX_BODY_BYTES as u64 {
        return Err(Refusal::new(5, 0, 0));
    }
    Ok(())
}

/// The entry check 6.
fn well_formed_bodies(
    script: &[u8],
    literals: &[Literal],
    ranges: &[Range<usize>],
) -> Result<Vec<String>, Refusal> {
    let body = |(index, range): (usize, &Range<usize>)| {
        std::str::from_utf8(&script[range.clone()])
            .map(str::to_owned)
            .map_err(|error| Refusal::new(6, index, literals[index].place(error.valid_up_to())))
    };
    ranges.iter().enumerate().map(body).collect()
}

/// What the scan of a literal comes to: 20, 23 or 28, if every earlier character is read without
/// refusal.
fn scanned(literals: &[Literal], bodies: &[String], index: usize) -> Option<Refusal> {
    let literal = &literals[index];
    if !literal.kind.is_any_fstring() {
        return None;
    }
    let stop = Scan::new(&bodies[index], literal.kind.is_raw()).text(0).err()?;
    let place = literal.place(stop.taken);
    let opened = stop.opened.map_or(0, |taken| literal.place(taken));
    Some(Refusal { details: stop.details, opened, ..Refusal::new(stop.number, index, place) })
}

/// 28 for the first literal that has it, if every earlier character is read without refusal.
fn first_65th_bracket(literals: &[Literal], bodies: &[String]) -> Option<Refusal> {
    (0..literals.len())
        .filter_map(|index| scanned(literals, bodies, index))
        .find(|refusal| refusal.number == 28)
}

/// The Rust's refusal; 20 with its reason, 23 with the place where its bracket was opened.
fn with_reason(literals: &[Literal], bodies: &[String], refusal: Refusal) -> Refusal {
    let Some(found) = scanned(literals, bodies, refusal.literal as usize) else {
        return refusal;
    };
    let completed = match refusal.number {
        20 => Refusal { details: found.details, ..refusal },
        23 => Refusal { opened: found.opened, ..refusal },
        _ => refusal,
    };
    if completed == found {
        found
    } else {
        refusal
    }
}

/// Whether the Rust refuses before the bracket is met. A body that ends right after the
/// bracket gives 20 at the bracket's place, but the bracket was met first.
fn comes_before(refusal: &Refusal, bracket: &Refusal) -> bool {
    refusal.number == 7 || (refusal.literal, refusal.place) < (bracket.literal, bracket.place)
}

/// Where a scan stops: the number, its details, and the bytes taken; for 23 also those taken just
/// after the bracket that is still open.
struct Stop {
    number: u32,
    details: [u32; 2],
    opened: Option<usize>,
    taken: usize,
}

/// The bytes taken just after a field's first self-documenting `=`, its `!`, its `:` and its `}`.
#[derive(Clone, Copy, Default)]
struct Signs {
    equals: Option<usize>,
    bang: Option<usize>,
    colon: Option<usize>,
    close: Option<usize>,
}

/// Looks for the 65th open bracket in a field, for one that is closed by another kind, or for a
/// brace that counts as unclosed, in a body that is otherwise in order.
struct Scan<'a> {
    rest: Chars<'a>,
    length: usize,
    raw: bool,
    /// Those of each field that was met, in the order of their records.
    signs: Vec<Signs>,
}

impl<'a> Scan<'a> {
    fn new(body: &'a str, raw: bool) -> Self {
        Scan { rest: body.chars(), length: body.len(), raw, signs: Vec::new() }
    }

    fn peek(&self) -> Option<char> {
        self.rest.clone().next()
    }

    fn taken(&self) -> usize {
        self.length - self.rest.as_str().len()
    }

    fn stop<T>(&self, number: u32, why: u32) -> Result<T, Stop> {
        Err(Stop { number, details: [why, 0], opened: None, taken: self.taken() })
    }

    fn skip_past(&mut self, last: char) {
        self.rest.find(|&c| c == last);
    }

    /// f-string text: to the end, or at depth 1 up to the `}` that ends it. Text at depth 2
    /// is refused, so nothing after it counts.
    fn text(&mut self, depth: u32) -> Result<(), Stop> {
        if depth == 2 {
            return Ok(());
        }
        while let Some(c) = self.peek() {
            if c == '}' && depth > 0 {
                return Ok(());
            }
            self.rest.next();
            match c {
                '{' | '}' if depth == 0 && self.peek() == Some(c) => {
                    self.rest.next();
                }
                '{' if depth == 0 && self.peek().is_none() => return self.stop(20, LAST_BRACE),
                '{' => self.field(depth)?,
                '\\' if !self.raw => self.escape(),
                _ => {}
            }
        }
        Ok(())
    }

    /// What follows a backslash, as far as a brace in it would mislead.
    fn escape(&mut self) {
        match self.peek() {
            Some('{' | '}') | None => {}
            Some('N') => self.skip_past('}'),
            Some(_) => {
                self.rest.next();
            }
        }
    }

    fn field(&mut self, depth: u32) -> Result<(), Stop> {
        // each open bracket, and the bytes taken just after it
        let mut open: Vec<(char, usize)> = Vec::new();
        let mut documented = false;
        let field = self.signs.len();
        self.signs.push(Signs::default());
        while let Some(c) = self.rest.next() {
            match c {
                '!' | '=' | '<' | '>' if self.peek() == Some('=') => {
                    self.rest.next();
                }
                '\'' | '"' => self.skip_past(c),
                '!' if open.is_empty() => {
                    self.signs[field].bang = Some(self.taken());
                    self.conversion()?;
                }
                '=' if open.is_empty() => {
                    let taken = self.taken();
                    self.signs[field].equals.get_or_insert(taken);
                    documented = true;
                }
                ':' if open.is_empty() => {
                    self.signs[field].colon = Some(self.taken());
                    self.spec(depth)?;
                }
                '(' | '[' | '{' if open.len() == MAX_OPEN_BRACKETS => return self.stop(28, 0),
                '(' | '[' | '{' => open.push((c, self.taken())),
                '}' if open.is_empty() => {
                    self.signs[field].close = Some(self.taken());
                    return Ok(());
                }
                ')' | ']' | '}' if !open.is_empty() => self.close(open.pop().unwrap(), c)?,
                ' ' => {}
                _ if documented => return self.stop(20, AFTER_EQUALS),
                _ => {}
            }
        }
        self.stop(20, IN_FIELD)
    }

    /// A closing bracket, where one is open.
    fn close(&self, (opener, opened): (char, usize), closer: char) -> Result<(), Stop> {
        if matches!((opener, closer), ('(', ')') | ('[', ']') | ('{', '}')) {
            return Ok(());
        }
        let details = [opener as u32, closer as u32];
        Err(Stop { number: 23, details, opened: Some(opened), taken: self.taken() })
    }

    /// What follows a `!`.
    fn conversion(&mut self) -> Result<(), Stop> {
        if self.rest.next().is_none() {
            return self.stop(20, AFTER_BANG);
        }
        match self.peek() {
            Some('}' | ':') => Ok(()),
            _ => self.stop(20, AFTER_CONVERSION),
        }
    }

    fn spec(&mut self, depth: u32) -> Result<(), Stop> {
        while let Some(c) = self.peek() {
            match c {
                '{' => return self.text(depth + 1),
                '}' => return Ok(()),
                _ => self.rest.next(),
            };
        }
        Ok(())
    }
}
