//! Every field of a whole script, by the rules that bindings/include/stumpgarret.h states for
//! stumpgarret_fields, over this crate's reading of a literal.

use crate::answer::{Numbers, Row};
use crate::rules::{self, NUMBERS, ROW_NUMBERS};

pub const MAX_SCRIPT_BYTES: usize = 1_048_576;

/// The first number of a refusal's row.
const REFUSAL: u32 = 5;
/// Where Python reads a field otherwise.
const READ_OTHERWISE: u32 = 75;
/// A word before a literal that Python does not let stand there.
const UNKNOWN_PREFIX: u32 = 76;

/// The keywords that may stand directly before a literal.
const KEYWORDS: [&str; 22] = [
    "and", "as", "assert", "await", "case", "del", "elif", "else", "except", "for", "from", "if", "in",
    "is", "match", "not", "or", "raise", "return", "while", "with", "yield",
];

/// Each prefix, in small letters, and its kind.
const PREFIXES: [(&str, u32); 8] =
    [("f", 1), ("b", 2), ("r", 3), ("fr", 4), ("rf", 4), ("br", 5), ("rb", 5), ("u", 6)];

pub struct Listing {
    pub rows: Vec<Row>,
    /// The literals of the script, and how far it was cut.
    pub literals: u32,
    pub cut_to: u32,
}

/// A literal of a cut.
struct Literal {
    kind: u32,
    triple: bool,
    start: usize,
    body: usize,
    body_end: usize,
    end: usize,
}

/// The literals of a part of a script, and 50 or 51 with where the last one starts.
struct Cut {
    literals: Vec<Literal>,
    broken: Option<(u32, usize)>,
}

/// The list, or nothing for a script that is too long.
pub fn listing(script: &[u8]) -> Option<Listing> {
    if script.len() > MAX_SCRIPT_BYTES {
        return None;
    }
    let whole = cut(script, 0);
    let mut rows = Vec::new();
    add_rows(script, &whole, 0, &mut rows);
    let mut at = 0;
    while at < rows.len() {
        let row = rows[at];
        at += 1;
        if row[0] != REFUSAL {
            add_source_rows(script, &row, at as u32, &mut rows);
        }
    }
    let cut_to = whole.broken.map_or(script.len(), |(_, start)| start) as u32;
    Some(Listing { rows, literals: whole.literals.len() as u32, cut_to })
}

/// Answers with a list if there is room for its rows, and fills the buffer accordingly.
pub fn lay_out(listing: Option<&Listing>, buffer: &mut [u32]) -> Numbers {
    let mut numbers = [0; 12];
    match listing {
        None => {
            buffer.fill(0);
            numbers[0] = 49;
        }
        Some(listing) if buffer.len() / ROW_NUMBERS < listing.rows.len() => {
            buffer.fill(0);
            numbers[0] = 53;
            numbers[9] = listing.rows.len() as u32;
        }
        Some(Listing { rows, literals, cut_to }) => {
            let refusals = rows.iter().filter(|row| row[0] == REFUSAL).count() as u32;
            buffer[..rows.len() * ROW_NUMBERS].copy_from_slice(rows.as_flattened());
            numbers[1..5].copy_from_slice(&[rows.len() as u32, refusals, *literals, *cut_to]);
        }
    }
    numbers
}

/// Cuts a script from a place on.
fn cut(script: &[u8], from: usize) -> Cut {
    let mut literals = Vec::new();
    let mut at = from;
    while at < script.len() {
        match script[at] {
            b'#' => {
                at += script[at..].iter().take_while(|byte| !b"\n\r".contains(byte)).count();
            }
            b'\'' | b'"' => match literal(script, at) {
                Ok(literal) => {
                    at = literal.end;
                    literals.push(literal);
                }
                Err(broken) => return Cut { literals, broken: Some(broken) },
            },
            _ => at += 1,
        }
    }
    Cut { literals, broken: None }
}

/// The literal whose quotes begin at a place.
fn literal(script: &[u8], quotes: usize) -> Result<Literal, (u32, usize)> {
    let is_word = |byte: &&u8| byte.is_ascii_alphanumeric() || **byte == b'_';
    let word = script[..quotes].iter().rev().take_while(is_word).count();
    let word = script[quotes - word..quotes].to_ascii_lowercase();
    let prefix = PREFIXES.iter().find(|(prefix, _)| prefix.as_bytes() == word);
    let (kind, start) = prefix.map_or((0, quotes), |(_, kind)| (*kind, quotes - word.len()));

    let quote = script[quotes];
    let triple = script[quotes..].starts_with(&[quote; 3]);
    let count = if triple { 3 } else { 1 };
    let body = quotes + count;
    let mut at = body;
    loop {
        match script.get(at) {
            None => return Err((50, start)),
            Some(b'\\') => at += 2,
            _ if script[at..].starts_with(&[quote; 3][..count]) => break,
            Some(b'\n') if !triple => return Err((51, start)),
            Some(_) => at += 1,
        }
    }
    Ok(Literal { kind, triple, start, body, body_end: at, end: at + count })
}

/// Where the word before a literal begins, if it may not stand there.
fn unknown_prefix(script: &[u8], start: usize) -> Option<usize> {
    let in_word = |byte: &&u8| byte.is_ascii_alphanumeric() || **byte == b'_' || **byte >= 0x80;
    let from = start - script[..start].iter().rev().take_while(in_word).count();
    let word = &script[from..start];
    let is = KEYWORDS.iter().any(|keyword| keyword.as_bytes() == word);
    let ends = KEYWORDS.iter().any(|keyword| word.ends_with(keyword.as_bytes()));
    let numbered = word.first().is_some_and(u8::is_ascii_digit) && ends;
    (!word.is_empty() && !is && !numbered).then_some(from)
}

/// The rows of a cut's literals, its f-strings each read alone, and that of its 50 or 51.
fn add_rows(script: &[u8], cut: &Cut, within: u32, rows: &mut Vec<Row>) {
    for literal in &cut.literals {
        if let Some(place) = unknown_prefix(script, literal.start) {
            let start = literal.start as u32;
            rows.push([REFUSAL, start, place as u32, UNKNOWN_PREFIX, 0, 0, 0, 0, 0, within]);
        }
        if !matches!(literal.kind, 1 | 4) {
            continue;
        }
        let list = literal.numbers();
        match rules::reading(script, &list) {
            Ok(accepted) => {
                rows.extend(rules::rows(script, &list, &accepted).into_iter().map(|mut row| {
                    row[9] = within;
                    row
                }));
            }
            Err(refusal) => {
                let [a, b] = refusal.details;
                let start = literal.start as u32;
                let (place, number, opened) = (refusal.place, refusal.number, refusal.opened);
                rows.push([REFUSAL, start, place, number, a, b, opened, 0, 0, within]);
            }
        }
    }
    if let Some((number, start)) = cut.broken {
        let start = start as u32;
        rows.push([REFUSAL, start, start, number, 0, 0, 0, 0, 0, within]);
    }
}

impl Literal {
    fn numbers(&self) -> [u32; NUMBERS] {
        let length = self.body_end - self.body;
        let [body, length, start, end] =
            [self.body, length, self.start, self.end].map(|number| number as u32);
        [self.kind, u32::from(self.triple), body, length, start, end]
    }
}

/// The rows of the source of the field whose row has this number.
fn add_source_rows(script: &[u8], row: &Row, number: u32, rows: &mut Vec<Row>) {
    let end = source_end(row);
    let cut = cut(&script[..end], row[2] as usize);
    if let Some(place) = read_otherwise(script, row, &cut) {
        rows.push([REFUSAL, row[1], place as u32, READ_OTHERWISE, 0, 0, 0, 0, 0, number]);
    }
    add_rows(script, &cut, number, rows);
}

/// A field's source goes up to its first `!`, `:` or `}` sign.
fn source_end(row: &Row) -> usize {
    let signs = row[6..9].iter().filter(|&&sign| sign != 0);
    *signs.min().expect("a field has a `}`") as usize - 1
}

/// The first place where Python reads a field otherwise, whose source was cut so.
fn read_otherwise(script: &[u8], row: &Row, cut: &Cut) -> Option<usize> {
    let [_, start, place, _, _, equals, _, colon, close, _] = row.map(|number| number as usize);
    let end = source_end(row);
    let first = |bytes: &[u8], from: usize, to: usize| {
        script[from..to].iter().position(|byte| bytes.contains(byte)).map(|at| from + at)
    };

    let after = cut.literals.iter().map(|literal| literal.end);
    let before = cut.literals.iter().map(|literal| literal.start);
    let last = cut.broken.map_or(end, |(_, start)| start);
    let mut gaps = [place].into_iter().chain(after).zip(before.chain([last]));
    let comment = gaps.find_map(|(from, to)| first(b"#", from, to));

    let backslash = first(b"\\", place, end);

    let own_quote = |literal: &&Literal| {
        let body = &script[literal.body..literal.body_end];
        literal.triple && body.contains(&script[literal.body - 1])
    };
    let quoted = cut.literals.iter().find(own_quote).map(|literal| literal.start);

    let more = equals != 0 && script[equals..end].iter().any(|&byte| byte != b' ');

    let escaped = (colon != 0 && is_quote(script[start + 1]))
        .then(|| first(b"{}\\", colon, close))
        .flatten()
        .filter(|&at| script[at] == b'\\');

    [comment, backslash, quoted, more.then_some(equals), escaped].into_iter().flatten().min()
}

fn is_quote(byte: u8) -> bool {
    matches!(byte, b'\'' | b'"')
}
