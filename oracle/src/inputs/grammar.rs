//! Random bodies that follow the grammar of literals, for the most part.

use crate::random::Random;

const WORDS: &[&str] = &[
    "a",
    "volts",
    " ",
    "5",
    ">",
    "=",
    "!",
    ":",
    "'",
    "\"",
    "#",
    "\u{e9}",
    "\u{221e}",
    "\u{1f600}",
    "\u{a0}",
    "\n",
    "\t",
    "(",
    "]",
];
const ESCAPES: &[&str] = &[
    "\\n",
    "\\\\",
    "\\'",
    "\\\"",
    "\\t",
    "\\7",
    "\\101",
    "\\777",
    "\\x41",
    "\\xff",
    "\\u00e9",
    "\\ud800",
    "\\uffff",
    "\\U0001F600",
    "\\U0010ffff",
    "\\N{DEGREE SIGN}",
    "\\N{INFINITY}",
    "\\\n",
    "\\q",
    "\\8",
    "\\{{",
    "\\}}",
];
const BAD_ESCAPES: &[&str] =
    &["\\x4", "\\xg0", "\\u00", "\\U00110000", "\\N", "\\N{X}", "\\N{INFINITY", "\\", "\\\u{e9}"];
const BYTES_WORDS: &[&str] = &["a", "volts", " ", "5", "'", "{", "}", "\n", "\\u0041", "\\N{X}"];
const EXPRESSION: &[&str] = &[
    "x", "y", "ab", "1", " ", ".", "+", ",", "!=", "==", "<=", ">=", "<", ">", "\u{3c0}", "\n",
    "''", "'a'", "\"b\\n\"", "'}'", "\"{:!=\"", "#",
];
const BLANKS: &[&str] = &[
    " ", "\t", "\u{b}", "\u{85}", "\u{a0}", "\u{1680}", "\u{2000}", "\u{200a}", "\u{2028}",
    "\u{2029}", "\u{202f}", "\u{205f}", "\u{3000}", "\u{200b}",
];
const SPECS: &[&str] =
    &[">", "<5", "^", "5.2", "d", "\\n", "\\x41", "\\N", "\u{e9}", ":", "!r", "="];

pub fn body(random: &mut Random, kind: u32) -> Vec<u8> {
    let mut body = String::new();
    match kind {
        1 | 4 => text(random, &mut body, 0),
        2 | 5 => pieces(random, &mut body, BYTES_WORDS),
        _ => pieces(random, &mut body, WORDS),
    }
    body.into_bytes()
}

fn pieces(random: &mut Random, body: &mut String, words: &[&str]) {
    for _ in 0..random.below(8) {
        piece(random, body, words);
    }
}

fn piece(random: &mut Random, body: &mut String, words: &[&str]) {
    body.push_str(match random.below(50) {
        0 => random.pick(BAD_ESCAPES),
        1..=15 => random.pick(ESCAPES),
        _ => random.pick(words),
    });
}

fn text(random: &mut Random, body: &mut String, depth: u32) {
    for _ in 0..random.below(6) {
        match random.below(8) {
            0..=3 => field(random, body, depth),
            4 if depth == 0 => body.push_str(random.pick(&["{{", "}}"])),
            _ => piece(random, body, WORDS),
        }
    }
}

fn field(random: &mut Random, body: &mut String, depth: u32) {
    body.push('{');
    if random.once_in(30) {
        (0..random.below(4)).for_each(|_| body.push_str(random.pick(BLANKS)));
    } else {
        expression(random, body, 0);
    }
    if random.once_in(5) {
        body.push('=');
        (0..random.below(3)).for_each(|_| body.push(' '));
        if random.once_in(4) {
            body.push_str(random.pick(&["()", "'s'", "<=", "=", "y", "\t", "( )", "(=)"]));
        }
    }
    if random.once_in(4) {
        body.push_str(random.pick(&["!r", "!s", "!a", "!r", "!s", "!a", "!x", "! ", "!r "]));
    }
    if random.once_in(3) {
        body.push(':');
        spec(random, body, depth);
    }
    body.push('}');
}

fn spec(random: &mut Random, body: &mut String, depth: u32) {
    (0..random.below(3)).for_each(|_| body.push_str(random.pick(SPECS)));
    if depth == 0 && random.once_in(2) || random.once_in(20) {
        field(random, body, depth + 1);
        text(random, body, depth + 1);
    }
}

fn expression(random: &mut Random, body: &mut String, depth: u32) {
    for _ in 0..1 + random.below(3) {
        match random.below(if depth < 3 { 8 } else { 5 }) {
            0..=4 => body.push_str(random.pick(EXPRESSION)),
            5 if random.once_in(8) => many_brackets(random, body),
            _ => bracketed(random, body, depth),
        }
    }
}

fn bracketed(random: &mut Random, body: &mut String, depth: u32) {
    let [open, close] = random.pick(&[&["(", ")"], &["[", "]"], &["{", "}"]]);
    body.push_str(open);
    if !random.once_in(4) {
        expression(random, body, depth + 1);
    }
    if random.once_in(6) {
        body.push_str(random.pick(&[":", "!", "=", "!r"]));
    }
    body.push_str(close);
}

/// About as many open brackets as a field may have.
fn many_brackets(random: &mut Random, body: &mut String) {
    let count = 60 + random.below(8);
    let mut closers = Vec::new();
    for _ in 0..count {
        let [open, close] = random.pick(&[&["(", ")"], &["[", "]"], &["{", "}"]]);
        body.push_str(open);
        closers.push(*close);
    }
    body.push_str(random.pick(&["", "x", "'('", "()", "=", " "]));
    closers.iter().rev().for_each(|close| body.push_str(close));
}
