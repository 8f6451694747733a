//! Buffers: those that `parse_strings` finds by itself, and those that are lent.
use crate::common::side_by_side;
use stumpgarret::StringKind::{Bytes, FString, RawFString, String as Plain, Unicode};
use stumpgarret::{
    parse_strings, read_into, Literal, Reason, Record, Sort, StringKind, MOST_BODY_BYTES,
    MOST_LITERALS,
};

#[test]
fn many_records_are_read() {
    let (script, literals) = side_by_side(&[(FString, &"{x}".repeat(1000))]);
    let answer = parse_strings(&script, &literals).unwrap();
    assert_eq!((answer.records().count(), answer.fields().count()), (1000, 1000));
    assert_eq!(answer.text(), "x".repeat(1000).as_bytes());
    assert_eq!(answer.words().len(), 8000);
}

#[test]
fn text_longer_than_the_body_is_read() {
    let long = "x".repeat(1000);
    let (script, literals) = side_by_side(&[(FString, &format!("{{{}=}}", long))]);
    let answer = parse_strings(&script, &literals).unwrap();
    assert_eq!(answer.text(), format!("{}={}", long, long).as_bytes());
    assert_eq!(answer.fields().map(|field| field.expression.len()).collect::<Vec<_>>(), [1000]);
}

#[test]
fn the_most_is_read() {
    let body = "a".repeat(MOST_BODY_BYTES);
    let (script, literals) = side_by_side(&[(FString, &body)]);
    assert_eq!(parse_strings(&script, &literals).unwrap().text(), body.as_bytes());

    let (script, literals) = side_by_side(&[(Plain, "a"); MOST_LITERALS]);
    let answer = parse_strings(&script, &literals).unwrap();
    assert_eq!((answer.sort(), answer.range()), (Sort::Plain, 0..3 * MOST_LITERALS));
    assert_eq!(answer.text(), "a".repeat(MOST_LITERALS).as_bytes());
}

#[test]
fn lent_buffers_keep_what_follows() {
    let (script, literals) = side_by_side(&[(FString, "a{x:>5}")]);
    let (mut words, mut text) = (vec![0xA5A5; 39], vec![0xA5; 9]);
    let answer = read_into(&script, &literals, &mut words, &mut text).unwrap();
    assert_eq!((answer.words().len(), answer.text()), (32, &b"ax>5"[..]));
    assert_eq!(answer, parse_strings(&script, &literals).unwrap());
    assert_eq!((&words[32..], &text[4..]), (&[0xA5A5; 7][..], &[0xA5; 5][..]));
}

#[test]
fn the_counts_of_a_refusal_are_enough() {
    let (script, literals) = side_by_side(&[(Plain, "é"), (FString, "{x=}{y!s:{w}.{p}}")]);
    let refusal = read_into(&script, &literals, &mut [], &mut []).unwrap_err();
    let (records, text) = match refusal.reason() {
        &Reason::TooFewRecordPlaces { records, text } => (records, text),
        other => panic!("{}", other),
    };
    let (mut words, mut text) = (vec![0; 8 * records], vec![0; text]);
    assert!(read_into(&script, &literals, &mut words[1..], &mut text).is_err());
    assert!(read_into(&script, &literals, &mut words, &mut text[1..]).is_err());
    assert!(read_into(&script, &literals, &mut words, &mut text).is_ok());
}

#[test]
fn a_record_for_each_byte_and_literal_is_enough() {
    let nested = format!("{{x:{}}}", "{y=:a}".repeat(100));
    let documented = format!("{{{}=}}", "é".repeat(100));
    for run in [
        [(Plain, ""), (Plain, "")],
        [(FString, nested.as_str()), (Plain, "")],
        [(FString, documented.as_str()), (Unicode, "\\u00e9")],
    ] {
        let (script, literals) = side_by_side(&run);
        let bytes: usize = literals.iter().map(|literal| literal.body.len()).sum();
        let (mut words, mut text) = (vec![0; 8 * (bytes + literals.len())], vec![0; 2 * bytes]);
        let answer = read_into(&script, &literals, &mut words, &mut text).unwrap();
        assert_eq!(answer, parse_strings(&script, &literals).unwrap());
    }
}

#[test]
fn empty_buffers_are_enough_for_nothing() {
    let (script, literals) = side_by_side(&[(FString, "")]);
    let answer = read_into(&script, &literals, &mut [], &mut []).unwrap();
    assert_eq!((answer.records().count(), answer.words().len(), answer.text().len()), (0, 0, 0));
}

/// The bytes of text that records have, their parts' too.
fn text_bytes(record: Record) -> usize {
    match record {
        Record::Literal { text, .. } => text.len(),
        Record::Bytes { value, .. } => value.len(),
        Record::Field(field) => {
            let parts = field.spec.into_iter().flat_map(|spec| spec.parts());
            field.expression.len() + parts.map(text_bytes).sum::<usize>()
        }
        other => panic!("{:?}", other),
    }
}

/// A sequence of numbers that looks random (xorshift).
struct Random(u64);

impl Random {
    fn below(&mut self, bound: usize) -> usize {
        self.0 ^= self.0 << 13;
        self.0 ^= self.0 >> 7;
        self.0 ^= self.0 << 17;
        (self.0 >> 16) as usize % bound
    }

    fn literal(&mut self, start: usize, script: &mut Vec<u8>) -> Literal {
        const PIECES: [&[u8]; 16] = [
            b"{",
            b"}",
            b"x",
            b":",
            b"!r",
            b"=",
            b"(",
            b")",
            b"'",
            b"\\",
            b"\\N{OHM SIGN}",
            b"{y:{z}}",
            b" ",
            "é".as_bytes(),
            b"\xff",
            b"\\x41",
        ];
        const KINDS: [StringKind; 5] = [Plain, FString, RawFString, FString, Unicode];
        let from = script.len();
        for _ in 0..self.below(6) {
            // bytes that are no UTF-8 seldom, so that most runs get to be read
            let piece = self.below(PIECES.len());
            let piece = if piece == 14 && self.below(8) > 0 { 11 } else { piece };
            script.extend(PIECES[piece]);
        }
        let kind = if self.below(20) == 0 { Bytes } else { KINDS[self.below(KINDS.len())] };
        let body = from..script.len();
        let end = start + body.len() + 8 - self.below(40) / 39 * 8;
        Literal { kind, triple_quoted: self.below(2) == 0, body, start, end }
    }
}

#[test]
fn any_input_is_answered() {
    let mut random = Random(20260101);
    let (mut accepted, mut refused) = (0, 0);
    for _ in 0..5_000 {
        let (mut script, mut literals, mut start) = (Vec::new(), Vec::new(), 0);
        for _ in 0..1 + random.below(3) {
            literals.push(random.literal(start, &mut script));
            start = literals.last().map_or(0, |literal| literal.end);
        }
        match parse_strings(&script, &literals) {
            Ok(answer) => {
                accepted += 1;
                let bytes: usize = answer.records().map(text_bytes).sum();
                assert_eq!(bytes, answer.text().len(), "{:?}", literals);
            }
            Err(refusal) => {
                refused += 1;
                assert_ne!(refusal.reason(), &Reason::UnknownAnswer, "{:?}", literals);
                assert!(refusal.number() < 30 && refusal.literal() < literals.len());
                assert!(refusal.place() <= start, "{}", refusal);
            }
        }
    }
    assert!(accepted > 1_000 && refused > 1_000, "{} accepted, {} refused", accepted, refused);
}
