//! Every refusal that a list of literals can get, by number, literal, place, line, column, bracket
//! and text.
//! Number 2, which it cannot, is tested beside the code.
use crate::common::side_by_side;
use stumpgarret::StringKind::{Bytes, FString, RawFString, String as Plain};
use stumpgarret::{
    parse_strings, read_into, Literal, Reason, Refusal, StringKind, Unclosed, MOST_BODY_BYTES,
    MOST_LITERALS,
};

const NUMBERS: [u32; 21] =
    [1, 3, 4, 5, 6, 7, 10, 11, 12, 13, 20, 21, 22, 23, 24, 25, 26, 27, 28, 30, 31];

fn refused(script: impl AsRef<[u8]>, literals: &[Literal]) -> Refusal {
    parse_strings(script, literals).expect_err("this must be refused")
}

fn of_run(literals: &[(StringKind, &str)]) -> Refusal {
    let (script, literals) = side_by_side(literals);
    refused(script, &literals)
}

fn of(body: &str) -> Refusal {
    of_run(&[(FString, body)])
}

/// Literals of one byte each.
fn ones(count: usize) -> Vec<Literal> {
    (0..count).map(|at| Literal::within(Plain, false, 3 * at..3 * at + 3)).collect()
}

fn all() -> Vec<(Refusal, &'static str)> {
    let long = "a".repeat(MOST_BODY_BYTES + 1);
    let brackets = format!("{{{}}}", "(".repeat(65));
    let (script, literals) = side_by_side(&[(FString, "a{x:>5}")]);
    let lent = |words: usize, text: usize| {
        let (mut words, mut text) = (vec![1; words], vec![1; text]);
        let refusal = read_into(&script, &literals, &mut words, &mut text).unwrap_err();
        assert!(words.iter().all(|&word| word == 0) && text.iter().all(|&byte| byte == 0));
        refusal
    };
    vec![
        (refused("", &[]), "empty list (refusal 1, literal 0, place 0)"),
        (
            refused("'a'".repeat(MOST_LITERALS + 1), &ones(MOST_LITERALS + 1)),
            "more than 1,024 literals (refusal 3, literal 0, place 0)",
        ),
        (refused("'a''", &ones(2)), "bad descriptor (refusal 4, literal 1, place 0)"),
        (of(&long), "bodies over 1,048,576 bytes together (refusal 5, literal 0, place 0)"),
        (refused(b"'a''\xff'", &ones(2)), "body not UTF-8 (refusal 6, literal 1, place 4)"),
        (
            of_run(&[(Plain, "a"), (Bytes, "b")]),
            "bytes mixed with others (refusal 7, literal 0, place 0)",
        ),
        (
            of("a\\"),
            "StringError: an escape is not finished \
             (refusal 10, literal 0, place 4, line 0, column 2)",
        ),
        (
            of(r"\x4"),
            "UnicodeError: an escape lacks a digit, has a code above 10FFFF, or a name over 88 \
             bytes \
             (refusal 11, literal 0, place 4, line 0, column 2)",
        ),
        (
            of_run(&[(Bytes, "aé")]),
            "non-ASCII in bytes \
             (refusal 12, literal 0, place 5, line 0, column 2)",
        ),
        (
            of(r"\N{SNOWMAN}"),
            "name not held: the file of names, or without one the library, does not have this \
             name of a character \
             (refusal 13, literal 0, place 5, line 0, column 3)",
        ),
        (
            of("{x!r b}"),
            "UnclosedLbrace: neither } nor : follows a conversion \
             (refusal 20, literal 0, place 6, line 0, column 4)",
        ),
        (
            of("{x!x}"),
            "InvalidConversionFlag: a conversion is not s, r or a \
             (refusal 21, literal 0, place 6, line 0, column 4)",
        ),
        (
            of("{ }"),
            "EmptyExpression: a field's expression is empty or blank \
             (refusal 22, literal 0, place 5, line 0, column 3)",
        ),
        (
            of("{(]}"),
            "MismatchedDelimiter: ( is closed by ] \
             (refusal 23, literal 0, place 5, line 0, column 3, opened at place 4)",
        ),
        (
            of_run(&[(Plain, "{"), (RawFString, "{x:{y:{z}}}")]),
            "ExpressionNestedTooDeeply: a field stands in the spec of a field in a spec \
             (refusal 24, literal 1, place 12, line 0, column 6)",
        ),
        (
            of("a}b"),
            "SingleRbrace: a single } stands in an f-string \
             (refusal 25, literal 0, place 4, line 0, column 2)",
        ),
        (
            of("{x)}"),
            "Unmatched: ) closes nothing \
             (refusal 26, literal 0, place 5, line 0, column 3)",
        ),
        (
            of("{'a"),
            "UnterminatedString: a quoted run in a field does not end, or a backslash stands \
             outside of one \
             (refusal 27, literal 0, place 5, line 0, column 3)",
        ),
        (
            of(&brackets),
            "65th bracket open at once in a field \
             (refusal 28, literal 0, place 68, line 0, column 66)",
        ),
        (
            lent(31, 4),
            "too few record places: 4 records and 4 text bytes are needed \
             (refusal 30, literal 0, place 0)",
        ),
        (
            lent(32, 3),
            "too little text room: 4 records and 4 text bytes are needed \
             (refusal 31, literal 0, place 0)",
        ),
    ]
}

#[test]
fn every_number_has_its_text() {
    let all = all();
    assert_eq!(all.iter().map(|(refusal, _)| refusal.number()).collect::<Vec<_>>(), NUMBERS);
    for (refusal, text) in all {
        assert_eq!(refusal.to_string(), text);
        let error: Box<dyn std::error::Error> = Box::new(refusal);
        assert_eq!(error.to_string(), text);
    }
}

#[test]
fn why_a_brace_counts_as_unclosed() {
    let words = "UnclosedLbrace: ";
    for (body, place, why, text) in [
        ("{x!", 5, Unclosed::AfterBang, "the literal ends right after a !"),
        ("{x!r b}", 6, Unclosed::AfterConversion, "neither } nor : follows a conversion"),
        ("{x!r", 6, Unclosed::AfterConversion, "neither } nor : follows a conversion"),
        ("{x=y}", 6, Unclosed::AfterEquals, "something not allowed follows a self-documenting ="),
        ("{x= ", 6, Unclosed::InField, "the literal ends inside a field"),
        ("{x:{y}", 8, Unclosed::InField, "the literal ends inside a field"),
        ("a{", 4, Unclosed::LastBrace, "a { in no field is the last character"),
    ] {
        let refusal = of(body);
        assert_eq!(refusal.reason(), &Reason::UnclosedLbrace(why), "{}", body);
        assert_eq!((refusal.number(), refusal.place()), (20, place), "{}", body);
        assert_eq!(refusal.reason().to_string(), format!("{}{}", words, text));
    }
}

#[test]
fn details() {
    assert_eq!(of("{x[}").reason(), &Reason::MismatchedDelimiter('[', '}'));
    assert_eq!(of("{x]").reason(), &Reason::Unmatched(']'));
    assert_eq!(of("{x:{y:{z}}}").reason(), &Reason::ExpressionNestedTooDeeply);
}

#[test]
fn the_innermost_bracket_still_open_is_named() {
    for (body, place, opened) in [
        ("{f(a[0)}", 9, 7),
        ("{[a](b}", 9, 7),
        ("{('['}", 8, 4),
        ("{é(x:{[)", 11, 10),
        ("{x:{é(]}}", 10, 9),
    ] {
        let refusal = of(body);
        assert_eq!((refusal.number(), refusal.place()), (23, place), "{}", body);
        assert_eq!(refusal.opened(), opened, "{}", body);
    }
    let refusal = of_run(&[(Plain, "a"), (FString, "{(]}")]);
    assert_eq!((refusal.literal(), refusal.place(), refusal.opened()), (1, 8, 7));
    assert_eq!(of("{x)").opened(), 0);
}

#[test]
fn characters_are_counted_up_to_the_place() {
    let run = [(Plain, "é\n"), (FString, "€{x!é}"), (Plain, "é")];
    let refusal = of_run(&run);
    assert_eq!((refusal.number(), refusal.literal(), refusal.chars()), (21, 1, 2 + 5));
    let (script, literals) = side_by_side(&[(Plain, "é\n"), (FString, "€{x}")]);
    assert_eq!(parse_strings(&script, &literals).unwrap().chars(), 6);
    for (words, text) in [(0, 0), (16, 0)] {
        let (mut words, mut text) = (vec![0; words], vec![0; text]);
        let refusal = read_into(&script, &literals, &mut words, &mut text).unwrap_err();
        assert_eq!(refusal.chars(), 6);
    }
    assert_eq!(of_run(&[(Plain, "é"), (Bytes, "b")]).chars(), 0);
}

#[test]
fn blanks_are_no_expression() {
    for body in ["{}", "{\u{a0}}", "{\u{85}!r}", "{\t\u{3000}}", "{x:{\u{2028}}}"] {
        assert_eq!(of(body).reason(), &Reason::EmptyExpression, "{:?}", body);
    }
    let (script, literals) = side_by_side(&[(FString, "{\u{200b}}")]);
    assert!(parse_strings(script, &literals).is_ok());
}

#[test]
fn line_and_column_are_counted_in_the_literal() {
    let at = |literals: &[(StringKind, &str)]| {
        let refusal = of_run(literals);
        (refusal.number(), refusal.literal(), refusal.line(), refusal.column())
    };
    assert_eq!(at(&[(FString, "é\n\né😀}")]), (25, 0, 2, 3));
    assert_eq!(at(&[(FString, "{x!\n}")]), (21, 0, 1, 0));
    assert_eq!(at(&[(Plain, "\\\n\\x4")]), (11, 0, 1, 2));
    assert_eq!(at(&[(Plain, "\n\n"), (FString, "é\n"), (FString, "é\n}")]), (25, 2, 1, 1));
    assert_eq!(at(&[(Plain, "\n"), (Bytes, "\n")]), (7, 0, 0, 0));
}

#[test]
fn what_six_numbers_cannot_say_is_a_bad_descriptor() {
    let script = "'a''b'";
    let good = ones(2);
    assert!(parse_strings(script, &good).is_ok());
    // The first four would be good if their numbers were cut to 32 bits.
    let (first, second) = (&good[0], &good[1]);
    let (over, last) = (1 << 32, usize::MAX);
    let bad = [
        Literal { start: over + 3, ..second.clone() },
        Literal { end: over + 6, ..second.clone() },
        Literal { body: over + 4..over + 5, ..second.clone() },
        Literal { body: 4..over + 5, ..second.clone() },
        Literal { body: 0..last, ..second.clone() },
        Literal { body: 5..4, ..second.clone() },
        Literal { body: last..0, ..second.clone() },
        Literal { end: last, ..second.clone() },
        Literal::within(Plain, false, last..last),
        Literal::within(RawFString, true, 3..6),
    ];
    for literal in bad {
        let refusal = refused(script, &[first.clone(), literal.clone()]);
        assert_eq!((refusal.number(), refusal.literal()), (4, 1), "{:?}", literal);
        assert_eq!(refusal.reason(), &Reason::BadDescriptor);
        let many = vec![literal; MOST_LITERALS + 1];
        assert_eq!(refused(script, &many).reason(), &Reason::TooManyLiterals);
    }
}
