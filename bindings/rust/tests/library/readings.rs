//! The starred readings of RULES 5.11, and others.
use crate::common::{append, side_by_side, written};
use stumpgarret::StringKind::{
    Bytes, FString, RawBytes, RawFString, RawString, String as Plain, Unicode,
};
use stumpgarret::{parse_strings, Literal, Record, Sort, StringKind};

/// A run, its sort, and its records as `written` writes them.
type Row<'a> = (&'a [(StringKind, &'a str)], Sort, &'a str);

fn check(rows: &[Row]) {
    for &(literals, sort, expected) in rows {
        let (script, literals) = side_by_side(literals);
        let answer = parse_strings(&script, &literals).expect(&script);
        assert_eq!(written(answer.records()), expected, "{}", script);
        assert_eq!(answer.sort(), sort, "{}", script);
        assert_eq!(answer.range(), 0..script.len(), "{}", script);
        assert_eq!(answer.u_mark(), literals[0].kind.is_unicode(), "{}", script);
        let bodies = literals.iter().map(|literal| &script[literal.body.clone()]);
        assert_eq!(answer.chars(), bodies.map(|body| body.chars().count()).sum(), "{}", script);
    }
}

#[test]
fn small_readings() {
    check(&[
        (&[(FString, "{x!=y}")], Sort::Joined, "{x!=y @3}"),
        (&[(FString, "{x = }")], Sort::Joined, r#""x = " {x !r @3}"#),
        (&[(FString, "{x=()}")], Sort::Joined, r#""x()=" {x()!r @3}"#),
        (&[(FString, "")], Sort::Joined, ""),
        (&[(FString, r"{x:\n>{w}\n}")], Sort::Joined, r#"{x @3 ["\\n>" {w @9} "\n"]}"#),
        (&[(Plain, ""), (FString, "{x}")], Sort::Joined, r#""" {x @5}"#),
        (&[(Bytes, r"\777")], Sort::Bytes, "b[255]"),
        (&[(Plain, r"\777")], Sort::Plain, r#""ǿ""#),
        (&[(FString, "a{x:>5}")], Sort::Joined, r#""a" {x @4 [">5"]}"#),
        (&[(Plain, ""), (FString, "{x}"), (Plain, "")], Sort::Joined, r#""" {x @5} """#),
        (&[(FString, "{x=:}")], Sort::Joined, r#""x=" {x @3 []}"#),
    ]);
}

#[test]
fn runs() {
    check(&[
        (
            &[(Plain, "VDD "), (FString, r"{mv / 12.5:.0f}\n")],
            Sort::Joined,
            r#""VDD " {mv / 12.5 @9 [".0f"]} "\n""#,
        ),
        (&[(Unicode, "a"), (Plain, "b")], Sort::Plain, r#"u"ab""#),
        (
            &[(Unicode, "a"), (FString, "b{x}"), (RawString, r"\d")],
            Sort::Joined,
            r#"u"ab" {x @8} u"\\d""#,
        ),
        (&[(Bytes, r"\x41"), (RawBytes, r"\x41")], Sort::Bytes, "b[65, 92, 120, 52, 49]"),
        (
            &[(FString, "{x=!s}"), (FString, "{y= :{z=}}")],
            Sort::Joined,
            r#""x=" {x!s @3} "y= " {y @12 ["z=" "" {z!r @17}]}"#,
        ),
        (&[(RawFString, r"\{x!a}")], Sort::Joined, r#""\\" {x!a @5}"#),
    ]);
}

#[test]
fn triple_quotes_move_the_place() {
    let mut script = String::from("print(");
    let literals = [append(&mut script, RawFString, true, "{\nx}")];
    let answer = parse_strings(&script, &literals).unwrap();
    assert_eq!(written(answer.records()), "{\nx @12}");
    assert_eq!(answer.range(), 6..script.len());
}

#[test]
fn ranges() {
    let (script, literals) = side_by_side(&[(Unicode, "a"), (FString, "{x:y{z}}")]);
    let answer = parse_strings(&script, &literals).unwrap();
    let mut records = answer.records();
    match records.next() {
        Some(Record::Literal { range, u_mark, .. }) => assert_eq!((range, u_mark), (0..15, true)),
        other => panic!("{:?}", other),
    }
    let field = match records.next() {
        Some(Record::Field(field)) => field,
        other => panic!("{:?}", other),
    };
    assert!(records.next().is_none());
    assert_eq!((field.range.clone(), field.place), (4..15, 7));
    let spec = field.spec.unwrap();
    assert_eq!((spec.range(), spec.as_str()), (4..15, None));
    let parts: Vec<_> = spec.parts().collect();
    match &parts[..] {
        [Record::Literal { text: "y", range, u_mark: false, .. }, Record::Field(field)] => {
            assert_eq!((range, &field.range, field.place), (&(4..15), &(4..15), 11));
        }
        other => panic!("{:?}", other),
    }
}

#[test]
fn starts_need_not_be_offsets_in_the_script() {
    let far = u32::MAX as usize;
    let literal =
        Literal { kind: Bytes, triple_quoted: false, body: 0..2, start: far - 5, end: far };
    let answer = parse_strings(b"ab", &[literal]).unwrap();
    match answer.records().next() {
        Some(Record::Bytes { value, range, .. }) => {
            assert_eq!((value, range), (&b"ab"[..], far - 5..far));
        }
        other => panic!("{:?}", other),
    }
}

#[test]
fn kinds_know_their_prefix() {
    let kinds = [Plain, FString, Bytes, RawString, RawFString, RawBytes, Unicode];
    let which = |test: fn(StringKind) -> bool| -> Vec<_> {
        kinds.into_iter().filter(|&kind| test(kind)).collect()
    };
    assert_eq!(kinds.map(StringKind::prefix_len), [0, 1, 1, 1, 2, 2, 1]);
    assert_eq!(which(StringKind::is_raw), [RawString, RawFString, RawBytes]);
    assert_eq!(which(StringKind::is_any_fstring), [FString, RawFString]);
    assert_eq!(which(StringKind::is_any_bytes), [Bytes, RawBytes]);
    assert_eq!(which(StringKind::is_unicode), [Unicode]);
}
