//! Traces replayed through templates, and the parts of format specs.
use crate::common::side_by_side;
use stumpgarret::StringKind::{Bytes, FString, String as Plain, Unicode};
use stumpgarret::{literals_at, parse_strings, replay, Reason, Refusal, Replay, Spec, StringKind};

fn through(template: &[(StringKind, &str)], trace: &str) -> Result<Replay, Refusal> {
    let (script, literals) = side_by_side(template);
    replay(script, &literals, trace)
}

fn lines(body: &str, trace: &str) -> String {
    String::from_utf8(through(&[(FString, body)], trace).unwrap().output).unwrap()
}

fn refused(body: &str, trace: &str) -> Refusal {
    through(&[(FString, body)], trace).unwrap_err()
}

#[test]
fn a_line_for_each_row() {
    let replayed =
        through(&[(Plain, "VDD "), (FString, "{mv:>6,} mV"), (Unicode, "!")], "1234\r\n\"-1\"");
    let replayed = replayed.unwrap();
    assert_eq!((replayed.rows, replayed.template.fields().count()), (2, 1));
    let lines: Vec<_> = replayed.lines().collect();
    assert_eq!(lines, [&b"VDD  1,234 mV!\n"[..], &b"VDD     -1 mV!\n"[..]]);
}

#[test]
fn the_template_is_what_it_reads_as() {
    let (script, literals) = side_by_side(&[(Plain, "a"), (FString, "{x=:☃^5}{y:_b}")]);
    let replayed = replay(&script, &literals, "1,2").unwrap();
    assert_eq!(replayed.template, parse_strings(&script, &literals).unwrap());
    assert_eq!(replayed.output, "ax=☃☃1☃☃10\n".as_bytes());
}

#[test]
fn specs_of_integers() {
    for (spec, number, expected) in [
        ("", "-2147483648", "-2147483648"),
        ("05", "-1", "-0001"),
        ("<05", "1", "10000"),
        ("+_x", "65536", "+1_0000"),
        ("#X", "48879", "0XBEEF"),
        ("*=+6", "7", "+****7"),
        ("04,", "1", "0,001"),
        (" ^4", "7", " 7  "),
        ("o", "8", "10"),
    ] {
        assert_eq!(lines(&format!("{{x:{}}}", spec), number), format!("{}\n", expected));
    }
}

#[test]
fn no_row_has_no_line() {
    let replayed = through(&[(Bytes, "VDD")], "").unwrap();
    assert_eq!((replayed.rows, replayed.output.len(), replayed.lines().count()), (0, 0, 0));
}

#[test]
fn lines_that_are_longer_than_the_trace() {
    let expected: String = (0..100).map(|at| format!("{:>64}\n", at)).collect();
    let trace: String = (0..100).map(|at| format!("{}\r\n", at)).collect();
    assert_eq!(lines("{x:64}", &trace), expected);
}

#[test]
fn parts_of_a_trace_give_parts_of_the_lines() {
    let rows: Vec<_> = (0..50).map(|at| format!("{},{}\r\n", at, -at)).collect();
    let whole = lines("{x:>3}{y:_}", &rows.concat());
    let parts: String = rows.iter().map(|row| lines("{x:>3}{y:_}", row)).collect();
    assert_eq!(whole, parts);
}

#[test]
fn every_refusal() {
    for (body, trace, number, reason, text) in [
        (
            "{x}{y:q}",
            "",
            68,
            Reason::NotOfGrammar { field: 1 },
            "spec not of the grammar: the spec is not of the format specification mini-language \
             (refusal 68, field 1)",
        ),
        (
            "{x!r}",
            "",
            69,
            Reason::OutsideSet { field: 0 },
            "spec or field outside the set: the field has a conversion, a nested field, a width \
             above 64, a type other than d, b, o, x and X, or what Python refuses for integers \
             (refusal 69, field 0)",
        ),
        (
            "{x}",
            "1\r\n2\n",
            70,
            Reason::RowMalformed { row: 1 },
            "row malformed: the row is not of RFC 4180, or a column is not digits after at most \
             one - (refusal 70, row 1)",
        ),
        (
            "{x}",
            "1,2",
            71,
            Reason::WrongColumns { row: 0 },
            "column count: the row has not as many columns as the template has fields \
             (refusal 71, row 0)",
        ),
        (
            "{x}",
            "1\r\n2\r\n2147483648",
            72,
            Reason::OutOfRange { row: 2 },
            "number out of range: a number is below -2,147,483,648 or above 2,147,483,647 \
             (refusal 72, row 2)",
        ),
    ] {
        let refusal = refused(body, trace);
        assert_eq!((refusal.number(), refusal.reason()), (number, &reason));
        assert_eq!((refusal.literal(), refusal.place(), refusal.chars()), (0, 0, 0));
        assert_eq!(refusal.to_string(), text);
    }
}

#[test]
fn what_the_reading_refuses_is_refused() {
    for template in ["f'{x}}'", "'a' b'b'", "f'{(]}'"] {
        let literals = literals_at(template, 0).unwrap().literals;
        let refusal = replay(template, &literals, "q").unwrap_err();
        assert_eq!(refusal, parse_strings(template, &literals).unwrap_err());
    }
}

#[test]
fn parts_of_a_spec() {
    let all = Spec::parse("*^+z#064,.3f").unwrap();
    assert_eq!((all.fill, all.align, all.sign), (Some('*'), Some('^'), Some('+')));
    assert_eq!((all.z, all.alternate, all.zero, all.rounds), (true, true, true, true));
    assert_eq!((all.width, all.precision), (Some(64), Some(3)));
    assert_eq!((all.grouping, all.kind), (Some(','), Some('f')));
    let none = Spec::parse("").unwrap();
    assert_eq!((none.fill, none.align, none.sign), (None, None, None));
    assert_eq!((none.z, none.alternate, none.zero, none.rounds), (false, false, false, false));
    assert_eq!((none.width, none.precision, none.grouping, none.kind), (None, None, None, None));
    let fills = ["☃<", "<<", "\0>5", ">"].map(|spec| Spec::parse(spec).unwrap().fill);
    assert_eq!(fills, [Some('☃'), Some('<'), Some('\0'), None]);
    assert_eq!(Spec::parse("99999999999").unwrap().width, Some(u32::MAX - 1));
    for spec in [&b"q"[..], b"5 ", b".", b"dd", b"\xff"] {
        assert_eq!(Spec::parse(spec).unwrap_err().reason(), &Reason::NotOfGrammar { field: 0 });
    }
}

#[test]
fn the_spec_of_a_field() {
    let script = "f'{mv / 12.5:.0f}'";
    let answer = parse_strings(script, &literals_at(script, 0).unwrap().literals).unwrap();
    let spec = answer.fields().next().unwrap().spec.unwrap();
    assert!(Spec::parse(spec.as_str().unwrap()).unwrap().rounds);
}
