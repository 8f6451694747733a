//! Every field of whole scripts.
use stumpgarret::ConversionReason::{None as NoReason, Repr, Spec, Written};
use stumpgarret::{
    field_signs, fields, fields_named, fields_of_text, literals_at, FieldClass, Listed,
    ListedField, ListedRefusal, Listing, Names, Reason, Row, MOST_SCRIPT_BYTES,
};

/// Rows as `line:column expression=!r:spec`, each behind a dot for every field it stands in; refusals as
/// `line:column refusal number`.
fn written(listing: &Listing) -> Vec<String> {
    listing.rows().map(|row| one(&row)).collect()
}

fn one(row: &Row) -> String {
    let at = format!("{}{}:{}", ".".repeat(row.depth), row.line, row.column);
    match &row.listed {
        Listed::Refusal(refusal) => format!("{} refusal {}", at, refusal.number),
        Listed::Field(field) => {
            let documented = if field.documented { "=" } else { "" };
            let conversion =
                field.conversion.to_char().map_or(String::new(), |c| format!("!{}", c));
            let spec = field.spec.map_or(String::new(), |spec| format!(":{}", spec));
            format!("{} {}{}{}{}", at, field.expression, documented, conversion, spec)
        }
    }
}

fn rows(script: &str) -> Vec<String> {
    written(&fields(script).unwrap())
}

fn field<'a>(row: &'a Row) -> &'a ListedField<'a> {
    match &row.listed {
        Listed::Field(field) => field,
        other => panic!("{:?}", other),
    }
}

fn refusal<'a>(row: &'a Row) -> &'a ListedRefusal {
    match &row.listed {
        Listed::Refusal(refusal) => refusal,
        other => panic!("{:?}", other),
    }
}

#[test]
fn every_field_is_listed() {
    let script = "print('VDD ' f'{mv / 12.5:.0f}' rf\"{n!a}\")  # it's f'{no}'\n\
                  x = b'{no}' u'{no}' '{no}' f'{y = }{z=!s:>{w}}'\n";
    let listing = fields(script).unwrap();
    assert!(listing.is_complete());
    assert_eq!((listing.literals(), listing.cut()), (7, script.len()));
    let expected = ["1:17 mv / 12.5:.0f", "1:37 n!a", "2:31 y =!r", "2:37 z=!s:>{w}", ".2:44 w"];
    assert_eq!(written(&listing), expected);
}

#[test]
fn fields_in_expressions_come_after_their_own() {
    let listing = fields("f'''{f\"{a:{f'{b}'}}{c}\"}{d}'''").unwrap();
    let expected = [
        "1:6 f\"{a:{f'{b}'}}{c}\"",
        ".1:9 a:{f'{b}'}",
        "..1:12 f'{b}'",
        "...1:15 b",
        ".1:21 c",
        "1:26 d",
    ];
    assert_eq!(written(&listing), expected);
    let within: Vec<_> = listing.rows().map(|row| row.within).collect();
    assert_eq!(within, [None, Some(0), Some(0), Some(2), Some(0), None]);
    let starts: Vec<_> = listing.rows().map(|row| row.start).collect();
    assert_eq!(starts, [0, 5, 5, 11, 5, 0]);
}

#[test]
fn signs_are_those_of_the_literal() {
    let script = "f'{a!r}{b=}{c=:3}{d}{e:{f}}'";
    let listing = fields(script).unwrap();
    let signs: Vec<_> = listing.rows().map(|row| field(&row).signs.clone()).collect();
    assert_eq!(signs, field_signs(script, &literals_at(script, 0).unwrap().literals).unwrap());
    let reasons: Vec<_> = signs.iter().map(|signs| signs.reason).collect();
    assert_eq!(reasons, [Written, Repr, Spec, NoReason, NoReason, NoReason]);
    for row in &listing {
        assert_eq!(row.place, field(&row).signs.place);
        assert_eq!(field(&row).spec, field(&row).signs.spec().map(|spec| &script[spec]));
    }
}

#[test]
fn lines_and_columns_count_characters_from_1() {
    let script = "\u{b5} = 1\n\tf'{a}'\n\n\u{4e2d}\u{1f600} f'\u{e9}{b}'; f'''\n\u{b5}{c}\n {d}'''";
    assert_eq!(rows(script), ["2:5 a", "4:8 b", "5:3 c", "6:3 d"]);
}

#[test]
fn every_line_end_counts() {
    let lines = "'a' # it's\nf'''{x\n+ 1:a\nb}'''\n\nf'{y}'";
    let expected = ["2:6 x\n+ 1:a\nb", "6:4 y"];
    assert_eq!(rows(lines), expected);
    for end in ["\r\n", "\r"] {
        let script = lines.replace('\n', end);
        let listing = fields(&script).unwrap();
        assert_eq!(written(&listing), expected, "{:?}", end);
        assert_eq!(listing.script(), lines.as_bytes());
        assert!(listing.is_complete());
    }
    let mixed = fields("\n\r\r\n\r\n\nf'{x}'\r").unwrap();
    assert_eq!(
        (mixed.script(), written(&mixed)),
        (&b"\n\n\n\n\nf'{x}'\n"[..], vec!["6:4 x".into()])
    );
}

#[test]
fn a_byte_order_mark_is_passed_over() {
    for script in ["\u{feff}f'{x}'", "\u{feff}f'{x}'\r\n"] {
        let listing = fields(script).unwrap();
        assert_eq!(written(&listing), ["1:4 x"]);
        assert_eq!(&listing.script()[listing.rows().next().unwrap().place..][..1], b"x");
    }
}

#[test]
fn a_script_that_python_would_decode_is_refused() {
    let script = "# coding: utf-7\n+AGYAJwB7AHgAfQAn-";
    let refusal = fields(script).unwrap_err();
    assert_eq!(refusal.reason(), &Reason::OtherCoding { name: "utf-7".into() });
    assert_eq!((refusal.number(), refusal.place()), (0, 10));
    let text = "its coding line says utf-7, and only UTF-8 and ASCII are read (line 1, column 11)";
    assert_eq!(refusal.to_string(), text);

    let decoded = fields_of_text("# coding: utf-7\r\nf'{x}'", None).unwrap();
    assert!(decoded.is_complete());
    assert_eq!(written(&decoded), ["2:4 x"]);
    let names = Names::build(&b"2603;SNOWMAN;So;0;ON;;;;;N;;;;;\n"[..]).unwrap();
    let named = "# coding: utf-7\nf'{x}\\N{SNOWMAN}'";
    assert_eq!(fields_named(named, &names).unwrap_err().place(), 10);
    assert!(fields_of_text(named, Some(&names)).unwrap().is_complete());
}

#[test]
fn a_byte_0_is_refused() {
    let utf16: Vec<u8> = "f'{x}'".encode_utf16().flat_map(u16::to_le_bytes).collect();
    let refusal = fields(utf16).unwrap_err();
    assert_eq!((refusal.number(), refusal.reason(), refusal.place()), (0, &Reason::ZeroByte, 1));
    let text = "it has a byte 0: Python does not take it; UTF-16? (line 1, column 2)";
    assert_eq!(refusal.to_string(), text);
    assert_eq!(fields_of_text("\n\0", None).unwrap_err().place(), 1);
}

#[test]
fn what_follows_a_refused_literal_is_listed() {
    let listing = fields("f'{(a]}' f'{b}'\nf'{}' f\"{c!x}\" f'{d}'").unwrap();
    assert!(!listing.is_complete());
    let expected = ["1:7 refusal 23", "1:13 b", "2:5 refusal 22", "2:13 refusal 21", "2:19 d"];
    assert_eq!(written(&listing), expected);
    let first = listing.rows().next().unwrap();
    assert_eq!(refusal(&first).reason, Reason::MismatchedDelimiter('(', ']'));
    assert_eq!((refusal(&first).opened, first.start, first.place), (Some(4), 0, 6));
    let texts: Vec<_> = listing
        .rows()
        .filter_map(|row| match row.listed {
            Listed::Refusal(refusal) => Some(refusal.to_string()),
            Listed::Field(_) => None,
        })
        .collect();
    let expected = [
        "23 MismatchedDelimiter: ( is closed by ], opened at 4",
        "22 EmptyExpression: a field's expression is empty or blank",
        "21 InvalidConversionFlag: a conversion is not s, r or a",
    ];
    assert_eq!(texts, expected);
}

#[test]
fn a_literal_that_never_closes_ends_the_cut() {
    for (script, number, reason) in [
        ("f'{a}' 'b\nf'{c}'", 51, Reason::NewlineInLiteral),
        ("f'{a}' '''b\nf'{c}'", 50, Reason::NeverClosed),
    ] {
        let listing = fields(script).unwrap();
        assert_eq!(written(&listing), ["1:4 a".into(), format!("1:8 refusal {}", number)]);
        assert_eq!((listing.is_complete(), listing.cut(), listing.literals()), (false, 7, 1));
        assert_eq!(refusal(&listing.rows().last().unwrap()).reason, reason);
    }
}

#[test]
fn what_python_reads_otherwise_is_told() {
    let listing = fields(r#"f'{""""{{"}"""}{""""}}":"""}'"#).unwrap();
    assert_eq!(listing.rows().len(), 2);
    let last = listing.rows().last().unwrap();
    assert_eq!((refusal(&last).number, &refusal(&last).reason), (75, &Reason::ReadOtherwise));
    assert_eq!((last.within, last.depth, last.place), (Some(0), 1, 3));

    assert_eq!(rows("f'{x=()}'"), ["1:4 x=()!r", ".1:6 refusal 75"]);
    assert_eq!(rows("f'{x#}'"), ["1:4 x#", ".1:5 refusal 75"]);
    assert_eq!(rows(r"f'{x:\t}' rf'{y:\t}'"), [r"1:4 x:\t", r".1:6 refusal 75", r"1:15 y:\t"]);
}

#[test]
fn a_word_that_python_does_not_let_stand_before_a_string_is_told() {
    let listing = fields("x = t'{y:.0f}'").unwrap();
    assert_eq!(written(&listing), ["1:5 refusal 76"]);
    let last = listing.rows().last().unwrap();
    assert_eq!((refusal(&last).number, &refusal(&last).reason), (76, &Reason::UnknownPrefix));
    assert_eq!((last.within, last.place), (None, 4));

    assert_eq!(rows("f'{rt\"{x}\"}' f'{y}'"), ["1:4 rt\"{x}\"", ".1:4 refusal 76", "1:17 y"]);
    assert_eq!(rows("1if''else''or'' f'{y}'"), ["1:20 y"]);
}

#[test]
fn bytes_that_are_no_text_are_told_where_they_stand_in_a_field() {
    let listing = fields(b"# \xff\n'\xff' f'{a}\xff' f'{b}'").unwrap();
    assert_eq!(written(&listing), ["2:10 refusal 6", "2:16 b"]);
    assert_eq!(refusal(&listing.rows().next().unwrap()).reason, Reason::NotUtf8);
}

#[test]
fn scripts_may_be_empty_or_long() {
    assert!(fields("").unwrap().is_complete());
    assert_eq!(fields("").unwrap().rows().len(), 0);
    let script = "f'{#}'".repeat(MOST_SCRIPT_BYTES / 6);
    let listing = fields(&script).unwrap();
    assert_eq!(listing.rows().len(), 2 * (MOST_SCRIPT_BYTES / 6));
    let refused = fields(&" ".repeat(MOST_SCRIPT_BYTES + 1)).unwrap_err();
    assert_eq!((refused.number(), refused.reason()), (49, &Reason::ScriptTooLong));
    assert!(fields(&"\r\n".repeat(MOST_SCRIPT_BYTES)).unwrap().is_complete());
}

#[test]
fn classes() {
    use FieldClass::{Computed, Exact, Own, Rounds, Text};
    for (class, fields_of_it) in [
        (Rounds, "{x:.3f} {x:e} {x:G} {x:n} {x:%} {x:.0} {x=:.2f} {x:,.1%}"),
        (Computed, "{x:{w}} {x:.{n}f} {x=:{w}}"),
        (Own, "{x:%Y-%m-%d} {x:.3q} {x:5q}"),
        (Text, "{x!r} {x!s:.3f} {x!a:>9} {x=} {x=!s} {x!s:{w}}"),
        (Exact, "{x} {x:} {x:d} {x:>8} {x:,} {x:#06x} {x:c} {x:*^9} {x:s} {x:.3s}"),
    ] {
        for one in fields_of_it.split(' ') {
            let listing = fields(format!("f'{}'", one)).unwrap();
            assert_eq!(field(&listing.rows().next().unwrap()).class(), class, "{}", one);
        }
        assert_eq!(class.may_round(), matches!(class, Rounds | Computed | Own));
    }
}
