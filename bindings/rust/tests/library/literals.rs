//! Literals found in a script, and read from it.
use stumpgarret::StringKind::{self, Bytes, FString, RawBytes, RawFString, RawString, Unicode};
use stumpgarret::{
    cut, literals_at, parse_strings, read_at, Literal, Reason, Refusal, MOST_LITERALS,
    MOST_SCRIPT_BYTES,
};

fn refused(script: &str, offset: usize) -> (u32, usize) {
    let refusal = literals_at(script, offset).unwrap_err();
    assert_eq!((refusal.literal(), refusal.line(), refusal.column()), (0, 0, 0));
    (refusal.number(), refusal.place())
}

#[test]
fn every_prefix_is_found() {
    let prefixes = [
        ("", StringKind::String),
        ("f", FString),
        ("b", Bytes),
        ("r", RawString),
        ("fr", RawFString),
        ("rf", RawFString),
        ("br", RawBytes),
        ("rb", RawBytes),
        ("u", Unicode),
    ];
    for (prefix, kind) in prefixes {
        let mixed: String = prefix
            .chars()
            .enumerate()
            .map(|(at, c)| if at == 0 { c.to_ascii_uppercase() } else { c })
            .collect();
        for prefix in [prefix.to_string(), prefix.to_uppercase(), mixed] {
            for quotes in ["'", "\"", "'''", "\"\"\""] {
                let script = format!("x={}{}a{};", prefix, quotes, quotes);
                let run = literals_at(&script, 2).unwrap();
                let end = script.len() - 1;
                assert_eq!(run.literals, [Literal::within(kind, quotes.len() == 3, 2..end)]);
                assert_eq!(run.stop, end, "{}", script);
            }
        }
    }
    for script in ["ur''", "bu''", "ff''", "rr''", "fb''", "x''", "r ''", "bfr''"] {
        assert_eq!(refused(script, 0), (52, 0), "{}", script);
    }
}

#[test]
fn what_stands_between_is_passed_over() {
    let script = "('a' \t\n # it's\n\"b\"''' \\''' '''# c";
    let run = literals_at(script, 1).unwrap();
    let ranges: Vec<_> = run.literals.iter().map(|l| &script[l.start..l.end]).collect();
    assert_eq!(ranges, ["'a'", "\"b\"", "''' \\''' '''"]);
    assert_eq!(run.stop, script.len());
    for end in ["\r'b'", "\x0c'b'", "\\\n'b'", ";'b'", "\u{a0}'b'"] {
        let run = literals_at(format!("'a' {}", end), 0).unwrap();
        assert_eq!((run.literals.len(), run.stop), (1, 4), "{:?}", end);
    }
}

#[test]
fn refusals_have_their_places() {
    assert_eq!(refused("''''''", 1), (50, 1));
    assert_eq!(refused("'a' f'b\\'", 0), (50, 4));
    assert_eq!(refused("'a' r\"b\n\"", 0), (51, 4));
    assert_eq!(refused("a = 1", 4), (52, 4));
    assert_eq!(refused("", 0), (52, 0));
    assert_eq!(refused("''", usize::MAX), (52, usize::MAX));
    let long = "'".repeat(MOST_SCRIPT_BYTES + 1);
    assert_eq!(refused(&long, 7), (49, 0));
    assert_eq!(refused(&long, usize::MAX), (49, 0));
    let text = "no literal at the offset (refusal 52, literal 0, place 4)";
    assert_eq!(literals_at("a = 1", 4).unwrap_err().to_string(), text);
}

#[test]
fn long_lists_are_found() {
    let script = "'' ".repeat(100_000);
    let run = literals_at(&script, 0).unwrap();
    assert_eq!((run.literals.len(), run.stop), (100_000, 300_000));
    assert_eq!(run.literals[99_999], Literal::within(StringKind::String, false, 299_997..299_999));
    let reason = |result: Result<_, Refusal>| result.map(|_| ()).unwrap_err().reason().clone();
    assert_eq!(reason(read_at(&script, 0)), Reason::TooManyLiterals);
    assert!(read_at(&script[..3 * MOST_LITERALS], 0).is_ok());
}

#[test]
fn what_is_found_is_read() {
    let script = "x = ('VDD ' f'{mv / 12.5:.0f}'\n     rf'{n!r}')";
    let (run, answer) = read_at(script, 5).unwrap();
    assert_eq!(answer, parse_strings(script, &run.literals).unwrap());
    let places: Vec<_> = answer.fields().map(|field| field.place).collect();
    assert!(places.iter().all(|&place| &script[place - 1..place] == "{"));
    assert_eq!((answer.range(), places.len()), (5..script.len() - 1, 2));

    let refusal = read_at("'a' f'{'", 0).unwrap_err();
    assert_eq!((refusal.number(), refusal.literal(), refusal.place()), (20, 1, 7));
}

#[test]
fn a_whole_script_is_cut() {
    let script = "x = ('a', f\"{y}\" # it's\n'b') + if'c'";
    let found = cut(script).unwrap();
    let texts: Vec<_> = found.literals.iter().map(|l| &script[l.start..l.end]).collect();
    assert_eq!(texts, ["'a'", "f\"{y}\"", "'b'", "'c'"]);
    assert_eq!(found.literals[1], Literal::within(FString, false, 10..16));
    assert_eq!((found.to, found.ended), (script.len(), None));
    for (script, to, ended) in [
        ("'a' f'''b", 4, Reason::NeverClosed),
        ("'a'\n'b\n'c'", 4, Reason::NewlineInLiteral),
    ] {
        let found = cut(script).unwrap();
        assert_eq!((found.literals.len(), found.to, found.ended), (1, to, Some(ended)));
    }
}

#[test]
fn long_scripts_are_cut() {
    let script = "'' ".repeat(100_000);
    let found = cut(&script).unwrap();
    assert_eq!((found.literals.len(), found.to, found.ended), (100_000, 300_000, None));
    assert_eq!(found.literals[99_999], Literal::within(StringKind::String, false, 299_997..299_999));
    assert_eq!(cut("").unwrap().literals, []);
    let blank = " ".repeat(MOST_SCRIPT_BYTES + 1);
    assert_eq!(cut(&blank[1..]).unwrap().to, MOST_SCRIPT_BYTES);
    let refusal = cut(&blank).unwrap_err();
    assert_eq!((refusal.number(), refusal.place()), (49, 0));
}
