//! Files of names: their index built and checked, and readings and listings with them.
use crate::common::{side_by_side, written};
use std::collections::BTreeMap;
use std::fs;
use stumpgarret::StringKind::{Bytes, FString, RawString, String as Plain};
use stumpgarret::{
    fields, fields_named, parse_strings, parse_strings_named, read_at_named, read_into,
    read_into_named, Names, Reason, Refusal, MOST_LITERALS, MOST_SCRIPT_BYTES,
};

/// Debian's package unicode-data has it.
const PUBLISHED: &str = "/usr/share/unicode/UnicodeData.txt";

fn line(code: &str, name: &str) -> String {
    format!("{};{};So;0;ON;;;;;N;;;;;\n", code, name)
}

fn file(lines: &[(&str, &str)]) -> Vec<u8> {
    lines.iter().map(|(code, name)| line(code, name)).collect::<String>().into_bytes()
}

/// A name that begins another, codes of four to six digits, and lines without a name.
fn small() -> Vec<u8> {
    file(&[
        ("2603", "SNOWMAN"),
        ("0000", "<control>"),
        ("01f40d", "SNAKE"),
        ("D800", "<Non Private Use High Surrogate, First>"),
        ("02604", "COMET"),
        ("2745", "SNOW"),
    ])
}

fn refused(built: Result<Names, Refusal>) -> Refusal {
    built.expect_err("this must be refused")
}

/// The index as a plain sort gives it.
fn sorted(file: &[u8]) -> Vec<u32> {
    let mut at = 0;
    let mut entries = BTreeMap::new();
    for line in file.split_inclusive(|&byte| byte == b'\n') {
        let name = line.split(|&byte| byte == b';').nth(1).unwrap();
        if name[0] != b'<' {
            assert!(entries.insert(name, at as u32).is_none());
        }
        at += line.len();
    }
    entries.into_values().collect()
}

#[test]
fn an_index_is_ordered_by_name() {
    let file = small();
    let names = Names::build(&file).unwrap();
    let at = |name: &str| {
        let line = String::from_utf8(file.clone()).unwrap();
        let name = line.find(&format!(";{};", name)).unwrap();
        line[..name].rfind('\n').map_or(0, |before| before + 1) as u32
    };
    assert_eq!(names.index(), ["COMET", "SNAKE", "SNOW", "SNOWMAN"].map(at));
    assert_eq!(names.index(), sorted(&file));
    assert_eq!(names.file(), file);
    assert_eq!(format!("{:?}", names), format!("Names {{ bytes: {}, entries: 4 }}", file.len()));
}

#[test]
fn a_file_may_be_lent_or_given() {
    let file = small();
    let lent = Names::build(&file[..]).unwrap();
    let given: Names<'static> = Names::build(file.clone()).unwrap();
    let index = given.index().to_vec();
    assert_eq!(lent, given);
    assert_eq!(Names::check(&file, &index).unwrap(), given);
    let kept: Names<'static> = Names::check(file.clone(), index).unwrap();
    assert_eq!(kept, lent);
}

#[test]
fn a_file_may_hold_no_name() {
    for file in [Vec::new(), file(&[("0000", "<control>"), ("DFFF", "<a surrogate>")])] {
        let names = Names::build(&file).unwrap();
        assert!(names.index().is_empty());
        assert!(Names::check(&file, Vec::new()).is_ok());
        assert_eq!(refused(Names::check(&file, vec![0])).number(), 63);
        let script = r"f'\N{OHM SIGN}'";
        assert_eq!(read_at_named(script, 0, &names).unwrap_err().number(), 13);
    }
}

#[test]
fn twenty_bytes_are_enough_for_a_line() {
    let least = "0041;A;;;;;;;;;;;;;\n";
    assert_eq!(least.len(), 20);
    assert_eq!(Names::build(least.as_bytes()).unwrap().index(), [0]);
}

#[test]
fn malformed_files_are_refused() {
    let good = line("2603", "SNOWMAN");
    let text =
        "line malformed: a line of the file of names is malformed or not ended, or a name's \
                code is no scalar value (refusal 60)";
    for bad in [
        "\n".to_string(),
        good.trim_end().to_string(),
        format!("{}x", good),
        format!("{}\n{}", good, line("2604", "COMET")),
        good.replacen(';', ",", 1),
        good.replacen("So", "So;", 1),
        line("2603", ""),
        line("603", "SNOWMAN"),
        line("0002603", "SNOWMAN"),
        line("260G", "SNOWMAN"),
        line("D800", "SNOWMAN"),
        line("110000", "SNOWMAN"),
        line("26 3", "<control>"),
        format!("{}{}\n", good, good),
    ] {
        let refusal = refused(Names::build(bad.as_bytes()));
        assert_eq!(refusal.reason(), &Reason::LineMalformed, "{:?}", bad);
        assert_eq!(refusal.to_string(), text);
        assert_eq!((refusal.literal(), refusal.place(), refusal.chars()), (0, 0, 0));
        assert_eq!(refused(Names::check(bad.as_bytes(), vec![7])), refusal);
    }
}

#[test]
fn a_name_twice_is_refused() {
    let twice = file(&[("2603", "SNOWMAN"), ("2604", "COMET"), ("2745", "SNOWMAN")]);
    for refusal in [refused(Names::build(&twice)), refused(Names::check(&twice, vec![0]))] {
        assert_eq!((refusal.number(), refusal.reason()), (61, &Reason::NameTwice));
        let text = "name twice: a name stands twice in the file of names (refusal 61)";
        assert_eq!(refusal.to_string(), text);
    }
    // those that are no names may
    assert!(Names::build(file(&[("0000", "<control>"), ("0001", "<control>")])).is_ok());
}

#[test]
fn only_the_one_index_is_taken() {
    let file = small();
    let good = Names::build(&file).unwrap().index().to_vec();
    let mut wrong = vec![Vec::new(), good[1..].to_vec(), [&good[..], &[0]].concat()];
    for at in 0..good.len() {
        for number in [good[at] + 1, good[(at + 1) % good.len()], u32::MAX] {
            let mut one = good.clone();
            one[at] = number;
            wrong.push(one);
        }
        let mut swapped = good.clone();
        swapped.swap(at, (at + 1) % good.len());
        wrong.push(swapped);
    }
    for index in wrong {
        let refusal = refused(Names::check(&file, &index));
        assert_eq!((refusal.number(), refusal.reason()), (63, &Reason::WrongIndex), "{:?}", index);
        let text = "wrong index: the index is not that of the file of names, or the file has 2^32 \
                    bytes or more (refusal 63)";
        assert_eq!(refusal.to_string(), text);
    }
}

#[test]
fn readings_take_the_names_of_the_file() {
    let names = Names::build(small()).unwrap();
    let (script, literals) =
        side_by_side(&[(Plain, r"\N{SNOW}"), (FString, r"\N{SNAKE}{x}\N{SNOWMAN}")]);
    let answer = parse_strings_named(&script, &literals, &names).unwrap();
    assert_eq!(written(answer.records()), "\"❅🐍\" {x @22} \"☃\"");
    assert_eq!(answer.text(), "❅🐍x☃".as_bytes());
    assert_eq!(answer.chars(), script.chars().count() - 5);
    assert_eq!(read_at_named(&script, 0, &names).unwrap().1, answer);

    let (mut words, mut text) = (vec![7; 30], vec![7; 13]);
    let lent = read_into_named(&script, &literals, &names, &mut words, &mut text).unwrap();
    assert_eq!(lent, answer);
    assert_eq!((&words[24..], &text[11..]), (&[7; 6][..], &[7; 2][..]));
    let refusal =
        read_into_named(&script, &literals, &names, &mut words[..23], &mut text).unwrap_err();
    assert_eq!(refusal.reason(), &Reason::TooFewRecordPlaces { records: 3, text: 11 });
    assert_eq!((&words[..23], &text[..]), (&[0; 23][..], &[0; 13][..]));
}

#[test]
fn other_names_are_not_held() {
    let names = Names::build(small()).unwrap();
    for name in ["OHM SIGN", "snow", "SNOWMEN", "SNO", " SNOW", "COMET;So", "<control>", ""] {
        let body = format!("a\\N{{{}}}", name);
        let (script, literals) = side_by_side(&[(Plain, &body)]);
        let refusal = parse_strings_named(&script, &literals, &names).unwrap_err();
        assert_eq!((refusal.reason(), refusal.place()), (&Reason::NameNotHeld, 5), "{:?}", name);
    }
    let (script, literals) = side_by_side(&[(Plain, r"\N{OHM SIGN}")]);
    assert_eq!(parse_strings(&script, &literals).unwrap().text(), "\u{2126}".as_bytes());
}

#[test]
fn a_body_asks_for_88_bytes_at_most() {
    for (length, number) in [(88, 0), (89, 11)] {
        let long = "A".repeat(length);
        let names = Names::build(file(&[("2603", &long)])).unwrap();
        let body = format!("\\N{{{}}}", long);
        let (script, literals) = side_by_side(&[(Plain, &body)]);
        let answer = parse_strings_named(&script, &literals, &names);
        assert_eq!(answer.map_or_else(|refusal| refusal.number(), |_| 0), number);
    }
}

#[test]
fn what_asks_for_no_name_reads_the_same() {
    let names = Names::build(small()).unwrap();
    for run in [
        [(Plain, "a"), (FString, "{x=!r:>{w}}")],
        [(RawString, r"\N{SNOW}"), (FString, "}")],
        [(Bytes, r"\N{SNOW}"), (Bytes, r"\x41")],
        [(Plain, "a"), (Bytes, "b")],
        [(Plain, r"\N"), (Plain, "")],
    ] {
        let (script, literals) = side_by_side(&run);
        let read = parse_strings(&script, &literals);
        assert_eq!(parse_strings_named(&script, &literals, &names), read, "{:?}", run);
        let (mut words, mut text, mut more, mut room) = ([7; 9], [7; 3], [7; 9], [7; 3]);
        let lent = read_into(&script, &literals, &mut words, &mut text).map(|_| ());
        let named = read_into_named(&script, &literals, &names, &mut more, &mut room).map(|_| ());
        assert_eq!((named, more, room), (lent, words, text), "{:?}", run);
    }
}

#[test]
fn scripts_take_the_names_of_the_file() {
    let names = Names::build(small()).unwrap();
    let script = "f'\\N{SNOW}{a:.0f}'\r\nx = f'{b}\\N{OHM SIGN}' '\\N{NONE}' f'{c!r}'";
    let listing = fields_named(script, &names).unwrap();
    let said: Vec<_> = listing.rows().map(|row| (row.line, row.column)).collect();
    assert_eq!(said, [(1, 12), (2, 13), (2, 38)]);
    assert!(!listing.is_complete());
    let known = fields_named(&script[..20], &names).unwrap();
    assert!(known.is_complete() && !fields(&script[..20]).unwrap().is_complete());

    let plain = "'VDD ' f'{mv:.{n}f}' rf'\\N{SNOW' f'{(]}' f'{f\"{y=}\"}' f'{z";
    assert_eq!(fields_named(plain, &names).unwrap(), fields(plain).unwrap());
    let long = fields_named(&" ".repeat(MOST_SCRIPT_BYTES + 1), &names).unwrap_err();
    assert_eq!(long.reason(), &Reason::ScriptTooLong);
}

#[test]
fn every_published_name_is_found() {
    let file = match fs::read(PUBLISHED) {
        Ok(file) => file,
        Err(error) => return eprintln!("left out: {}: {}", PUBLISHED, error),
    };
    let names = Names::build(&file).unwrap();
    assert_eq!(names.index(), sorted(&file));
    assert_eq!(Names::check(&file, names.index()).unwrap(), names);
    let mut lines: Vec<(char, String)> = Vec::new();
    for line in std::str::from_utf8(&file).unwrap().lines() {
        let mut fields = line.split(';');
        let (code, name) = (fields.next().unwrap(), fields.next().unwrap());
        let body = format!("\\N{{{}}}", name);
        if name.starts_with('<') {
            let (script, literals) = side_by_side(&[(Plain, &body)]);
            let refusal = parse_strings_named(&script, &literals, &names).unwrap_err();
            assert_eq!(refusal.reason(), &Reason::NameNotHeld, "{}", name);
        } else {
            let code = u32::from_str_radix(code, 16).unwrap();
            lines.push((char::from_u32(code).unwrap(), body));
        }
    }
    assert_eq!(lines.len(), names.index().len());
    assert!(lines.len() > 30_000, "{} names", lines.len());
    for lines in lines.chunks(MOST_LITERALS) {
        let run: Vec<_> = lines.iter().map(|(_, body)| (Plain, body.as_str())).collect();
        let (script, literals) = side_by_side(&run);
        let answer = parse_strings_named(&script, &literals, &names).unwrap();
        let codes: String = lines.iter().map(|(code, _)| code).collect();
        assert_eq!(answer.text(), codes.as_bytes());
    }
}
