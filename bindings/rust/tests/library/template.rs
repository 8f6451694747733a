//! F-strings changed and written back.
use crate::common::side_by_side;
use stumpgarret::ConversionFlag::{None as Bare, Repr};
use stumpgarret::StringKind::{Bytes, FString, RawFString, String as Plain};
use stumpgarret::{parse_strings, Part, Reason, StringKind, Template, TemplateField};

fn template(literals: &[(StringKind, &str)]) -> Template {
    let (script, literals) = side_by_side(literals);
    Template::of(&parse_strings(script, &literals).unwrap()).unwrap()
}

fn text(text: &str) -> Part {
    Part::from(text)
}

fn field(expression: &str, spec: Option<Vec<Part>>) -> Part {
    let expression = expression.to_string();
    Part::Field(TemplateField { expression, conversion: Bare, spec })
}

/// The parts with empty texts dropped and touching ones joined.
fn joined(parts: &[Part]) -> Vec<Part> {
    let mut all: Vec<Part> = Vec::new();
    for part in parts {
        match (all.last_mut(), part) {
            (_, Part::Text(own)) if own.is_empty() => {}
            (Some(Part::Text(before)), Part::Text(own)) => before.push_str(own),
            (_, Part::Text(_)) => all.push(part.clone()),
            (_, Part::Field(own)) => {
                let spec = own.spec.as_deref().map(joined);
                all.push(Part::Field(TemplateField { spec, ..own.clone() }));
            }
        }
    }
    all
}

#[test]
fn a_template_has_the_parts() {
    let read = template(&[(Plain, "a"), (FString, "{{{x=}{y!r:>{w}}"), (RawFString, r"\n")]);
    let y = TemplateField {
        expression: "y".to_string(),
        conversion: Repr,
        spec: Some(vec![text(">"), field("w", None)]),
    };
    let x = TemplateField { expression: "x".to_string(), conversion: Repr, spec: None };
    assert_eq!(read.parts, [text("a{x="), Part::Field(x), Part::Field(y), text(r"\n")]);
    assert_eq!(read.write().unwrap(), r"a{{x={x!r}{y!r:>{w}}\\n");
}

#[test]
fn only_an_f_string_gives_one() {
    for literals in [[(Plain, "a")], [(Bytes, "a")]] {
        let (script, literals) = side_by_side(&literals);
        assert_eq!(Template::of(&parse_strings(script, &literals).unwrap()), None);
    }
}

#[test]
fn what_is_written_reads_back_alike() {
    for body in [
        "",
        "a{x:>5}",
        r"\x41{x:\n>{w}\n}\x7d",
        "{x:}{x!s:}{x=:}",
        r"{x:{y:z}\x7b\x7d\x5c}",
        "{(lambda: 1)()}{d['a']}{a!=b}",
        "{x:{y}{z}}Ω😀",
    ] {
        let read = template(&[(FString, body)]);
        let written = read.write().unwrap();
        let again = template(&[(FString, &written)]);
        assert_eq!(joined(&again.parts), joined(&read.parts), "{}", body);
        assert_eq!(again.write().unwrap(), written, "{}", body);
    }
}

#[test]
fn every_field_is_changed() {
    let mut read = template(&[(FString, "{a:{b}}{c}")]);
    let mut seen = Vec::new();
    read.edit(|field| {
        seen.push(field.expression.clone());
        field.expression.push('0');
    });
    assert_eq!(seen, ["a", "b", "c"]);
    assert_eq!(read.write().unwrap(), "{a0:{b0}}{c0}");
}

#[test]
fn what_would_read_otherwise_is_refused() {
    let third = field("z", None);
    for parts in [
        vec![field("{x}", None)],
        vec![field("x", Some(vec![text("{")]))],
        vec![field("x", Some(vec![field("y", Some(vec![third]))]))],
        vec![field(" ", None)],
        vec![field("x:y", None)],
        vec![field("x", None), field("'", None)],
        vec![text(&"x".repeat(1_048_577))],
    ] {
        let refusal = Template { parts }.write().unwrap_err();
        assert_eq!((refusal.number(), refusal.reason()), (55, &Reason::NotReadBack));
        let text = "not read back: the spelling would be read otherwise, by a { that begins a top-level \
         expression, a brace in a spec before its first nested field, an expression that is blank \
         or would end elsewhere, a field three deep, or over 1,048,576 bytes (refusal 55)";
        assert_eq!(refusal.to_string(), text);
    }
    let longest = Template { parts: vec![text(&"x".repeat(1_048_576))] };
    assert_eq!(longest.write().unwrap().len(), 1_048_576);
}

#[test]
fn the_readme_has_the_documented_example() {
    let readme = include_str!("../../README.md");
    let source = include_str!("../../src/template.rs");
    let section = readme.split("## F-strings changed and written back").nth(1).unwrap();
    let section = section.split("\n## ").next().unwrap();
    let example: Vec<_> = section.lines().filter_map(|line| line.strip_prefix("    ")).collect();
    assert!(example.len() > 5);
    for line in example {
        assert!(source.contains(&format!("/// {}\n", line)), "{}", line);
    }
}

#[test]
fn the_first_quotes_that_fit() {
    for (parts, literal) in [
        (vec![], Some("f''")),
        (vec![text("it's")], Some(r#"f"it's""#)),
        (vec![text("a\nb")], Some("f'''a\nb'''")),
        (vec![text("it's"), field("a[\"b\"]", None)], Some(r#"f'''it's{a["b"]}'''"#)),
        (vec![text("a\n'")], Some("f\"\"\"a\n'\"\"\"")),
        (vec![text(r"\")], Some(r"f'\\'")),
        (vec![text("'''\"\"\"")], None),
        (vec![text("a\r")], None),
        (vec![text("a\0")], None),
    ] {
        assert_eq!(Template { parts }.literal().unwrap().as_deref(), literal);
    }
    assert_eq!(Template { parts: vec![field("", None)] }.literal().unwrap_err().number(), 55);
}
