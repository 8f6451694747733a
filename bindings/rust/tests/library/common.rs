//! Scripts made of literals, and answers as short lines.
use stumpgarret::{Literal, Record, Records, StringKind};

const PREFIXES: [&str; 7] = ["", "f", "b", "r", "rf", "rb", "u"];

/// Appends a literal to a script, and says where it stands.
pub fn append(script: &mut String, kind: StringKind, triple_quoted: bool, body: &str) -> Literal {
    let start = script.len();
    let quotes = if triple_quoted { "\"\"\"" } else { "\"" };
    for piece in [PREFIXES[kind as usize], quotes, body, quotes] {
        script.push_str(piece);
    }
    Literal::within(kind, triple_quoted, start..script.len())
}

/// A script of literals with nothing between them.
pub fn side_by_side(literals: &[(StringKind, &str)]) -> (String, Vec<Literal>) {
    let mut script = String::new();
    let literals =
        literals.iter().map(|&(kind, body)| append(&mut script, kind, false, body)).collect();
    (script, literals)
}

/// Literals as `"text"` or `u"text"`, bytes as `b[value]`, fields as `{x!r @3 ["parts"]}`.
pub fn written(records: Records) -> String {
    records.map(one).collect::<Vec<_>>().join(" ")
}

fn one(record: Record) -> String {
    match record {
        Record::Literal { text, u_mark, .. } => {
            format!("{}{:?}", if u_mark { "u" } else { "" }, text)
        }
        Record::Bytes { value, .. } => format!("b{:?}", value),
        Record::Field(field) => {
            let conversion =
                field.conversion.to_char().map_or(String::new(), |c| format!("!{}", c));
            let spec =
                field.spec.map_or(String::new(), |spec| format!(" [{}]", written(spec.parts())));
            format!("{{{}{} @{}{}}}", field.expression, conversion, field.place, spec)
        }
        other => format!("{:?}", other),
    }
}
