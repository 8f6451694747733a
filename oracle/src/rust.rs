//! What the published Rust gives, in the terms of RULES 5.

use crate::answer::{Acceptance, Outcome, Refusal, Sort};
use crate::ast::{Constant, Expr, ExprConstant, ExprFormattedValue, ExprJoinedStr};
use crate::lexer::{LexicalError, LexicalErrorType};
use crate::literal::{Literal, StringKind};
use crate::string::{parse_strings, FStringErrorType};
use crate::text_size::{TextRange, TextSize};

/// What the Rust takes: each literal's start, body, kind, triple flag and end.
pub type Values = Vec<(TextSize, (String, StringKind, bool), TextSize)>;

pub fn values(literals: &[Literal], bodies: &[String]) -> Values {
    let value = |(literal, body): (&Literal, &String)| {
        let source = (body.clone(), literal.kind, literal.triple);
        (TextSize(literal.start), source, TextSize(literal.end))
    };
    literals.iter().zip(bodies).map(value).collect()
}

/// Reads a list that has passed the entry checks 1 to 6.
pub fn read(literals: &[Literal], bodies: &[String]) -> Outcome {
    read_values(values(literals, bodies)).map_err(|error| refusal(literals, bodies, error))
}

/// The tree, and from it the records.
pub fn read_values(values: Values) -> Result<Acceptance, LexicalError> {
    parse_strings(values).map(|tree| acceptance(&tree))
}

fn refusal(literals: &[Literal], bodies: &[String], error: LexicalError) -> Refusal {
    let place = error.location.0;
    let literal = literal_at(literals, place);
    let (number, details) = match error.error {
        LexicalErrorType::StringError => (10, [0, 0]),
        LexicalErrorType::UnicodeError => {
            let taken = (place - literals[literal].place(0)) as usize;
            (unicode_number(&bodies[literal], taken), [0, 0])
        }
        LexicalErrorType::FStringError(error) => fstring_number(error),
        LexicalErrorType::OtherError(words) => (other_number(&words), [0, 0]),
    };
    Refusal { details, ..Refusal::new(number, literal, place) }
}

/// The literal that a refusal's place lies in. An opening has at least one byte and bodies
/// end no later than their literals, so at most one starts before the place and has not
/// ended there. The place of 7, the first start, lies in none: it belongs to the first.
fn literal_at(literals: &[Literal], place: u32) -> usize {
    let inside = |literal: &Literal| literal.start < place && place <= literal.end;
    literals.iter().position(inside).unwrap_or(0)
}

/// The Rust has one error for both 11 and 13. Only an unknown name is placed after a `{`:
/// the others are placed after a letter or after a `}`.
fn unicode_number(body: &str, taken: usize) -> u32 {
    if body.as_bytes()[taken - 1] == b'{' {
        13
    } else {
        11
    }
}

fn fstring_number(error: FStringErrorType) -> (u32, [u32; 2]) {
    use FStringErrorType::*;
    let number = match error {
        UnclosedLbrace => 20,
        InvalidConversionFlag => 21,
        EmptyExpression => 22,
        MismatchedDelimiter(opener, closer) => return (23, [opener as u32, closer as u32]),
        ExpressionNestedTooDeeply => 24,
        SingleRbrace => 25,
        Unmatched(closer) => return (26, [closer as u32, 0]),
        UnterminatedString => 27,
        never => unreachable!("{never:?} is built nowhere"),
    };
    (number, [0, 0])
}

fn other_number(words: &str) -> u32 {
    match words {
        "cannot mix bytes and nonbytes literals" => 7,
        "bytes can only contain ASCII literal characters" => 12,
        _ => unreachable!("{words}"),
    }
}

fn acceptance(tree: &Expr) -> Acceptance {
    let (sort, range) = match tree {
        Expr::Constant(ExprConstant { value: Constant::Str(_), range, .. }) => (Sort::Plain, range),
        Expr::Constant(ExprConstant { range, .. }) => (Sort::Bytes, range),
        Expr::JoinedStr(ExprJoinedStr { range, .. }) => (Sort::Joined, range),
        _ => unreachable!("a list gives no such tree"),
    };
    let mut accepted = Acceptance {
        sort,
        u_mark: has_u_mark(tree),
        first_start: range.start.0,
        last_end: range.end.0,
        records: Vec::new(),
        text: Vec::new(),
        chars: 0,
    };
    match tree {
        Expr::JoinedStr(joined) => {
            joined.values.iter().for_each(|part| record(&mut accepted, part))
        }
        constant => record(&mut accepted, constant),
    }
    accepted
}

/// A literal of kind 6 always gives a top-level literal, which carries the mark.
fn has_u_mark(tree: &Expr) -> bool {
    match tree {
        Expr::Constant(constant) => constant.kind.is_some(),
        Expr::JoinedStr(joined) => joined.values.iter().any(has_u_mark),
        _ => false,
    }
}

fn record(accepted: &mut Acceptance, node: &Expr) {
    match node {
        Expr::Constant(ExprConstant { value, kind, range }) => {
            let (sort, text) = match value {
                Constant::Str(text) => (1, text.as_bytes()),
                Constant::Bytes(bytes) => (4, bytes.as_slice()),
            };
            push(accepted, sort, text, range, [u32::from(kind.is_some()), 0, 0]);
        }
        Expr::FormattedValue(field) => field_records(accepted, field),
        Expr::JoinedStr(ExprJoinedStr { values, range }) => {
            push(accepted, 3, &[], range, [0, values.len() as u32, 0]);
            values.iter().for_each(|part| record(accepted, part));
        }
        Expr::Unread { .. } => unreachable!("an expression stands only in a field"),
    }
}

fn field_records(accepted: &mut Acceptance, field: &ExprFormattedValue) {
    let Expr::Unread { source, location } = &*field.value else {
        unreachable!("a field's value is its expression as text")
    };
    let last = [field.conversion as u32, u32::from(field.format_spec.is_some()), location.0];
    push(accepted, 2, source.as_bytes(), &field.range, last);
    if let Some(spec) = &field.format_spec {
        record(accepted, spec);
    }
}

fn push(accepted: &mut Acceptance, kind: u32, text: &[u8], range: &TextRange, last: [u32; 3]) {
    let [mark, parts, place] = last;
    let (offset, length) = (accepted.text.len() as u32, text.len() as u32);
    let (start, end) = (range.start.0, range.end.0);
    accepted.records.push([kind, offset, length, start, end, mark, parts, place]);
    accepted.text.extend_from_slice(text);
}
