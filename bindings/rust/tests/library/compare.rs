//! Two revisions of a run compared.
use crate::common::side_by_side;
use stumpgarret::StringKind::{Bytes, FString, String as Plain, Unicode};
use stumpgarret::{parse_strings, read_into, Answer, Comparison, Literal, StringKind};

fn read(literals: &[(StringKind, &str)]) -> Answer<'static> {
    let (script, literals) = side_by_side(literals);
    parse_strings(script, &literals).unwrap()
}

fn body(body: &str) -> Answer<'static> {
    read(&[(FString, body)])
}

fn between(old: &str, new: &str) -> (usize, usize, Vec<usize>, Vec<usize>) {
    let Comparison { front, back, first, second, .. } = body(old).compare(&body(new)).unwrap();
    (front, back, first.collect(), second.collect())
}

#[test]
fn front_first_then_the_back_of_what_remains() {
    assert_eq!(between("a{x}b", "a{y}b"), (1, 1, vec![1], vec![1]));
    assert_eq!(between("{x}{x}", "{x}"), (1, 0, vec![1], vec![]));
    assert_eq!(between("{x}{y}{x}", "{x}{x}"), (1, 1, vec![1], vec![]));
    assert_eq!(between("", "{x}"), (0, 0, vec![], vec![0]));
    assert_eq!(between("{x}{y}", "{y}{x}"), (0, 0, vec![0, 1], vec![0, 1]));
}

#[test]
fn a_field_with_its_spec_is_one_item() {
    assert_eq!(between("{x:>{w}.{p}}{y}", "{x:>{w}.{q}}{y}"), (0, 1, vec![0], vec![0]));
    assert_eq!(between("{x}", "{x:}"), (0, 0, vec![0], vec![0]));
    assert_eq!(between("{x!r}", "{x!s}"), (0, 0, vec![0], vec![0]));
    assert_eq!(between("{x=}", "x={x!r}"), (2, 0, vec![], vec![]));
}

#[test]
fn spelling_places_u_marks_and_sorts_do_not_count() {
    let plain = read(&[(Unicode, "a\\x62"), (Plain, "c")]);
    let joined = read(&[(FString, "abc")]);
    assert!(plain.u_mark() && plain.sort() != joined.sort());
    assert!(plain.compare(&joined).unwrap().is_equal());
    let bytes = read(&[(Bytes, "abc")]);
    assert!(!plain.compare(&bytes).unwrap().is_equal());
    assert!(bytes.compare(&bytes).unwrap().is_equal());
}

#[test]
fn answers_in_lent_buffers_are_compared() {
    let literals = [Literal::within(FString, false, 0..9)];
    let (mut words, mut text) = ([7; 24], [0xFF; 9]);
    let lent = read_into("f'a{x!r}'", &literals, &mut words, &mut text).unwrap();
    let compared = lent.compare(&body("a{x!r}{y}")).unwrap();
    assert_eq!((compared.front, compared.back), (2, 0));
    assert_eq!((compared.first, compared.second), (2..2, 2..3));
}
