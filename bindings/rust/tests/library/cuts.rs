//! Long templates broken over lines.
use stumpgarret::StringKind::FString;
use stumpgarret::{check_cuts, parse_strings, plan_cuts, Answer, Literal, Reason, Refusal};

fn reason(body: &str, limit: usize, cuts: &[usize]) -> Reason {
    check_cuts(body, limit, cuts).unwrap_err().reason().clone()
}

/// The pieces of a body as adjacent literals.
fn side_by_side(body: &str, cuts: &[usize]) -> Result<Answer<'static>, Refusal> {
    let (mut script, mut literals, mut from) = (String::new(), Vec::new(), 0);
    for &to in cuts.iter().chain([&body.len()]) {
        let start = script.len();
        script += &format!("f'{}'\n", &body[from..to]);
        literals.push(Literal::within(FString, false, start..script.len() - 1));
        from = to;
    }
    parse_strings(script, &literals)
}

#[test]
fn cuts_as_late_as_may_be() {
    for (body, limit, cuts) in [
        ("", 0, &[][..]),
        ("abcd", 4, &[]),
        ("abcd", 3, &[3]),
        ("abcd", 1, &[1, 2, 3]),
        ("ab{x}", 3, &[2]),
        ("a{{b", 2, &[1, 3]),
        ("a\\{{", 3, &[1]),
        ("µ☃µ", 5, &[5]),
        ("{x:{w}}{y!r}", 7, &[7]),
    ] {
        assert_eq!(plan_cuts(body, limit).as_deref(), Some(cuts), "{}", body);
        assert_eq!(check_cuts(body, limit, cuts), Ok(()), "{}", body);
        let texts = |answer: Answer<'_>| (answer.text().to_vec(), answer.fields().count());
        assert_eq!(side_by_side(body, cuts).map(texts), side_by_side(body, &[]).map(texts));
    }
}

#[test]
fn none_where_no_cuts_pass() {
    for (body, limit) in [("abcd", 0), ("ab{x}", 2), ("µ", 1), ("}", 9), ("{x", 9)] {
        assert_eq!(plan_cuts(body, limit), None, "{}", body);
    }
    assert_eq!(plan_cuts(b"a\xff", 9), None);
    assert_eq!(plan_cuts(vec![b'a'; 1_048_577], usize::MAX), None);
    assert_eq!(plan_cuts(vec![b'a'; 1_048_576], 1_048_575), Some(vec![1_048_575]));
}

#[test]
fn the_first_refusal_of_a_check() {
    assert_eq!(reason("ab}", 1, &[2, 1]), Reason::WrongOffsets);
    assert_eq!(reason("ab}", 1, &[3]), Reason::WrongOffsets);
    assert_eq!(reason("abcd", 9, &[usize::MAX]), Reason::WrongOffsets);
    assert_eq!(reason("ab}", 1, &[1]), Reason::PieceTooLong);
    assert_eq!(reason("ab}", 2, &[1]), Reason::PieceRefused);
    assert_eq!(reason("{{", 2, &[1]), Reason::PieceRefused);
    assert_eq!(reason("\\101", 4, &[2]), Reason::ReadingsDiffer);
}

#[test]
fn each_piece_is_read_where_the_body_is_too_long() {
    let body = vec![b'a'; 1_048_577];
    let refusal = |cuts: &[usize]| check_cuts(&body, usize::MAX, cuts).unwrap_err();
    assert_eq!(refusal(&[]).reason(), &Reason::PieceRefused);
    assert_eq!(refusal(&[1]).reason(), &Reason::ReadingsDiffer);
    let text = "readings differ: the pieces joined do not read as the body does, or the body is refused (refusal 67)";
    assert_eq!(refusal(&[1]).to_string(), text);
}
