use crate::call;
use crate::refusal::Refusal;

/// Plans where the body of an `f'..'` is cut, so that its pieces, of at most so many bytes each, stand
/// as adjacent literals and read as it does: the offsets, or `None` if no cuts do that.
///
/// The list passes [`check_cuts`]. It has no cut where the rest needs none, and else each in turn as
/// late as a list that passes allows; no other list has both. Bytes are counted without prefix and
/// quotes, and quotes are not looked at.
///
/// ```
/// use stumpgarret::{check_cuts, plan_cuts};
///
/// let body = "VDD {mv / 1000:.3f} V, code {code:#06x}";
/// let cuts = plan_cuts(body, 20).unwrap();
/// assert_eq!(cuts, [20]);
/// assert_eq!((&body[..20], &body[20..]), ("VDD {mv / 1000:.3f} ", "V, code {code:#06x}"));
/// assert_eq!(check_cuts(body, 20, &cuts), Ok(()));
/// assert_eq!(plan_cuts(body, 12), None);
/// ```
pub fn plan_cuts(body: impl AsRef<[u8]>, limit: usize) -> Option<Vec<usize>> {
    let body = body.as_ref();
    // A plan has fewer cuts than the body has bytes, and none if that is too long to be read.
    let mut offsets = vec![0; if body.len() > crate::MOST_BODY_BYTES { 0 } else { body.len() }];
    let answer = call::cuts_plan(body, number(limit), &mut offsets);
    if answer[0] != 0 || answer[1] == 0 {
        return None;
    }
    offsets.truncate(answer[2] as usize);
    Some(offsets.into_iter().map(|offset| offset as usize).collect())
}

/// Checks where the body of an `f'..'` is cut: the offsets rise strictly inside it, each piece has at
/// most so many bytes, each reads without refusal, and the pieces joined read as the body does, in
/// kinds, texts, conversions and parts.
///
/// The refusal is the first of [`Reason::WrongOffsets`](crate::Reason::WrongOffsets),
/// [`Reason::PieceTooLong`](crate::Reason::PieceTooLong),
/// [`Reason::PieceRefused`](crate::Reason::PieceRefused) and
/// [`Reason::ReadingsDiffer`](crate::Reason::ReadingsDiffer).
///
/// ```
/// use stumpgarret::{check_cuts, Reason};
///
/// let reason = |cuts: &[usize]| check_cuts("{x}\\101", 9, cuts).unwrap_err().reason().clone();
/// assert_eq!(check_cuts("{x}\\101", 9, &[3]), Ok(()));
/// assert_eq!(reason(&[3, 3]), Reason::WrongOffsets);
/// assert_eq!(reason(&[2]), Reason::PieceRefused);
/// assert_eq!(reason(&[5]), Reason::ReadingsDiffer);
/// ```
pub fn check_cuts(body: impl AsRef<[u8]>, limit: usize, cuts: &[usize]) -> Result<(), Refusal> {
    let offsets: Vec<u32> = cuts.iter().map(|&offset| number(offset)).collect();
    let answer = call::cuts_check(body.as_ref(), number(limit), &offsets);
    match answer[0] {
        0 => Ok(()),
        _ => Err(Refusal::new(answer)),
    }
}

/// A limit or an offset; beyond 32 bits it is above all that is read.
fn number(value: usize) -> u32 {
    u32::try_from(value).unwrap_or(u32::MAX)
}
