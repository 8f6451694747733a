use crate::call;
use crate::literal::{self, Literal};
use crate::refusal::Refusal;
use crate::room;
use std::ops::Range;

/// The reason of a field's conversion.
#[derive(Clone, Copy, Debug, PartialEq, Eq, Hash)]
pub enum ConversionReason {
    /// Written after `!`.
    Written,
    /// None: nothing is written, and there is no self-documenting `=`.
    None,
    /// `repr`, because `=` stands with neither conversion nor spec.
    Repr,
    /// None, because `=` stands with a spec.
    Spec,
}

/// A field's signs: where its `=`, `!`, `:` and `}` stand. Each place is just after its sign.
#[derive(Clone, Debug, PartialEq, Eq, Hash)]
#[non_exhaustive]
pub struct FieldSigns {
    pub reason: ConversionReason,
    /// Just after the opening brace, as in [`Field`](crate::Field).
    pub place: usize,
    /// Of the first `=` that is self-documenting.
    pub equals: Option<usize>,
    pub bang: Option<usize>,
    pub colon: Option<usize>,
    pub close: usize,
}

impl FieldSigns {
    /// Where the format spec stands, as it is written, if there is one.
    pub fn spec(&self) -> Option<Range<usize>> {
        self.colon.map(|colon| colon..self.close - 1)
    }

    /// Nothing, if it does not hang together.
    pub(crate) fn new(row: &[u32]) -> Option<FieldSigns> {
        let reason = match row[0] {
            1 => ConversionReason::Written,
            2 => ConversionReason::None,
            3 => ConversionReason::Repr,
            4 => ConversionReason::Spec,
            _ => return None,
        };
        let sign = |at: usize| Some(row[at] as usize).filter(|&place| place != 0);
        let (place, close) = (row[2] as usize, sign(8)?);
        Some(FieldSigns { reason, place, equals: sign(5), bang: sign(6), colon: sign(7), close })
    }
}

/// The signs of every field of literals that stand side by side in a script, those within format
/// specs too: one for each of [`Answer::fields`](crate::Answer::fields), in the same order. What
/// [`parse_strings`](crate::parse_strings) refuses is refused.
///
/// ```
/// use stumpgarret::{field_signs, ConversionReason, Literal, StringKind};
///
/// let script = "f'{x!r}{y=}{z=:3}{w}'";
/// let literal = Literal::within(StringKind::FString, false, 0..script.len());
/// let signs = field_signs(script, &[literal])?;
/// let reasons: Vec<_> = signs.iter().map(|signs| signs.reason).collect();
/// use ConversionReason::{None, Repr, Spec, Written};
/// assert_eq!(reasons, [Written, Repr, Spec, None]);
/// assert_eq!(signs[0].bang, Some(5));
/// assert_eq!(&script[signs[2].spec().unwrap()], "3");
/// # Ok::<(), stumpgarret::Refusal>(())
/// ```
pub fn field_signs(
    script: impl AsRef<[u8]>,
    literals: &[Literal],
) -> Result<Vec<FieldSigns>, Refusal> {
    let numbers = literal::numbers(literals);
    let mut rows = vec![0; room(literals).0 * call::ROW];
    let answer = call::signs(script.as_ref(), &numbers, &mut rows);
    if answer[0] != 0 {
        return Err(Refusal::new(answer));
    }
    let fields = rows.chunks_exact(call::ROW).take(answer[5] as usize);
    fields.map(FieldSigns::new).collect::<Option<_>>().ok_or_else(Refusal::unknown)
}
