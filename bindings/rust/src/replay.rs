use crate::call;
use crate::literal::{self, Literal};
use crate::refusal::{Reason, Refusal};
use crate::{room, Answer, Spec};
use std::borrow::Cow;

/// A trace replayed through a template.
#[derive(Clone, Debug, PartialEq, Eq)]
#[non_exhaustive]
pub struct Replay {
    /// How many rows the trace has.
    pub rows: usize,
    /// Their lines, each ended by a byte 10.
    pub output: Vec<u8>,
    /// What the template reads as.
    pub template: Answer<'static>,
}

impl Replay {
    /// The lines, each with its byte 10.
    pub fn lines(&self) -> impl Iterator<Item = &[u8]> {
        self.output.split_inclusive(|&byte| byte == b'\n')
    }
}

/// Replays a recorded trace through a template: for each row the line that Python would write, with
/// column k in the k-th top-level field, and a byte 10. The template is literals that stand side by
/// side in a script, as [`parse_strings`](crate::parse_strings) takes them.
///
/// The trace is a file of RFC 4180 without a header, whose rows end with CR LF and whose columns are
/// decimal integers of 32 bits. Each line depends on its row and the template alone, so a trace may be
/// given in parts that end with rows.
///
/// What [`parse_strings`](crate::parse_strings) refuses is refused. Then comes the first field that has
/// no spec of an integer, [`Reason::NotOfGrammar`] or [`Reason::OutsideSet`]; then the first row that
/// is none of the template's, [`Reason::RowMalformed`], [`Reason::WrongColumns`] or
/// [`Reason::OutOfRange`]. [`Reason::TooLittleLineRoom`] comes only for lines of more than
/// 4,294,967,294 bytes.
///
/// ```
/// use stumpgarret::{literals_at, replay, Reason};
///
/// let script = "print(f'VDD {mv:>6,} mV, code {code:#06x}')";
/// let template = literals_at(script, 6)?.literals;
/// let replayed = replay(script, &template, "743,59\r\n-12,0\r\n")?;
/// assert_eq!(replayed.rows, 2);
/// let lines = "VDD    743 mV, code 0x003b\nVDD    -12 mV, code 0x0000\n";
/// assert_eq!(replayed.output, lines.as_bytes());
///
/// let refusal = replay(script, &template, "743,59\r\n-12\r\n").unwrap_err();
/// assert_eq!(refusal.reason(), &Reason::WrongColumns { row: 1 });
/// # Ok::<(), stumpgarret::Refusal>(())
/// ```
pub fn replay(
    script: impl AsRef<[u8]>,
    literals: &[Literal],
    trace: impl AsRef<[u8]>,
) -> Result<Replay, Refusal> {
    let (script, trace) = (script.as_ref(), trace.as_ref());
    let numbers = literal::numbers(literals);
    let replayed = replayed(script, literals, &numbers, trace, trace.len() * LINE_ROOM_PER_BYTE);
    match replayed.as_ref().map_err(Refusal::reason) {
        Err(&Reason::TooLittleLineRoom { bytes }) if bytes < u32::MAX as usize => {
            self::replayed(script, literals, &numbers, trace, bytes)
        }
        _ => replayed,
    }
}

/// Room that most lines need no more than.
const LINE_ROOM_PER_BYTE: usize = 4;

/// The replay, with room for so many bytes.
fn replayed(
    script: &[u8],
    literals: &[Literal],
    numbers: &[u32],
    trace: &[u8],
    bytes: usize,
) -> Result<Replay, Refusal> {
    let (records, text) = room(literals);
    let (mut words, mut text) = (vec![0; records * call::RECORD], vec![0; text]);
    let mut output = vec![0; bytes];
    let answer = call::replay(script, numbers, trace, &mut words, &mut text, &mut output);
    let (rows, written) = (answer[9] as usize, answer[10] as usize);
    let template = Answer::new(answer, Cow::Owned(words), Cow::Owned(text))?;
    if written > output.len() {
        return Err(Refusal::unknown());
    }
    output.truncate(written);
    Ok(Replay { rows, output, template })
}

/// The parts of a format spec by the mini-language of Python 3.11, as [`Spec::parse`] gives them.
#[derive(Clone, Copy, Debug, PartialEq, Eq, Hash)]
#[non_exhaustive]
pub struct FormatSpec {
    pub fill: Option<char>,
    /// One of `<`, `>`, `=` and `^`.
    pub align: Option<char>,
    /// `+`, `-` or a space.
    pub sign: Option<char>,
    pub z: bool,
    /// Whether it has a `#`.
    pub alternate: bool,
    /// Whether it has a `0` before the width.
    pub zero: bool,
    /// At most 4,294,967,294.
    pub width: Option<u32>,
    /// `_` or a comma.
    pub grouping: Option<char>,
    /// At most 4,294,967,294.
    pub precision: Option<u32>,
    /// One of `bcdeEfFgGnosxX%`.
    pub kind: Option<char>,
    /// Whether it rounds a number: by a type of `eEfFgGn%`, or by a precision without a type.
    pub rounds: bool,
}

impl Spec<'_> {
    /// The parts of a format spec, from its text, such as [`Spec::as_str`] gives. A text that is not of
    /// the grammar is [`Reason::NotOfGrammar`].
    ///
    /// ```
    /// use stumpgarret::Spec;
    ///
    /// let spec = Spec::parse("*>8,.3f")?;
    /// assert_eq!((spec.fill, spec.align, spec.width), (Some('*'), Some('>'), Some(8)));
    /// assert!(spec.rounds);
    /// assert_eq!(Spec::parse("5q").unwrap_err().number(), 68);
    /// # Ok::<(), stumpgarret::Refusal>(())
    /// ```
    pub fn parse(spec: impl AsRef<[u8]>) -> Result<FormatSpec, Refusal> {
        let spec = spec.as_ref();
        FormatSpec::new(call::spec(spec), spec.first() == Some(&0))
    }
}

impl FormatSpec {
    /// From the answer, and whether the spec begins with a byte 0: that is a fill then, which is told as
    /// none.
    fn new(answer: [u32; call::ANSWER], nul: bool) -> Result<FormatSpec, Refusal> {
        if answer[0] != 0 {
            return Err(Refusal::new(answer));
        }
        let [_, fill, align, sign, z, alternate, zero, width, grouping, precision, kind, rounds] =
            answer;
        let one = |code: u32| match code {
            0 => Ok(None),
            _ => char::from_u32(code).map(Some).ok_or_else(Refusal::unknown),
        };
        Ok(FormatSpec {
            fill: if nul { Some('\0') } else { one(fill)? },
            align: one(align)?,
            sign: one(sign)?,
            z: z != 0,
            alternate: alternate != 0,
            zero: zero != 0,
            width: width.checked_sub(1),
            grouping: one(grouping)?,
            precision: precision.checked_sub(1),
            kind: one(kind)?,
            rounds: rounds != 0,
        })
    }
}

#[cfg(test)]
mod tests {
    use super::*;

    #[test]
    fn a_fill_that_is_no_character_is_unknown() {
        let answer = [0, 0xD800, 62, 0, 0, 0, 0, 0, 0, 0, 0, 0];
        assert_eq!(FormatSpec::new(answer, false), Err(Refusal::unknown()));
    }
}
