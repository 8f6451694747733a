use crate::call;
use crate::literal::{self, Literal};
use crate::refusal::{self, Reason, Refusal};
use crate::{parsed, Answer, Names};

/// Literals that stand side by side in a script.
#[derive(Clone, Debug, PartialEq, Eq, Hash)]
pub struct Run {
    /// At least one; their ranges are those of the script.
    pub literals: Vec<Literal>,
    /// Where the first thing stands that is no literal, after what was passed over.
    pub stop: usize,
}

/// The literals that stand side by side in a script from an offset on. Between them spaces, tabs,
/// newlines and comments are passed over, as inside parentheses.
///
/// ```
/// use stumpgarret::{literals_at, StringKind};
///
/// let script = "print('VDD '  # it's a rail\n      rf'{mv / 12.5:.0f}')";
/// let run = literals_at(script, 6)?;
/// let kinds: Vec<_> = run.literals.iter().map(|literal| literal.kind).collect();
/// assert_eq!(kinds, [StringKind::String, StringKind::RawFString]);
/// assert_eq!(&script[run.literals[1].body.clone()], "{mv / 12.5:.0f}");
/// assert_eq!(&script[run.stop..], ")");
///
/// let refusal = literals_at("'VDD ' f'{mv", 0).unwrap_err();
/// assert_eq!((refusal.number(), refusal.place()), (50, 7));
/// # Ok::<(), stumpgarret::Refusal>(())
/// ```
pub fn literals_at(script: impl AsRef<[u8]>, offset: usize) -> Result<Run, Refusal> {
    // A script that is not refused for its length ends before any offset over 32 bits.
    let within = u32::try_from(offset).unwrap_or(u32::MAX);
    let (literals, [_, _, _, stop, ..]) =
        listed(|numbers| call::literals(script.as_ref(), within, numbers))
            .map_err(|answer| Refusal::at_offset(answer, offset))?;
    Ok(Run { literals: literals.ok_or_else(Refusal::unknown)?, stop: stop as usize })
}

/// What [`cut`] finds.
#[derive(Clone, Debug, PartialEq, Eq, Hash)]
pub struct Cut {
    /// Of any kind, in order; their ranges are those of the script.
    pub literals: Vec<Literal>,
    /// How far the script was cut: its length, or where a literal starts that never closes.
    pub to: usize,
    /// Why that one never closes: [`Reason::NeverClosed`] or [`Reason::NewlineInLiteral`].
    pub ended: Option<Reason>,
}

/// Every literal of a whole script, without those in expressions. The script goes in as it is; where
/// Python would read a carriage return as a newline, so must the caller.
///
/// ```
/// use stumpgarret::{cut, Reason};
///
/// let script = "print('VDD', f'{mv:.0f}')  # it's\nprint('";
/// let found = cut(script)?;
/// let texts: Vec<_> = found.literals.iter().map(|one| &script[one.start..one.end]).collect();
/// assert_eq!(texts, ["'VDD'", "f'{mv:.0f}'"]);
/// assert_eq!((&script[found.to..], found.ended), ("'", Some(Reason::NeverClosed)));
/// # Ok::<(), stumpgarret::Refusal>(())
/// ```
///
/// A script of more than [`MOST_SCRIPT_BYTES`](crate::MOST_SCRIPT_BYTES) is refused.
pub fn cut(script: impl AsRef<[u8]>) -> Result<Cut, Refusal> {
    let (literals, [_, _, to, number, ..]) =
        listed(|numbers| call::cut(script.as_ref(), numbers)).map_err(Refusal::new)?;
    let ended = match number {
        0 => None,
        _ => Some(refusal::reason(number, [0, 0], 0).ok_or_else(Refusal::unknown)?),
    };
    Ok(Cut { literals: literals.ok_or_else(Refusal::unknown)?, to: to as usize, ended })
}

/// Lists the literals of a script from an offset on, and reads them. The script goes in as it is,
/// and nothing else: no literal is cut out by the caller.
///
/// ```
/// use stumpgarret::read_at;
///
/// let script = "print('VDD ' f'{mv / 12.5:.0f}')";
/// let (run, answer) = read_at(script, 6)?;
/// assert_eq!(run.literals.len(), 2);
/// let expressions: Vec<_> = answer.fields().map(|field| field.expression).collect();
/// assert_eq!(expressions, ["mv / 12.5"]);
/// # Ok::<(), stumpgarret::Refusal>(())
/// ```
pub fn read_at(script: impl AsRef<[u8]>, offset: usize) -> Result<(Run, Answer<'static>), Refusal> {
    listed_and_read(script.as_ref(), offset, None)
}

/// Lists and reads as [`read_at`] does, with the names of a file.
pub fn read_at_named(
    script: impl AsRef<[u8]>,
    offset: usize,
    names: &Names<'_>,
) -> Result<(Run, Answer<'static>), Refusal> {
    listed_and_read(script.as_ref(), offset, Some(names))
}

fn listed_and_read(
    script: &[u8],
    offset: usize,
    names: Option<&Names<'_>>,
) -> Result<(Run, Answer<'static>), Refusal> {
    let run = literals_at(script, offset)?;
    let answer = parsed(script, &run.literals, names)?;
    Ok((run, answer))
}

/// Room that most runs need no more than.
const FIRST_LITERALS: usize = 16;
/// The number of a refusal for want of room.
const NO_LIST_ROOM: u32 = 53;

/// What a list call lists, if that hangs together, and its answer; a second call has the room that
/// the first one tells.
fn listed(
    call: impl Fn(&mut [u32]) -> [u32; call::ANSWER],
) -> Result<(Option<Vec<Literal>>, [u32; call::ANSWER]), [u32; call::ANSWER]> {
    let mut numbers = vec![0; FIRST_LITERALS * call::LITERAL];
    let mut answer = call(&mut numbers);
    if answer[0] == NO_LIST_ROOM {
        numbers = vec![0; answer[9] as usize];
        answer = call(&mut numbers);
    }
    if answer[0] != 0 {
        return Err(answer);
    }
    let used = (answer[1] as usize).checked_mul(call::LITERAL);
    let used = used.and_then(|used| numbers.get(..used));
    Ok((used.and_then(literal::literals), answer))
}
