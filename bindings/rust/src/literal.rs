use crate::call;
use std::ops::Range;

/// What a literal's prefix makes of it. The names are rustpython-parser's.
#[derive(Clone, Copy, Debug, PartialEq, Eq, Hash)]
pub enum StringKind {
    /// `'..'`
    String,
    /// `f'..'`
    FString,
    /// `b'..'`
    Bytes,
    /// `r'..'`
    RawString,
    /// `rf'..'` or `fr'..'`
    RawFString,
    /// `rb'..'` or `br'..'`
    RawBytes,
    /// `u'..'`
    Unicode,
}

impl StringKind {
    /// By their numbers.
    const ALL: [StringKind; 7] = [
        Self::String,
        Self::FString,
        Self::Bytes,
        Self::RawString,
        Self::RawFString,
        Self::RawBytes,
        Self::Unicode,
    ];

    /// Whether escapes are kept as they stand.
    pub fn is_raw(self) -> bool {
        matches!(self, Self::RawString | Self::RawFString | Self::RawBytes)
    }

    /// Whether it is an f-string, raw or not.
    pub fn is_any_fstring(self) -> bool {
        matches!(self, Self::FString | Self::RawFString)
    }

    /// Whether it is a bytes literal, raw or not.
    pub fn is_any_bytes(self) -> bool {
        matches!(self, Self::Bytes | Self::RawBytes)
    }

    /// Whether it has the prefix `u`.
    pub fn is_unicode(self) -> bool {
        self == Self::Unicode
    }

    /// The bytes of the prefix, without quotes.
    pub fn prefix_len(self) -> usize {
        match self {
            Self::String => 0,
            Self::RawFString | Self::RawBytes => 2,
            _ => 1,
        }
    }
}

/// Where one literal stands. Numbers over 32 bits, and a body whose end is below its start, are
/// refused as [`BadDescriptor`](crate::Reason::BadDescriptor).
#[derive(Clone, Debug, PartialEq, Eq, Hash)]
pub struct Literal {
    pub kind: StringKind,
    /// Whether three quotes open it, not one.
    pub triple_quoted: bool,
    /// What stands between its quotes, as a range of the script.
    pub body: Range<usize>,
    /// Where it starts, with prefix and quotes. Ranges and places in an answer are counted as this
    /// is, so it need not be an offset in the script.
    pub start: usize,
    /// Where it ends.
    pub end: usize,
}

impl Literal {
    /// A literal that stands as a whole, with prefix and quotes, at a range of the script. Its body
    /// is what is left without them.
    ///
    /// ```
    /// use stumpgarret::{Literal, StringKind};
    /// let literal = Literal::within(StringKind::RawFString, true, 4..16);
    /// assert_eq!(literal.body, 9..13);
    /// assert_eq!((literal.start, literal.end), (4, 16));
    /// ```
    pub fn within(kind: StringKind, triple_quoted: bool, range: Range<usize>) -> Literal {
        let quotes = if triple_quoted { 3 } else { 1 };
        let body = range.start.saturating_add(kind.prefix_len() + quotes)
            ..range.end.saturating_sub(quotes);
        Literal { kind, triple_quoted, body, start: range.start, end: range.end }
    }

    /// What six numbers describe, if they describe a literal.
    fn of([kind, triple, offset, size, start, end]: [u32; call::LITERAL]) -> Option<Literal> {
        let kind = *StringKind::ALL.get(kind as usize)?;
        let offset = offset as usize;
        let body = offset..offset.checked_add(size as usize)?;
        let (start, end) = (start as usize, end as usize);
        (triple <= 1).then_some(Literal { kind, triple_quoted: triple == 1, body, start, end })
    }

    /// The six numbers, if there are such.
    fn described(&self) -> Option<[u32; call::LITERAL]> {
        let length = self.body.end.checked_sub(self.body.start)?;
        Some([
            self.kind as u32,
            u32::from(self.triple_quoted),
            u32::try_from(self.body.start).ok()?,
            u32::try_from(length).ok()?,
            u32::try_from(self.start).ok()?,
            u32::try_from(self.end).ok()?,
        ])
    }
}

/// The list as numbers. What six numbers cannot describe gets an unknown kind, and so in its turn
/// the refusal of a bad descriptor.
pub(crate) fn numbers(literals: &[Literal]) -> Vec<u32> {
    literals
        .iter()
        .flat_map(|literal| literal.described().unwrap_or([u32::MAX; call::LITERAL]))
        .collect()
}

/// The literals that numbers describe, six for each, if they do.
pub(crate) fn literals(numbers: &[u32]) -> Option<Vec<Literal>> {
    numbers.chunks(call::LITERAL).map(|six| Literal::of(six.try_into().ok()?)).collect()
}
