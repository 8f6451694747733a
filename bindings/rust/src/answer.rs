use crate::call;
use crate::refusal::Refusal;
use std::borrow::Cow;
use std::ops::Range;
use std::{fmt, str};

/// What sort of value a run of literals has.
#[derive(Clone, Copy, Debug, PartialEq, Eq, Hash)]
pub enum Sort {
    /// Strings alone: one literal.
    Plain,
    /// An f-string is among them: literals and fields, or nothing.
    Joined,
    /// Bytes.
    Bytes,
}

/// What was read: owned by [`parse_strings`](crate::parse_strings), and in the lent buffers by
/// [`read_into`](crate::read_into).
#[derive(Clone, Debug, PartialEq, Eq)]
pub struct Answer<'a> {
    sort: Sort,
    u_mark: bool,
    range: Range<usize>,
    words: Cow<'a, [u32]>,
    text: Cow<'a, [u8]>,
    chars: usize,
}

impl<'a> Answer<'a> {
    /// What the twelve numbers and both buffers say.
    pub(crate) fn new(
        numbers: [u32; call::ANSWER],
        words: Cow<'a, [u32]>,
        text: Cow<'a, [u8]>,
    ) -> Result<Answer<'a>, Refusal> {
        match numbers[0] {
            0 => Answer::accepted(numbers, words, text).ok_or_else(Refusal::unknown),
            _ => Err(Refusal::new(numbers)),
        }
    }

    /// Nothing, if it does not hang together.
    fn accepted(
        [_, sort, mark, start, end, records, length, _, chars, ..]: [u32; call::ANSWER],
        words: Cow<'a, [u32]>,
        text: Cow<'a, [u8]>,
    ) -> Option<Answer<'a>> {
        let sort = match sort {
            0 => Sort::Plain,
            1 => Sort::Joined,
            2 => Sort::Bytes,
            _ => return None,
        };
        let words = front(words, (records as usize).checked_mul(call::RECORD)?)?;
        let text = front(text, length as usize)?;
        let (u_mark, range, chars) = (mark != 0, range(start, end), chars as usize);
        let answer = Answer { sort, u_mark, range, words, text, chars };
        answer.records().reaches_end().then_some(answer)
    }

    pub fn sort(&self) -> Sort {
        self.sort
    }

    /// Whether the first literal has the prefix `u`.
    pub fn u_mark(&self) -> bool {
        self.u_mark
    }

    /// From the first literal's start to the last one's end.
    pub fn range(&self) -> Range<usize> {
        self.range.clone()
    }

    /// How many characters the bodies of all literals have.
    pub fn chars(&self) -> usize {
        self.chars
    }

    /// What stands at the top level, in order.
    pub fn records(&self) -> Records<'_> {
        Records { store: self.store(), at: 0, end: self.words.len() / call::RECORD }
    }

    /// Every field in order, those within format specs too.
    ///
    /// ```
    /// # use stumpgarret::{parse_strings, Literal, StringKind};
    /// let script = "f'{a}{b:{c}}'";
    /// let literal = Literal::within(StringKind::FString, false, 0..script.len());
    /// let answer = parse_strings(script, &[literal])?;
    /// let expressions: Vec<_> = answer.fields().map(|field| field.expression).collect();
    /// assert_eq!(expressions, ["a", "b", "c"]);
    /// # Ok::<(), stumpgarret::Refusal>(())
    /// ```
    pub fn fields(&self) -> impl Iterator<Item = Field<'_>> + '_ {
        let Records { store, at, end } = self.records();
        (at..end).filter_map(move |at| match store.record(at) {
            Some((Record::Field(field), _)) => Some(field),
            _ => None,
        })
    }

    /// The records as words, eight for each, as the C interface has them.
    pub fn words(&self) -> &[u32] {
        &self.words
    }

    /// The text of all records, in their order, without gaps.
    pub fn text(&self) -> &[u8] {
        &self.text
    }

    fn store(&self) -> Store<'_> {
        Store { words: &self.words, text: &self.text }
    }
}

fn range(start: u32, end: u32) -> Range<usize> {
    start as usize..end as usize
}

/// The first `length` elements, if there are so many.
fn front<T: Clone>(all: Cow<'_, [T]>, length: usize) -> Option<Cow<'_, [T]>> {
    if length > all.len() {
        return None;
    }
    Some(match all {
        Cow::Borrowed(all) => Cow::Borrowed(&all[..length]),
        Cow::Owned(mut all) => {
            all.truncate(length);
            Cow::Owned(all)
        }
    })
}

/// A part of what was read.
#[derive(Clone, Debug)]
#[non_exhaustive]
pub enum Record<'a> {
    /// Text. At the top level it carries the range and the u mark of all literals read, within a
    /// spec the range of the literal it stands in.
    #[non_exhaustive]
    Literal { text: &'a str, u_mark: bool, range: Range<usize> },
    /// A formatted field.
    Field(Field<'a>),
    /// The value of bytes literals.
    #[non_exhaustive]
    Bytes { value: &'a [u8], range: Range<usize> },
}

/// What stands after a `!`.
#[derive(Clone, Copy, Debug, PartialEq, Eq, Hash)]
pub enum ConversionFlag {
    /// Nothing.
    None,
    /// `s`
    Str,
    /// `a`
    Ascii,
    /// `r`
    Repr,
}

impl ConversionFlag {
    /// The letter.
    pub fn to_char(self) -> Option<char> {
        match self {
            Self::None => None,
            Self::Str => Some('s'),
            Self::Ascii => Some('a'),
            Self::Repr => Some('r'),
        }
    }

    pub(crate) fn of(word: u32) -> Option<ConversionFlag> {
        [Self::None, Self::Str, Self::Ascii, Self::Repr]
            .into_iter()
            .find(|flag| flag.to_char().map_or(0, u32::from) == word)
    }
}

/// A formatted field, `{..}`.
#[derive(Clone, Debug)]
#[non_exhaustive]
pub struct Field<'a> {
    /// The expression as it stands in the literal; it is not parsed. A self-documenting `=` is part
    /// of the literal before the field.
    pub expression: &'a str,
    /// `{x=}`, with neither a conversion nor a spec of its own, has [`ConversionFlag::Repr`].
    pub conversion: ConversionFlag,
    /// What follows a `:`, if there is one.
    pub spec: Option<Spec<'a>>,
    /// The range of the literal that the field stands in.
    pub range: Range<usize>,
    /// Just after the opening brace.
    pub place: usize,
}

/// A format spec.
#[derive(Clone, Debug)]
pub struct Spec<'a> {
    range: Range<usize>,
    parts: Records<'a>,
}

impl<'a> Spec<'a> {
    /// Its literals and fields, in order. They are not joined.
    pub fn parts(&self) -> Records<'a> {
        self.parts.clone()
    }

    /// Its text, if it has no field.
    ///
    /// ```
    /// # use stumpgarret::{parse_strings, Literal, StringKind};
    /// let script = "f'{a:.0f}{b:}{c:>{w}}'";
    /// let literal = Literal::within(StringKind::FString, false, 0..script.len());
    /// let answer = parse_strings(script, &[literal])?;
    /// let specs: Vec<_> = answer.fields().filter_map(|field| field.spec).collect();
    /// let texts: Vec<_> = specs.iter().map(|spec| spec.as_str()).collect();
    /// assert_eq!(texts, [Some(".0f"), Some(""), None]);
    /// # Ok::<(), stumpgarret::Refusal>(())
    /// ```
    pub fn as_str(&self) -> Option<&'a str> {
        let mut parts = self.parts();
        match (parts.next(), parts.next()) {
            (None, _) => Some(""),
            (Some(Record::Literal { text, .. }), None) => Some(text),
            _ => None,
        }
    }

    /// The range of the literal that the spec stands in.
    pub fn range(&self) -> Range<usize> {
        self.range.clone()
    }
}

/// Records that stand side by side.
#[derive(Clone)]
pub struct Records<'a> {
    store: Store<'a>,
    at: usize,
    end: usize,
}

impl<'a> Records<'a> {
    fn reaches_end(mut self) -> bool {
        while self.next().is_some() {}
        self.at == self.end
    }
}

impl<'a> Iterator for Records<'a> {
    type Item = Record<'a>;

    fn next(&mut self) -> Option<Record<'a>> {
        if self.at == self.end {
            return None;
        }
        let (record, after) = self.store.record(self.at)?;
        self.at = after;
        Some(record)
    }
}

impl fmt::Debug for Records<'_> {
    fn fmt(&self, f: &mut fmt::Formatter<'_>) -> fmt::Result {
        f.debug_list().entries(self.clone()).finish()
    }
}

/// Both buffers. What is asked of them is given if it is there; an [`Answer`] is made only if all
/// of it is.
#[derive(Clone, Copy)]
struct Store<'a> {
    words: &'a [u32],
    text: &'a [u8],
}

impl<'a> Store<'a> {
    fn words(self, at: usize) -> Option<[u32; call::RECORD]> {
        self.words.chunks_exact(call::RECORD).nth(at)?.try_into().ok()
    }

    fn bytes(self, offset: u32, length: u32) -> Option<&'a [u8]> {
        self.text.get(offset as usize..)?.get(..length as usize)
    }

    fn text(self, offset: u32, length: u32) -> Option<&'a str> {
        str::from_utf8(self.bytes(offset, length)?).ok()
    }

    /// The record at a number, with all that belongs to it, and the number after that.
    fn record(self, at: usize) -> Option<(Record<'a>, usize)> {
        let [kind, offset, length, start, end, flag, parts, place] = self.words(at)?;
        let range = range(start, end);
        match kind {
            1 => {
                let text = self.text(offset, length)?;
                Some((Record::Literal { text, u_mark: flag != 0, range }, at + 1))
            }
            2 => {
                let (spec, after) = match parts {
                    0 => (None, at + 1),
                    _ => self.spec(at + 1).map(|(spec, after)| (Some(spec), after))?,
                };
                let expression = self.text(offset, length)?;
                let conversion = ConversionFlag::of(flag)?;
                let place = place as usize;
                Some((Record::Field(Field { expression, conversion, spec, range, place }), after))
            }
            4 => Some((Record::Bytes { value: self.bytes(offset, length)?, range }, at + 1)),
            _ => None,
        }
    }

    fn spec(self, at: usize) -> Option<(Spec<'a>, usize)> {
        let [kind, _, _, start, end, _, parts, _] = self.words(at)?;
        if kind != 3 {
            return None;
        }
        let first = at + 1;
        let after = (0..parts).try_fold(first, |at, _| Some(self.record(at)?.1))?;
        let parts = Records { store: self, at: first, end: after };
        Some((Spec { range: range(start, end), parts }, after))
    }
}

#[cfg(test)]
mod tests {
    use super::*;

    const FIELD: [u32; 8] = [2, 0, 1, 0, 9, 0, 1, 3];
    const SPEC: [u32; 8] = [3, 1, 0, 0, 9, 0, 1, 0];
    const LITERAL: [u32; 8] = [1, 1, 1, 0, 9, 0, 0, 0];

    fn joined(records: &[[u32; 8]], text: &[u8]) -> Result<Answer<'static>, Refusal> {
        let numbers = [0, 1, 0, 0, 9, records.len() as u32, text.len() as u32, 0, 0, 0, 0, 0];
        Answer::new(numbers, Cow::Owned(records.concat()), Cow::Owned(text.to_vec()))
    }

    fn with(mut record: [u32; 8], word: usize, value: u32) -> [u32; 8] {
        record[word] = value;
        record
    }

    #[test]
    fn an_answer_that_hangs_together_is_taken() {
        assert!(joined(&[FIELD, SPEC, LITERAL], b"xy").is_ok());
    }

    #[test]
    fn an_answer_that_does_not_is_unknown() {
        let cases: [(&str, Vec<[u32; 8]>, &[u8]); 9] = [
            ("a spec is missing", vec![FIELD], b"xy"),
            ("a literal in the place of a spec", vec![FIELD, LITERAL], b"xy"),
            ("a part is missing", vec![FIELD, SPEC], b"xy"),
            ("a spec alone", vec![with(SPEC, 6, 0)], b"xy"),
            ("kind 0", vec![with(LITERAL, 0, 0)], b"xy"),
            ("kind 5", vec![with(LITERAL, 0, 5)], b"xy"),
            ("text past the end", vec![with(LITERAL, 2, 2)], b"xy"),
            ("text that is not UTF-8", vec![LITERAL], b"x\xff"),
            ("an unknown conversion", vec![with(with(FIELD, 5, 120), 6, 0)], b"xy"),
        ];
        for (name, records, text) in cases {
            assert_eq!(joined(&records, text), Err(Refusal::unknown()), "{}", name);
        }
    }

    #[test]
    fn more_than_the_buffers_have_is_unknown() {
        for numbers in [[0, 1, 0, 0, 9, 1, 0, 0, 0, 0, 0, 0], [0, 1, 0, 0, 9, 0, 1, 0, 0, 0, 0, 0]]
        {
            let answer = Answer::new(numbers, Cow::Borrowed(&[0; 7]), Cow::Borrowed(&[]));
            assert_eq!(answer, Err(Refusal::unknown()));
        }
    }

    #[test]
    fn an_unknown_sort_is_unknown() {
        let numbers = [0, 3, 0, 0, 9, 0, 0, 0, 0, 0, 0, 0];
        let answer = Answer::new(numbers, Cow::Borrowed(&[]), Cow::Borrowed(&[]));
        assert_eq!(answer, Err(Refusal::unknown()));
    }
}
