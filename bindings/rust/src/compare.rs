use crate::call;
use crate::refusal::Refusal;
use crate::{Answer, Sort};
use std::ops::Range;

/// Where two answers differ.
#[derive(Clone, Debug, PartialEq, Eq, Hash)]
#[non_exhaustive]
pub struct Comparison {
    /// How many items are equal in front.
    pub front: usize,
    /// Of the others, how many are equal behind.
    pub back: usize,
    /// The numbers, from 0, of the items of the first answer that lie between.
    pub first: Range<usize>,
    /// The same of the second answer.
    pub second: Range<usize>,
}

impl Comparison {
    /// Whether nothing lies between.
    pub fn is_equal(&self) -> bool {
        self.first.is_empty() && self.second.is_empty()
    }
}

impl Answer<'_> {
    /// Compares two revisions: the longest equal run of items in front, then the longest of what remains
    /// at the back, and what lies between in each. An item is what [`Answer::records`] gives: a text, the
    /// value of bytes, or a field with its spec. Items are equal if their kinds, texts, conversions and
    /// specs are, whatever their places, ranges, u marks and the sorts of the answers.
    ///
    /// ```
    /// use stumpgarret::read_at;
    ///
    /// let (_, old) = read_at("f'VDD {mv:>6,} mV'", 0)?;
    /// let (_, new) = read_at("f'VDD {mv:>8,}{unit} mV'", 0)?;
    /// let compared = old.compare(&new)?;
    /// assert_eq!((compared.front, compared.back), (1, 1));
    /// assert_eq!((compared.first, compared.second), (1..2, 1..3));
    /// assert!(old.compare(&old)?.is_equal());
    /// # Ok::<(), stumpgarret::Refusal>(())
    /// ```
    pub fn compare(&self, other: &Answer<'_>) -> Result<Comparison, Refusal> {
        let records = self.words().len() / call::RECORD + other.words().len() / call::RECORD;
        let mut list = vec![0; records];
        let answer = call::compare(self.lent(), other.lent(), &mut list);
        Comparison::new(answer, &list)
    }

    /// What is lent of it; the numbers that are not looked at are 0.
    fn lent(&self) -> call::Lent<'_> {
        let sort = match self.sort() {
            Sort::Plain => 0,
            Sort::Joined => 1,
            Sort::Bytes => 2,
        };
        let (words, text) = (self.words(), self.text());
        let (records, length) = ((words.len() / call::RECORD) as u32, text.len() as u32);
        (words, text, [0, sort, 0, 0, 0, records, length, 0, 0, 0, 0, 0])
    }
}

impl Comparison {
    /// What the numbers and the list say, if they hang together.
    fn new(answer: [u32; call::ANSWER], list: &[u32]) -> Result<Comparison, Refusal> {
        if answer[0] != 0 {
            return Err(Refusal::new(answer));
        }
        let [_, front, back, first, second, ..] = answer;
        let between = |items: u32| Some(front..items.checked_sub(back)?);
        let compared = || {
            let (first, second) = (between(first)?, between(second)?);
            let listed = first.clone().chain(second.clone());
            list.iter().copied().zip(listed).all(|(listed, own)| listed == own).then_some(())?;
            let whole = |one: Range<u32>| one.start as usize..one.end as usize;
            let (first, second) = (whole(first), whole(second));
            Some(Comparison { front: front as usize, back: back as usize, first, second })
        };
        compared().ok_or_else(Refusal::unknown)
    }
}

#[cfg(test)]
mod tests {
    use super::*;

    #[test]
    fn a_list_that_is_not_what_the_numbers_say_is_unknown() {
        let answer = [0, 1, 1, 3, 4, 1, 2, 0, 0, 0, 0, 0];
        assert_eq!(Comparison::new(answer, &[1, 1, 2]).map(|c| c.second), Ok(1..3));
        assert_eq!(Comparison::new(answer, &[1, 2, 1]), Err(Refusal::unknown()));
        let short = [0, 1, 5, 3, 4, 0, 0, 0, 0, 0, 0, 0];
        assert_eq!(Comparison::new(short, &[]), Err(Refusal::unknown()));
    }

    #[test]
    fn a_refusal_has_its_number() {
        let answer = [58, 0, 0, 0, 0, 0, 0, 0, 0, 0, 0, 0];
        assert_eq!(Comparison::new(answer, &[]).map_err(|refusal| refusal.number()), Err(58));
    }
}
