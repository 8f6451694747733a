//! One input against the reference, with room enough, just enough and too little.

use std::collections::BTreeMap;
use std::fmt;

use inputs::{Case, FILL_BYTE, FILL_WORD};
use oracle::answer::{Numbers, Outcome};
use oracle::listing::{self, Listing};
use oracle::rules::{self, RECORD_WORDS, ROW_NUMBERS};

use crate::candidate::{self, Answer, Room};

/// How many records and text bytes are printed.
const RECORDS_SHOWN: usize = 40;
const TEXT_SHOWN: usize = 2_000;

impl Answer {
    /// What is answered and left with a room, by what answers and fills both buffers.
    fn expected(room: Room, lay_out: impl FnOnce(&mut [u32], &mut [u8]) -> Numbers) -> Answer {
        let (mut words, mut text) = (vec![FILL_WORD; room.words()], vec![FILL_BYTE; room.text()]);
        let numbers = lay_out(&mut words, &mut text);
        Answer { numbers, words, text }
    }

    /// In lines of a record or a row.
    fn shown(&self, room: Room) -> String {
        let width = if let Room::Records { .. } = room { RECORD_WORDS } else { ROW_NUMBERS };
        let records = self.words.chunks(width).take(RECORDS_SHOWN);
        let records: String = records.map(|record| format!("  {record:?}\n")).collect();
        let text = self.text[..self.text.len().min(TEXT_SHOWN)].escape_ascii();
        format!("{:?}\n{records}  \"{text}\"", self.numbers)
    }
}

pub struct Difference {
    room: Room,
    expected: Answer,
    given: Answer,
}

impl fmt::Display for Difference {
    fn fmt(&self, f: &mut fmt::Formatter) -> fmt::Result {
        writeln!(f, "lent: {:?}", self.room)?;
        writeln!(f, "expected: {}", self.expected.shown(self.room))?;
        writeln!(f, "given:    {}", self.given.shown(self.room))?;
        write!(f, "first at {}", self.first())
    }
}

impl Difference {
    /// Where the answers first differ.
    fn first(&self) -> String {
        let (expected, given) = (&self.expected, &self.given);
        if let Some(at) = first_unequal(&expected.numbers, &given.numbers) {
            format!("number {at}")
        } else if let Some(at) = first_unequal(&expected.words, &given.words) {
            format!("word {at}")
        } else {
            let at = first_unequal(&expected.text, &given.text).expect("there is a difference");
            format!("text byte {at}")
        }
    }
}

fn first_unequal<T: PartialEq>(one: &[T], other: &[T]) -> Option<usize> {
    one.iter().zip(other).position(|(one, other)| one != other)
}

/// How many by their number.
type Counts = BTreeMap<u32, u64>;

/// Compares, and counts what was compared.
#[derive(Default)]
pub struct Checker {
    calls: u64,
    lists: Counts,
    scripts: u64,
    /// The refusals among their rows; 0 for a field.
    script_rows: Counts,
    short_of_room: Counts,
}

impl Checker {
    /// A list, by its records and by its rows.
    pub fn check(&mut self, case: &Case) -> Option<Difference> {
        let outcome = rules::reading(&case.script, &case.list);
        let number = outcome.as_ref().map_or_else(|refusal| refusal.number, |_| 0);
        *self.lists.entry(number).or_default() += 1;
        let rows = outcome
            .as_ref()
            .map_or(Vec::new(), |accepted| rules::rows(&case.script, &case.list, accepted));
        self.compare(case, &rooms(&outcome, rows.len()), |room, words, text| match room {
            Room::Records { .. } => rules::lay_out(&outcome, words, text),
            _ => rules::lay_out_rows(&outcome, &rows, words),
        })
    }

    /// A whole script, which has no list; and that it has no more rows than bytes.
    pub fn check_script(&mut self, case: &Case) -> Option<Difference> {
        let listing = listing::listing(&case.script);
        let rows = listing.as_ref().map_or(0, |listing| listing.rows.len());
        assert!(rows <= case.script.len(), "{rows} rows: {case}");
        self.scripts += 1;
        for row in listing.iter().flat_map(|listing| &listing.rows) {
            let number = if row[0] == 5 { row[3] } else { 0 };
            *self.script_rows.entry(number).or_default() += 1;
        }
        self.compare(case, &script_rooms(listing.as_ref()), |_, words, _| {
            listing::lay_out(listing.as_ref(), words)
        })
    }

    fn compare(
        &mut self,
        case: &Case,
        rooms: &[Room],
        lay_out: impl Fn(Room, &mut [u32], &mut [u8]) -> Numbers,
    ) -> Option<Difference> {
        let given = candidate::read(&case.script, &case.list, rooms);
        rooms.iter().zip(given).find_map(|(&room, given)| {
            let expected = Answer::expected(room, |words, text| lay_out(room, words, text));
            self.calls += 1;
            if let number @ (30 | 31 | 53) = expected.numbers[0] {
                *self.short_of_room.entry(number).or_default() += 1;
            }
            (expected != given).then_some(Difference { room, expected, given })
        })
    }

    /// How many lists were compared, and how many scripts.
    pub fn lists(&self) -> u64 {
        self.lists.values().sum()
    }

    pub fn scripts(&self) -> u64 {
        self.scripts
    }

    pub fn summary(&self) -> String {
        let counts = |counts: &Counts| {
            let counts = counts.iter().map(|(number, count)| format!("{number}: {count}"));
            counts.collect::<Vec<_>>().join(", ")
        };
        format!(
            "compare: {} lists and {} scripts in {} calls, no difference; lists by number (0 \
             accepted): {}; rows of the scripts by number (0 fields): {}; calls with too little \
             room: {}",
            self.lists(),
            self.scripts,
            self.calls,
            counts(&self.lists),
            counts(&self.script_rows),
            counts(&self.short_of_room)
        )
    }
}

/// Rooms to try: for an acceptance more than needed, just enough, one word less than the
/// records need, one byte less than the text, both, and none at all; and the same for the rows of so
/// many fields.
fn rooms(outcome: &Outcome, fields: usize) -> Vec<Room> {
    let records = |words, text| Room::Records { words, text };
    let Ok(accepted) = outcome else {
        return vec![records(11, 5), records(0, 0), Room::Rows(11)];
    };
    let numbers = fields * ROW_NUMBERS;
    let (words, text) = (accepted.records.len() * RECORD_WORDS, accepted.text.len());
    let mut rooms = vec![records(words + 11, text + 3), records(words, text)];
    rooms.push(Room::Rows(numbers + 7));
    if fields > 0 {
        rooms.extend([numbers, numbers - 1].map(Room::Rows));
    }
    if words > 0 {
        rooms.extend([records(words - 1, text), records(0, 0)]);
    }
    if text > 0 {
        rooms.extend([records(words, text - 1), records(words - 1, text - 1)]);
    }
    rooms
}

/// The same for the rows of a whole script, and a row less than needed.
fn script_rooms(listing: Option<&Listing>) -> Vec<Room> {
    let numbers = listing.map_or(0, |listing| listing.rows.len() * ROW_NUMBERS);
    let rooms = match numbers {
        0 => vec![7, 0],
        _ => vec![numbers + 17, numbers, numbers - 1, numbers - ROW_NUMBERS, 0],
    };
    rooms.into_iter().map(Room::Fields).collect()
}
