//! The flight card and its transcript: document 01, sections 7 and 9.

use crate::joined::{Call, Joined, Line};
use crate::machine::{Airframe, Refusal, Step, check_settings};
use crate::settings::Settings;
use stable_flight::FlightMode;
use std::fmt::Write;

pub const RECORD_BYTES: usize = 80;
pub const MOST_RECORDS: usize = 800;

pub type RecordBytes = [u8; RECORD_BYTES];

/// The kind of an airframe's header.
pub fn header_kind(airframe: Airframe) -> u8 {
    match airframe {
        Airframe::Tailsitter => 5,
        Airframe::Quadplane => 6,
    }
}

/// A record with these numbers from number 1 on, and 0 for the others.
pub fn record_bytes(kind: u8, option: u8, numbers: &[f32]) -> RecordBytes {
    let mut bytes = [0; RECORD_BYTES];
    bytes[0] = kind;
    bytes[1] = option;
    for (i, x) in numbers.iter().enumerate() {
        bytes[4 * i + 4..4 * i + 8].copy_from_slice(&x.to_le_bytes());
    }
    bytes
}

/// The airframe of a header, if the record is one.
pub fn header_airframe(header: &Record) -> Option<Airframe> {
    match (header.kind(), header.option()) {
        (5, 0) => Some(Airframe::Tailsitter),
        (6, 0) => Some(Airframe::Quadplane),
        _ => None,
    }
}

/// The header of an airframe.
pub fn header_bytes(airframe: Airframe, settings: &Settings) -> RecordBytes {
    record_bytes(header_kind(airframe), 0, settings)
}

pub fn step_bytes(step: &Step) -> RecordBytes {
    record_bytes(2, step.option(), &step.numbers)
}

pub fn set_next(record: &mut RecordBytes, next: usize) {
    record[2..4].copy_from_slice(&(next as u16).to_le_bytes());
}

/// The card of these records, one after the other.
pub fn in_order(mut records: Vec<RecordBytes>) -> Vec<u8> {
    let last = records.len() - 1;
    for (i, record) in records.iter_mut().enumerate() {
        set_next(record, if i == last { 0 } else { i + 1 });
    }
    records.concat()
}

/// A record of a card or of a list of calls.
#[derive(Debug, Clone, Copy)]
pub struct Record<'a>(pub &'a [u8]);

impl Record<'_> {
    pub fn kind(&self) -> u8 {
        self.0[0]
    }

    pub fn option(&self) -> u8 {
        self.0[1]
    }

    pub fn next(&self) -> usize {
        usize::from(u16::from_le_bytes([self.0[2], self.0[3]]))
    }

    /// Number i, from 1.
    pub fn number(&self, i: usize) -> f32 {
        f32::from_le_bytes(self.0[4 * i..4 * i + 4].try_into().unwrap())
    }

    pub fn settings(&self) -> Settings {
        std::array::from_fn(|i| self.number(i + 1))
    }

    pub fn step(&self) -> Step {
        Step::new(self.option(), std::array::from_fn(|i| self.number(i + 1)))
    }

    /// Whether kind and option are good in a record after the header.
    pub fn known(&self) -> bool {
        match self.kind() {
            1 | 4 => self.option() == 0,
            2 => self.option() <= 3,
            3 => (11..=16).contains(&self.option()),
            _ => false,
        }
    }

    pub fn call(&self) -> Call {
        match self.kind() {
            1 => Call::Prime(self.number(2)),
            2 => Call::Step(self.step()),
            3 => Call::Cut(self.option()),
            _ => Call::Settings(self.settings()),
        }
    }
}

/// What the check of a card finds: the airframe, and the records after the header in the order of the chain.
pub struct Checked {
    pub airframe: Airframe,
    pub chain: Vec<usize>,
}

pub fn record(card: &[u8], index: usize) -> Record<'_> {
    Record(&card[RECORD_BYTES * index..RECORD_BYTES * (index + 1)])
}

/// The check of a whole card, before any record runs. Past 6 and 7 the marks become 1 for the header and each record passed, and 0 for
/// the other records; the rest stays.
pub fn check(card: &[u8], marks: &mut [u8]) -> Result<Checked, Refusal> {
    let whole = card.len().is_multiple_of(RECORD_BYTES);
    if !whole || card.is_empty() || card.len() > RECORD_BYTES * MOST_RECORDS {
        return Err(Refusal::Number(6));
    }
    let records = card.len() / RECORD_BYTES;
    if marks.len() < records {
        return Err(Refusal::Number(7));
    }
    let marks = &mut marks[..records];
    marks.fill(0);
    marks[0] = 1;
    let header = record(card, 0);
    let Some(airframe) = header_airframe(&header) else {
        return Err(Refusal::Number(10));
    };
    check_settings(airframe, &header.settings())?;
    let chain = chain(card, marks)?;
    Ok(Checked { airframe, chain })
}

/// The records after the header, in the order of the chain, each marked as it is passed.
fn chain(card: &[u8], marks: &mut [u8]) -> Result<Vec<usize>, Refusal> {
    let mut chain = Vec::new();
    let mut next = record(card, 0).next();
    while next != 0 {
        if next >= marks.len() {
            return Err(Refusal::Number(8));
        }
        if marks[next] == 1 {
            return Err(Refusal::Number(9));
        }
        if !record(card, next).known() {
            return Err(Refusal::Number(10));
        }
        marks[next] = 1;
        chain.push(next);
        next = record(card, next).next();
    }
    Ok(chain)
}

/// The calls of a good card, each with its record's index.
pub fn calls(card: &[u8], chain: &[usize]) -> Vec<(usize, Call)> {
    chain.iter().map(|&index| (index, record(card, index).call())).collect()
}

/// The joined machine of a good card's header.
pub fn machine(card: &[u8], airframe: Airframe) -> Joined {
    Joined::new(airframe, &record(card, 0).settings()).expect("a header that was found good")
}

/// What the runner writes for a card.
pub fn transcript(card: &[u8]) -> String {
    let checked = match check(card, &mut [0; MOST_RECORDS]) {
        Ok(checked) => checked,
        Err(refusal) => return format!("card {}\n", refusal_words(refusal)),
    };
    let mut joined = machine(card, checked.airframe);
    let mut text = String::new();
    for (index, call) in calls(card, &checked.chain) {
        let words = match joined.call(&call) {
            Ok(line) => line_words(&line),
            Err(refusal) => refused(refusal),
        };
        writeln!(text, "{index} {words}").unwrap();
    }
    writeln!(text, "end {}", checked.chain.len()).unwrap();
    text
}

/// A list of cards: each is its length, a little-endian u32, and its bytes.
pub fn list(cards: impl Iterator<Item = Vec<u8>>) -> Vec<u8> {
    cards
        .flat_map(|card| [&(card.len() as u32).to_le_bytes()[..], &card].concat())
        .collect()
}

/// The cards of a list.
pub fn cards(list: &[u8]) -> Vec<&[u8]> {
    let mut cards = Vec::new();
    let mut rest = list;
    while let Some((length, after)) = rest.split_first_chunk::<4>() {
        let (card, left) = after.split_at(u32::from_le_bytes(*length) as usize);
        cards.push(card);
        rest = left;
    }
    cards
}

/// The line of a call that is turned down.
pub fn refused(refusal: Refusal) -> String {
    format!("refused {}", refusal_words(refusal))
}

/// The number of a refusal, and after 3 the field.
pub fn refusal_words(refusal: Refusal) -> String {
    match refusal {
        Refusal::Number(number) => number.to_string(),
        Refusal::Setting(field) => format!("3 {field}"),
    }
}

pub fn mode_letter(mode: FlightMode) -> char {
    match mode {
        FlightMode::Copter => 'C',
        FlightMode::Plane => 'P',
        FlightMode::ToPlane => 'F',
        FlightMode::ToCopter => 'B',
        _ => panic!("a mode that document 01 does not have"),
    }
}

/// The bits of a number, a NaN's as 7FC00000.
pub fn bits(x: f32) -> u32 {
    if x.is_nan() { 0x7FC0_0000 } else { x.to_bits() }
}

fn line_words(line: &Line) -> String {
    let moved = &line.moved;
    format!(
        "{} {} {} {} {:08X} {:08X}",
        mode_letter(moved.mode),
        moved.output.map_or("-".to_string(), |x| format!("{:08X}", bits(x))),
        u8::from(moved.handoff),
        moved.report,
        bits(line.thrust),
        bits(line.pitch_rad),
    )
}

#[cfg(test)]
mod tests {
    use super::{RECORD_BYTES, check};
    use crate::machine::Refusal;
    use crate::named;

    /// The refusal of a card, and its marks; they hold 7 before.
    fn marked(card: &[u8], marks: usize) -> (Option<Refusal>, Vec<u8>) {
        let mut lent = vec![7; marks];
        (check(card, &mut lent).err(), lent)
    }

    /// The example of section 7, nine records, with one byte changed.
    fn changed(at: usize, to: u8) -> Vec<u8> {
        let mut card = named::all().swap_remove(0).card;
        card[at] = to;
        card
    }

    #[test]
    fn marks_are_as_section_9_says() {
        let link = |record: usize| RECORD_BYTES * record + 2;
        let good = changed(0, 6);
        let number = |n| Some(Refusal::Number(n));
        assert_eq!(marked(&good[1..], 9), (number(6), vec![7; 9]));
        assert_eq!(marked(&good, 8), (number(7), vec![7; 8]));
        assert_eq!(marked(&good, 10), (None, vec![1, 1, 1, 1, 1, 1, 1, 1, 1, 7]));
        assert_eq!(marked(&changed(0, 7), 9), (number(10), vec![1, 0, 0, 0, 0, 0, 0, 0, 0]));
        assert_eq!(marked(&changed(link(3), 9), 9), (number(8), vec![1, 1, 1, 1, 0, 0, 0, 0, 0]));
        assert_eq!(marked(&changed(link(3), 2), 9), (number(9), vec![1, 1, 1, 1, 0, 0, 0, 0, 0]));
        assert_eq!(
            marked(&changed(4 * RECORD_BYTES, 5), 9),
            (number(10), vec![1, 1, 1, 1, 0, 0, 0, 0, 0])
        );
        assert_eq!(marked(&changed(link(3), 6), 9), (None, vec![1, 1, 1, 1, 0, 0, 1, 1, 1]));
    }
}
