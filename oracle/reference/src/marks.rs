//! The list of checks: cards, each with the marks that are lent for its check, and what the check answers and leaves in them
//! (document 01, section 9).

use crate::card::{MOST_RECORDS, RECORD_BYTES, RecordBytes, check, header_bytes, record, record_bytes, refusal_words, set_next};
use crate::flights;
use crate::machine::Airframe;
use crate::random::Random;
use crate::settings::{EXAMPLE, changed, defaults};
use std::fmt::Write;

/// Room for a card, kept from entry to entry.
const ROOM: usize = 65_536;

/// One line for each entry: the answer, and all bytes of the marks after it.
pub fn answers(mut list: &[u8]) -> String {
    let mut card = [0; ROOM];
    let mut text = String::new();
    while !list.is_empty() {
        let [fresh, length, lent] = [(); 3].map(|()| u32::from_le_bytes(taken(&mut list, 4).try_into().unwrap()) as usize);
        card[..fresh].copy_from_slice(taken(&mut list, fresh));
        let mut marks = taken(&mut list, lent).to_vec();
        let words = match check(&card[..length], &mut marks) {
            Ok(checked) => format!("walk {}", checked.chain.len()),
            Err(refusal) => format!("card {}", refusal_words(refusal)),
        };
        let marks: String = marks.iter().map(|mark| format!("{mark:02x}")).collect();
        writeln!(text, "{words} marks={marks}").unwrap();
    }
    text
}

/// The first bytes of a list, taken off it.
fn taken<'a>(list: &mut &'a [u8], count: usize) -> &'a [u8] {
    let (first, rest) = list.split_at(count);
    *list = rest;
    first
}

/// A list of checks from a seed.
pub fn make(seed: u64) -> Vec<u8> {
    let mut entries = Entries {
        list: Vec::new(),
        random: Random::new(seed),
        turn: 0,
    };
    for shape in 0..flights::SHORT_SHAPES {
        entries.card(&flights::shape(seed, shape));
    }
    for (links, unknown) in LINKS {
        entries.card(&linked(links, unknown));
    }
    for (airframe, field) in BAD_FIELDS {
        entries.card(&bad_header(airframe, field));
    }
    entries.each_three();
    entries.all_records();
    entries.past_the_most();
    entries.list
}

/// The links of small cards from the header on, and the record of an unknown kind, if any (0 is none).
const LINKS: [(&[usize], usize); 20] = [
    // Accepted: in order, backwards, with records that nothing refers to, one of them unknown.
    (&[0], 0),
    (&[1, 2, 3, 4, 0], 0),
    (&[4, 0, 1, 2, 3], 0),
    (&[3, 1, 0, 5, 2, 9], 0),
    (&[3, 1, 0, 5, 2, 2], 1),
    (&[0, 1, 2], 2),
    // 8: past the card, from the header and later.
    (&[1], 0),
    (&[65_535, 2, 0], 0),
    (&[1, 2, 3], 0),
    (&[2, 0, 1, 4, 5], 3),
    (&[2, 256, 1], 0),
    // 9: a record that leads to itself, to the first one and to one in the middle.
    (&[1, 1], 0),
    (&[2, 0, 2, 0], 1),
    (&[1, 2, 3, 4, 1], 0),
    (&[1, 2, 3, 4, 3], 0),
    (&[5, 3, 3, 2, 1, 4, 0], 0),
    // 10: the first record, a later one, the last one.
    (&[1, 2, 0], 1),
    (&[3, 1, 0, 2], 2),
    (&[1, 2, 3, 4, 0], 4),
    (&[1, 1], 1),
];

/// A header of the example's settings and primes, with these links.
fn linked(links: &[usize], unknown: usize) -> Vec<u8> {
    let mut records: Vec<RecordBytes> = vec![record_bytes(1, 0, &[]); links.len()];
    records[unknown][0] = 7;
    records[0] = header_bytes(Airframe::Quadplane, &EXAMPLE);
    for (record, next) in records.iter_mut().zip(links) {
        set_next(record, *next);
    }
    records.concat()
}

/// Fields that make a header bad: the first and the last of either airframe, and one between.
const BAD_FIELDS: [(Airframe, usize); 5] = [
    (Airframe::Tailsitter, 1),
    (Airframe::Tailsitter, 9),
    (Airframe::Tailsitter, 17),
    (Airframe::Quadplane, 1),
    (Airframe::Quadplane, 15),
];

/// A card of four records with this field -1.
fn bad_header(airframe: Airframe, field: usize) -> Vec<u8> {
    let mut card = linked(&[1, 2, 3, 0], 0);
    let mut header = header_bytes(airframe, &changed(&defaults(airframe), &[(field, -1.0)]));
    set_next(&mut header, 1);
    card[..RECORD_BYTES].copy_from_slice(&header);
    card
}

struct Entries {
    list: Vec<u8>,
    random: Random,
    /// How many entries there are.
    turn: usize,
}

impl Entries {
    /// An entry: how many bytes are put over the start of the card before, how many bytes are the card, how many marks are lent, each a
    /// little-endian u32; then those bytes and the marks. What the marks hold is of one sort after the other.
    fn add(&mut self, fresh: &[u8], length: usize, lent: usize) {
        let sort = self.turn % 5;
        let marks = (0..lent).map(|_| match sort {
            0 => self.random.draw() as u8,
            1 => 1,
            2 => 0xFF,
            3 => self.random.below(2) as u8,
            _ => 0,
        });
        let marks: Vec<u8> = marks.collect();
        for count in [fresh.len(), length, lent] {
            self.list.extend((count as u32).to_le_bytes());
        }
        self.list.extend([fresh, &marks].concat());
        self.turn += 1;
    }

    /// The first bytes of the card before, with marks of each of these numbers.
    fn again(&mut self, length: usize, lent: &[usize]) {
        for lent in lent {
            self.add(&[], length, *lent);
        }
    }

    /// A small card, with no marks, too few, just enough and more.
    fn card(&mut self, card: &[u8]) {
        let records = card.len() / RECORD_BYTES;
        self.add(card, card.len(), records);
        let more = records + 2 + self.random.below(12);
        self.again(card.len(), &[0, records.saturating_sub(1), records, records + 1, more]);
        if self.random.once_in(10) {
            self.again(card.len(), &[MOST_RECORDS]);
        }
    }

    /// All links from 0 to 3 of cards of three records.
    fn each_three(&mut self) {
        for i in 0..64 {
            let card = linked(&[i / 16, i / 4 % 4, i % 4], 0);
            self.add(&card, card.len(), 4);
        }
    }

    /// 800 records in any order, whole and cut off: each length has another link past the card.
    fn all_records(&mut self) {
        let card = flights::shape(3, flights::LONGEST);
        let most = card.len();
        self.add(&card, most, MOST_RECORDS);
        self.again(most, &[0, 1, 799, 800, 801, 900]);
        for records in [799, 790, 400, 2, 1] {
            self.again(RECORD_BYTES * records, &[records - 1, records, 801]);
        }
    }

    /// 801 records in order, of which the 800th leads back: refused with 6, cut off, and from other headers.
    fn past_the_most(&mut self) {
        let mut links: Vec<usize> = (1..=MOST_RECORDS + 1).collect();
        links[MOST_RECORDS - 1] = 400;
        let card = linked(&links, 0);
        let most = RECORD_BYTES * MOST_RECORDS;
        self.add(&card, card.len(), MOST_RECORDS + 1);
        self.again(card.len(), &[0, 800]);
        for length in [most - 1, most + 1, ROOM, 79, 0] {
            self.again(length, &[length / RECORD_BYTES % 7, 10]);
        }
        self.again(most, &[799, 800, 802]);
        self.again(most - RECORD_BYTES, &[799]);
        for link in [799, 401, 800, 0] {
            let mut header = record(&card, 0).0.to_vec();
            header[2..4].copy_from_slice(&(link as u16).to_le_bytes());
            self.add(&header[..4], most, 800);
        }
        self.add(&[7, 0, 1, 0], most, 801);
        self.again(most, &[799]);
    }
}
