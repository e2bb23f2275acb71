//! Records laid out as cards: good chains of every shape, and cards that are refused.

use super::classes;
use super::flight::{Flight, header};
use crate::card::{MOST_RECORDS, RECORD_BYTES, RecordBytes, in_order, set_next};
use crate::machine::Airframe;
use crate::random::Random;

/// The records in any places, with `unreached` records of any bytes among them.
pub fn scattered(random: &mut Random, records: &[RecordBytes], unreached: usize) -> Vec<u8> {
    let count = records.len() + unreached;
    let mut places: Vec<usize> = (1..count).collect();
    for i in (1..places.len()).rev() {
        places.swap(i, random.below(i + 1));
    }
    placed(random, records, &places, count)
}

/// The records in rising places, with unreached ones between.
pub fn spread(random: &mut Random, records: &[RecordBytes], unreached: usize) -> Vec<u8> {
    let count = records.len() + unreached;
    let mut places: Vec<usize> = (1..count).collect();
    while places.len() + 1 > records.len() {
        places.remove(random.below(places.len()));
    }
    placed(random, records, &places, count)
}

/// The header first, then each record in its place. The last one ends the chain.
fn placed(random: &mut Random, records: &[RecordBytes], places: &[usize], count: usize) -> Vec<u8> {
    let mut card: Vec<RecordBytes> = vec![[0; RECORD_BYTES]; count];
    for record in &mut card {
        record.fill_with(|| random.draw() as u8);
        if random.once_in(2) {
            record[..2].copy_from_slice(&[random.pick(&[1, 2, 4]), 0]);
            set_next(record, random.below(count));
        }
    }
    let mut at = 0;
    for (i, record) in records.iter().enumerate() {
        card[at] = *record;
        let next = if i + 1 < records.len() { places[i] } else { 0 };
        set_next(&mut card[at], next);
        at = next;
    }
    card.concat()
}

/// A header with this field bad, and up to three records of any bytes.
pub fn bad_header(random: &mut Random, airframe: Airframe, field: usize) -> Vec<u8> {
    let settings = classes::bad_settings(random, airframe, field);
    let mut card = header(random, airframe, &settings).to_vec();
    card[2] = random.below(3) as u8;
    let more = RECORD_BYTES * random.below(4);
    card.resize_with(card.len() + more, || random.draw() as u8);
    card
}

/// How many shapes `shaped` knows.
pub const SHAPES: u64 = 40;

/// The shapes before these are of short cards; then a card of 800 records and one of 801.
pub const SHORT_SHAPES: u64 = 38;
pub const LONGEST: u64 = 38;
/// A shape to take in their place.
pub const SCATTERED: u64 = 27;

/// A card of a shape, made of a flight.
pub fn shaped(mut flight: Flight, shape: u64) -> Vec<u8> {
    match shape {
        0 => Vec::new(),
        1 => cut_to(flight, 79),
        2 => cut_to(flight, 81),
        3 => {
            let most = flight.records.len() * RECORD_BYTES;
            let length = flight.random.pick(&[82, 120, 159, 161, most - 1, most - 79]);
            cut_to(flight, length)
        }
        4..=8 => bad_first(flight, shape),
        9..=18 | 35 => bad_kind_or_option(flight, shape),
        19..=25 => bad_link(flight, shape),
        26 => in_order(flight.records),
        SCATTERED..=30 => {
            let unreached = if shape < 29 { 0 } else { 1 + flight.random.below(8) };
            scattered(&mut flight.random, &flight.records, unreached)
        }
        31..=33 => {
            let unreached = 1 + flight.random.below(8);
            spread(&mut flight.random, &flight.records, unreached)
        }
        34 => ends_at_once(flight),
        36 => in_order(flight.records[..1].to_vec()),
        37 => in_order(flight.records[..2].to_vec()),
        LONGEST => longest(flight, MOST_RECORDS),
        _ => longest(flight, MOST_RECORDS + 1),
    }
}

/// The first bytes of a card: mostly not of whole records.
fn cut_to(flight: Flight, length: usize) -> Vec<u8> {
    let mut card = in_order(flight.records);
    card.truncate(length);
    card
}

/// A header of a bad kind or option, also with bad settings.
fn bad_first(mut flight: Flight, shape: u64) -> Vec<u8> {
    let random = &mut flight.random;
    match shape {
        4 => flight.records[0][0] = random.pick(&[1, 2, 3, 4]),
        5 => flight.records[0][0] = random.pick(&[0, 7, 8, 255]),
        6 => {
            flight.records[0][1] = random.pick(&[1, 2, 11, 255]);
            flight.records[0][4..8].copy_from_slice(&f32::NAN.to_le_bytes());
        }
        7 => {
            flight.records[0][0] = random.pick(&[0, 4, 7]);
            flight.records[0][4..8].copy_from_slice(&f32::NAN.to_le_bytes());
        }
        // Setting 2, and a link past the card.
        _ => {
            flight.records[0][8..12].copy_from_slice(&f32::NAN.to_le_bytes());
            let mut card = in_order(flight.records);
            card[2..4].copy_from_slice(&[255, 255]);
            return card;
        }
    }
    in_order(flight.records)
}

/// A record after the header with a bad kind, or with an option that its kind does not have.
fn bad_kind_or_option(mut flight: Flight, shape: u64) -> Vec<u8> {
    let random = &mut flight.random;
    let (kind, option) = match shape {
        9 => (0, random.pick(&[0, 1, 11])),
        10 => (random.pick(&[5, 6]), 0),
        11 => (random.pick(&[7, 8, 128, 255]), 0),
        12 => (1, random.pick(&[1, 2, 255])),
        13 => (2, 4),
        14 => (2, random.pick(&[5, 6, 7, 255])),
        15 => (3, 10),
        16 => (3, 17),
        17 => (3, 0),
        18 => (4, random.pick(&[1, 2, 255])),
        _ => (3, random.pick(&[1, 2, 9, 18, 255])),
    };
    let at = 1 + random.below(flight.records.len() - 1);
    flight.records[at][..2].copy_from_slice(&[kind, option]);
    match random.below(2) {
        0 => in_order(flight.records),
        _ => scattered(random, &flight.records, 2),
    }
}

/// A chain with a link that leads nowhere, or back.
fn bad_link(mut flight: Flight, shape: u64) -> Vec<u8> {
    let count = flight.records.len();
    let at = 1 + flight.random.below(count - 1);
    let (at, next) = match shape {
        19 => (at, count),
        20 => (at, flight.random.pick(&[801, 1000, 32768, 65535])),
        21 => (at, at),
        22 => (at, 1 + flight.random.below(at)),
        23 => (0, count + flight.random.below(3)),
        24 => (count - 1, 1),
        _ => (at, count + flight.random.below(800)),
    };
    let mut card = in_order(flight.records);
    card[RECORD_BYTES * at + 2..RECORD_BYTES * at + 4].copy_from_slice(&(next as u16).to_le_bytes());
    card
}

/// A header that ends the chain, before records that nobody reaches.
fn ends_at_once(flight: Flight) -> Vec<u8> {
    let mut card = in_order(flight.records);
    card[2..4].fill(0);
    card
}

/// A flight of so many records.
fn longest(mut flight: Flight, records: usize) -> Vec<u8> {
    while flight.records.len() < records {
        flight.row();
    }
    flight.records.truncate(records);
    if records <= MOST_RECORDS && flight.random.once_in(2) {
        scattered(&mut flight.random, &flight.records, 0)
    } else {
        in_order(flight.records)
    }
}
