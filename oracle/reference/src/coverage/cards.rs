//! Items of whole cards: refusals, lengths, kinds and options, shapes of chains.

use super::{Counts, Item, airframe_word, numbers};
use crate::card::{self, MOST_RECORDS, RECORD_BYTES, Record};
use crate::machine::{AIRFRAMES, Airframe, Refusal};
use crate::settings::{bad_field, fields};

pub fn name(counts: &mut Counts) {
    counts.name_all("card refused 6", &lengths(&[]));
    counts.name_all("card refused 10", &headers(&[0; RECORD_BYTES]));
    for airframe in AIRFRAMES {
        for field in 1..=fields(airframe) {
            counts.name(refused_field(airframe, field as u8));
        }
    }
    counts.name_all("card", &links(&[0; RECORD_BYTES], &Walk::default(), None));
    counts.name_all("card refused 10", &kinds(None));
    counts.name_all("chain", &shapes(&Walk::default(), 1));
}

fn refused_field(airframe: Airframe, field: u8) -> String {
    format!("card refused 3: {} field {field}", airframe_word(airframe))
}

pub fn count(counts: &mut Counts, bytes: &[u8]) {
    let answer = card::check(bytes, &mut [0; MOST_RECORDS]);
    if matches!(answer, Err(Refusal::Number(6))) {
        return counts.reach_all("card refused 6", &lengths(bytes));
    }
    let header = Record(&bytes[..RECORD_BYTES]);
    let walk = walk(bytes);
    counts.reach_all("card", &links(bytes, &walk, answer.as_ref().err().copied()));
    match (header.kind(), answer) {
        (5, Err(Refusal::Setting(field))) => count_header(counts, Airframe::Tailsitter, &header, field),
        (_, Err(Refusal::Setting(field))) => count_header(counts, Airframe::Quadplane, &header, field),
        (_, Err(Refusal::Number(10))) if bad_header(bytes) => counts.reach_all("card refused 10", &headers(bytes)),
        (_, Err(Refusal::Number(10))) => counts.reach_all("card refused 10", &kinds(walk.last(bytes))),
        (_, Err(_)) => {}
        (_, Ok(_)) => counts.reach_all("chain", &shapes(&walk, bytes.len() / RECORD_BYTES)),
    }
}

fn count_header(counts: &mut Counts, airframe: Airframe, header: &Record, field: u8) {
    counts.reach(&refused_field(airframe, field));
    numbers::count_settings(counts, airframe, &header.settings(), field);
}

fn lengths(bytes: &[u8]) -> Vec<Item> {
    let (length, most) = (bytes.len(), RECORD_BYTES * MOST_RECORDS);
    vec![
        ("length 0", length == 0),
        ("length 79", length == 79),
        ("length 81", length == 81),
        ("801 records", length == most + RECORD_BYTES),
        ("some other length", length > 81 && length < most),
    ]
}

fn bad_header(bytes: &[u8]) -> bool {
    !matches!(bytes[..2], [5 | 6, 0])
}

fn headers(bytes: &[u8]) -> Vec<Item> {
    let (kind, option) = (bytes[0], bytes[1]);
    let header = Record(&bytes[..RECORD_BYTES]);
    let settings = AIRFRAMES.iter().all(|airframe| bad_field(*airframe, &header.settings()) != 0);
    vec![
        ("header kind", !matches!(kind, 5 | 6)),
        ("header kind of another record", (1..5).contains(&kind)),
        ("header option, with bad settings", matches!(kind, 5 | 6) && option != 0 && settings),
        ("header kind, with bad settings", !matches!(kind, 5 | 6) && settings),
    ]
}

/// A record reached whose kind or option is bad.
fn kinds(record: Option<Record>) -> Vec<Item> {
    let (kind, option) = record.map_or((255, 255), |record| (record.kind(), record.option()));
    let here = record.is_some();
    vec![
        ("record kind 0", here && kind == 0),
        ("record kind of a header", here && matches!(kind, 5 | 6)),
        ("record kind above 6", here && kind > 6),
        ("prime option", here && kind == 1 && option != 0),
        ("step option 4", here && kind == 2 && option == 4),
        ("step option above 4", here && kind == 2 && option > 4),
        ("cut option 10", here && kind == 3 && option == 10),
        ("cut option 17", here && kind == 3 && option == 17),
        ("cut option 0", here && kind == 3 && option == 0),
        ("settings option", here && kind == 4 && option != 0),
    ]
}

/// The records after the header that the links lead over, as far as they are good, and the link after them.
#[derive(Default)]
struct Walk {
    passed: Vec<usize>,
    next: usize,
}

impl Walk {
    /// The record at the link after the last one passed.
    fn last<'a>(&self, bytes: &'a [u8]) -> Option<Record<'a>> {
        bytes.chunks(RECORD_BYTES).nth(self.next).map(Record)
    }
}

/// Follows the links until one ends the chain, leads past the card or back, or leads to a record of a bad kind or option.
fn walk(bytes: &[u8]) -> Walk {
    let records = bytes.len() / RECORD_BYTES;
    let mut met = vec![false; records];
    let (mut passed, mut next) = (Vec::new(), card::record(bytes, 0).next());
    while next != 0 && next < records && !met[next] && card::record(bytes, next).known() {
        met[next] = true;
        passed.push(next);
        next = card::record(bytes, next).next();
    }
    Walk { passed, next }
}

fn links(bytes: &[u8], walk: &Walk, refusal: Option<Refusal>) -> Vec<Item> {
    let records = bytes.len() / RECORD_BYTES;
    let (past, back) = (refusal == Some(Refusal::Number(8)), refusal == Some(Refusal::Number(9)));
    let from = walk.passed.last();
    let chain_bad = walk.next >= records || walk.passed.contains(&walk.next);
    vec![
        ("accepted", refusal.is_none()),
        (
            "refused 3 before a bad chain",
            matches!(refusal, Some(Refusal::Setting(_))) && chain_bad,
        ),
        ("refused 8", past),
        ("refused 8: link exactly the record count", past && walk.next == records),
        ("refused 8: link far past the card", past && walk.next > MOST_RECORDS),
        ("refused 8: the header's own link", past && from.is_none()),
        ("refused 9", back),
        ("refused 9: a record that leads to itself", back && from == Some(&walk.next)),
        ("refused 9: back to an earlier record", back && from != Some(&walk.next)),
        (
            "refused 9: back to the first record",
            back && walk.passed.first() == Some(&walk.next) && walk.passed.len() > 1,
        ),
        ("refused 10", refusal == Some(Refusal::Number(10))),
    ]
}

/// The chain of a good card.
fn shapes(walk: &Walk, records: usize) -> Vec<Item> {
    let chain = &walk.passed;
    let rising = chain.is_sorted();
    let walked = chain.len();
    vec![
        ("in order", walked > 1 && rising && walked + 1 == records),
        ("in order, skips records", walked > 1 && rising && walked + 1 < records),
        ("jumps back", !rising && walked + 1 == records),
        ("jumps back, skips records", !rising && walked + 1 < records),
        ("ends at once, records unreached", walked == 0 && records > 1),
        ("header alone", walked == 0 && records == 1),
        ("799 records walked", walked == MOST_RECORDS - 1),
    ]
}
