//! The list of calls of the joined machine: the records of cards in the order of their chains, each with its answer.

use crate::calls::line_words;
use crate::card::{RECORD_BYTES, Record, check, header_airframe, record, refused};
use crate::flights;
use crate::joined::Joined;
use crate::machine::Refusal;
use crate::named;

/// One line for each record. A header makes a new machine; one that is refused leaves the one before.
pub fn answers(list: &[u8]) -> String {
    let mut kept = None;
    let mut text = String::new();
    for bytes in list.chunks_exact(RECORD_BYTES) {
        text.push_str(&line(&mut kept, &Record(bytes)));
        text.push('\n');
    }
    text
}

fn line(kept: &mut Option<Joined>, r: &Record) -> String {
    let Some(airframe) = header_airframe(r) else {
        let joined = kept.as_mut().expect("a good header first");
        return joined.call(&r.call()).map_or_else(refused, |line| line_words(&line));
    };
    match Joined::new(airframe, &r.settings()) {
        Ok(joined) => {
            *kept = Some(joined);
            "new".to_string()
        }
        Err(refusal) => refused(refusal),
    }
}

/// The records of the cards with a name and of the first cards of a seed.
pub fn make(seed: u64, count: u64) -> Vec<u8> {
    let named = named::all().into_iter().map(|named| named.card);
    named.chain(flights::first(seed, count)).flat_map(|card| in_chain(&card)).collect()
}

/// A good card's records in the order of its chain; of a card that its settings refuse the header; of another nothing.
fn in_chain(card: &[u8]) -> Vec<u8> {
    let places = match check(card, &mut vec![0; card.len()]) {
        Ok(checked) => [&[0], &checked.chain[..]].concat(),
        Err(Refusal::Setting(_)) => vec![0],
        Err(_) => Vec::new(),
    };
    places.into_iter().flat_map(|place| record(card, place).0.to_vec()).collect()
}
