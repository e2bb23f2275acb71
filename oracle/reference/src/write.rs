//! The writer of cards (document 02, 2.1; the card is document 01's, section 7), and its answers to lists of calls.

use crate::card::{MOST_RECORDS, RECORD_BYTES, Record, bits, header_kind, record, refused};
use crate::card::{calls as calls_of, check as checked};
use crate::joined::Call;
use crate::machine::{Airframe, Refusal, Step, check_settings};
use crate::settings::{Settings, fields};

/// What the lent bytes hold before.
const LENT: u8 = 165;
/// How many calls an array of the Rattle's holds.
pub const GIVEN: usize = MOST_RECORDS - 1;
/// The most bytes that are lent.
pub const ROOM: usize = 65_536;

/// Settings and a list of calls, and how many bytes are lent for their card.
pub struct List {
    pub airframe: Airframe,
    pub settings: Settings,
    pub calls: Vec<Call>,
    pub room: usize,
}

/// Writes the card of a list to the start of the lent bytes, and answers how many bytes it has.
pub fn write(list: &List, lent: &mut [u8]) -> Result<usize, Refusal> {
    let records = list.calls.len() + 1;
    if records > MOST_RECORDS {
        return Err(Refusal::Number(21));
    }
    let Some(card) = lent.get_mut(..records * RECORD_BYTES) else {
        return Err(Refusal::Number(22));
    };
    check_settings(list.airframe, &list.settings)?;
    let (header, after) = card.split_at_mut(RECORD_BYTES);
    let first = usize::from(!list.calls.is_empty());
    put(header, header_kind(list.airframe), 0, first, &used(list.airframe, &list.settings));
    for (i, (call, bytes)) in list.calls.iter().zip(after.chunks_exact_mut(RECORD_BYTES)).enumerate() {
        let next = if i + 2 == records { 0 } else { i + 2 };
        put_call(bytes, list.airframe, call, next);
    }
    Ok(card.len())
}

/// A record. Numbers that are not named here are 0.
fn put(bytes: &mut [u8], kind: u8, option: u8, next: usize, numbers: &[(usize, f32)]) {
    bytes.fill(0);
    bytes[0] = kind;
    bytes[1] = option;
    bytes[2] = (next & 0xFF) as u8;
    bytes[3] = (next >> 8) as u8;
    for (place, x) in numbers {
        bytes[4 * place..4 * place + 4].copy_from_slice(&bits(*x).to_le_bytes());
    }
}

fn put_call(bytes: &mut [u8], airframe: Airframe, call: &Call, next: usize) {
    match call {
        Call::Prime(z_m) => put(bytes, 1, 0, next, &[(2, *z_m)]),
        Call::Step(step) => put(bytes, 2, step.option(), next, &step_numbers(step)),
        Call::Cut(reason) => put(bytes, 3, *reason, next, &[]),
        Call::Settings(settings) => put(bytes, 4, 0, next, &used(airframe, settings)),
    }
}

/// "A step uses 12 only with an airspeed, 13 to 15 always."
fn step_numbers(step: &Step) -> Vec<(usize, f32)> {
    let numbers = (1..).zip(step.numbers);
    numbers.filter(|(place, _)| *place != 12 || step.airspeed_present).collect()
}

/// The settings that an airframe has, each with its place.
fn used(airframe: Airframe, settings: &Settings) -> Vec<(usize, f32)> {
    (1..=fields(airframe)).map(|field| (field, settings[field - 1])).collect()
}

/// Reads a written card by the check and the reader of cards, and holds it to its list; then writes what was read.
pub fn hold_to_its_list(list: &List, card: &[u8]) {
    let found = checked(card, &mut [0; MOST_RECORDS]).unwrap_or_else(|refusal| panic!("a written card is {}", refused(refusal)));
    assert!(found.airframe == list.airframe, "another airframe was read");
    assert!(
        found.chain.iter().copied().eq(1..=list.calls.len()),
        "the chain is {:?}",
        found.chain
    );
    let settings = record(card, 0).settings();
    assert_eq!(
        words(list.airframe, &Call::Settings(settings)),
        words(list.airframe, &Call::Settings(list.settings))
    );
    let calls: Vec<Call> = calls_of(card, &found.chain).into_iter().map(|(_, call)| call).collect();
    for (i, (read, given)) in calls.iter().zip(&list.calls).enumerate() {
        assert_eq!(words(list.airframe, read), words(list.airframe, given), "call {i}");
    }
    let (airframe, room) = (list.airframe, card.len());
    let read = List {
        airframe,
        settings,
        calls,
        room,
    };
    let (wrote, again) = answer(&read);
    assert_eq!(wrote, Ok(room), "what was read is not written");
    assert!(again == card, "what was read gives other bytes");
}

/// A call for comparing, a NaN as a NaN: the kind, and what an airframe uses of it.
fn words(airframe: Airframe, call: &Call) -> Vec<u32> {
    let numbers = |kind: u32, numbers: &[f32]| [&[kind], &numbers.iter().map(|x| bits(*x)).collect::<Vec<u32>>()[..]].concat();
    match call {
        Call::Prime(z_m) => numbers(1, &[*z_m]),
        Call::Step(step) if step.airspeed_present => numbers(2 + u32::from(step.option()) * 256, &step.numbers),
        Call::Step(step) => numbers(
            2 + u32::from(step.option()) * 256,
            &[&step.numbers[..11], &step.numbers[12..]].concat(),
        ),
        Call::Cut(reason) => vec![3, u32::from(*reason)],
        Call::Settings(settings) => numbers(4, &settings[..fields(airframe)]),
    }
}

/// What the writer answers, and the lent bytes after it.
pub fn answer(list: &List) -> (Result<usize, Refusal>, Vec<u8>) {
    let mut lent = vec![LENT; list.room];
    let wrote = write(list, &mut lent);
    (wrote, lent)
}

/// For each list a line, "wrote" and how many bytes or "refused", the number and after 3 the field; then all of the lent bytes.
pub fn answers(mut lists: &[u8]) -> Vec<u8> {
    let mut text = Vec::new();
    while !lists.is_empty() {
        let (wrote, lent) = answer(&taken(&mut lists));
        let line = match wrote {
            Ok(length) => format!("wrote {length}\n"),
            Err(refusal) => format!("{}\n", refused(refusal)),
        };
        text.extend(line.as_bytes());
        text.extend(lent);
    }
    text
}

/// The first list, taken off. Before it stand three little-endian u32s: how many calls it has, how many bytes are lent, how many calls are
/// given. Then its header and the given calls, each as a record of a card. A call that it has and that is not given is a prime at 0.
pub fn taken(lists: &mut &[u8]) -> List {
    let [count, room, given] = [(); 3].map(|()| u32::from_le_bytes(first(lists, 4).try_into().unwrap()) as usize);
    let header = Record(first(lists, RECORD_BYTES));
    let given: Vec<Call> = (0..given).map(|_| Record(first(lists, RECORD_BYTES)).call()).collect();
    let calls = given.into_iter().chain(std::iter::repeat(Call::Prime(0.0)));
    List {
        airframe: if header.kind() == 5 {
            Airframe::Tailsitter
        } else {
            Airframe::Quadplane
        },
        settings: header.settings(),
        // One more than the most stands for any longer list.
        calls: calls.take(count.min(MOST_RECORDS)).collect(),
        room,
    }
}

fn first<'a>(lists: &mut &'a [u8], count: usize) -> &'a [u8] {
    let (first, rest) = lists.split_at(count);
    *lists = rest;
    first
}

#[cfg(test)]
mod tests {
    use super::{List, answer, write};
    use crate::card::{MOST_RECORDS, calls, check, record};
    use crate::joined::Call;
    use crate::machine::{Airframe, Refusal};
    use crate::named;
    use crate::settings::{EXAMPLE, changed};

    #[test]
    fn the_example_of_section_7_is_written() {
        let card = named::all().swap_remove(0).card;
        let chain = check(&card, &mut [0; MOST_RECORDS]).unwrap().chain;
        let list = List {
            airframe: Airframe::Quadplane,
            settings: record(&card, 0).settings(),
            calls: calls(&card, &chain).into_iter().map(|(_, call)| call).collect(),
            room: card.len(),
        };
        assert_eq!(answer(&list), (Ok(card.len()), card));
    }

    #[test]
    fn refusals_come_in_their_order() {
        let list = |count, settings| List {
            airframe: Airframe::Quadplane,
            settings,
            calls: vec![Call::Prime(f32::NAN); count],
            room: 0,
        };
        let bad = changed(&EXAMPLE, &[(2, 0.0)]);
        assert_eq!(write(&list(800, bad), &mut []), Err(Refusal::Number(21)));
        assert_eq!(write(&list(799, bad), &mut [0; 63_999]), Err(Refusal::Number(22)));
        assert_eq!(write(&list(799, bad), &mut [0; 64_000]), Err(Refusal::Setting(2)));
        assert_eq!(write(&list(799, EXAMPLE), &mut [0; 64_000]), Ok(64_000));
        assert_eq!(write(&list(0, EXAMPLE), &mut [0; 80]), Ok(80));
    }
}
