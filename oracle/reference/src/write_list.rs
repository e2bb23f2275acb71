//! Lists of calls for the writer, from a seed: of every length, with numbers of every sort, and with too many calls, too few bytes or a
//! bad header.

use crate::card::{MOST_RECORDS, RECORD_BYTES, RecordBytes, header_kind, record_bytes};
use crate::flights::{bad_settings, extreme_settings};
use crate::machine::{AIRFRAMES, Airframe};
use crate::random::Random;
use crate::settings::{Settings, fields};
use crate::write::{GIVEN, ROOM, answer, hold_to_its_list, taken};

/// The groups of lists, one after the other.
const GROUPS: u64 = 20;
/// More calls than a card has.
const TOO_MANY: [usize; 6] = [800, 801, 1000, 65_535, 65_536, u32::MAX as usize];

/// How many bytes are lent, against what the card needs.
#[derive(Clone, Copy)]
enum Lent {
    More,
    Exactly,
    OneShort,
    Short,
    None,
}

const LENT: [Lent; 5] = [Lent::Exactly, Lent::More, Lent::OneShort, Lent::Short, Lent::None];
const ENOUGH: [Lent; 2] = [Lent::Exactly, Lent::More];
const TOO_FEW: [Lent; 3] = [Lent::OneShort, Lent::Short, Lent::None];

/// What a list is made of: how many calls it has, how many of them are given, the bytes lent, and whether its header is bad.
struct Plan {
    count: usize,
    given: usize,
    lent: Lent,
    bad: bool,
}

/// List number `index` of a seed; if it is written, its card is held to it.
pub fn list(seed: u64, index: u64) -> Vec<u8> {
    let first = Random::new(seed).draw();
    let mut random = Random::new(first ^ index.wrapping_mul(0xD1B5_4A32_D192_ED03));
    let plan = plan(&mut random, index % GROUPS, index / GROUPS);
    let airframe = random.pick(&AIRFRAMES);
    let field = 1 + random.below(fields(airframe));
    let bytes = bytes(&mut random, &plan, airframe, field);
    let list = taken(&mut &bytes[..]);
    let (wrote, lent) = answer(&list);
    if let Ok(length) = wrote {
        hold_to_its_list(&list, &lent[..length]);
    }
    bytes
}

/// A list for each field of either airframe as the first bad one, then the first lists of a seed.
pub fn make(seed: u64, count: u64) -> Vec<u8> {
    let mut random = Random::new(seed);
    let plan = Plan {
        count: 1,
        given: 1,
        lent: Lent::Exactly,
        bad: true,
    };
    let mut lists = Vec::new();
    for airframe in AIRFRAMES {
        for field in 1..=fields(airframe) {
            lists.extend(bytes(&mut random, &plan, airframe, field));
        }
    }
    lists.extend((0..count).flat_map(|index| list(seed, index)));
    lists
}

fn plan(random: &mut Random, group: u64, turn: u64) -> Plan {
    let in_turn = |from: &[Lent]| from[turn as usize % from.len()];
    let few = 1 + random.below(6);
    let all = |count, lent, bad| Plan {
        count,
        given: count,
        lent,
        bad,
    };
    match group {
        0 => all(0, in_turn(&LENT), turn % 4 == 3),
        // A bad header, with bytes enough and without.
        1 | 2 => all(few, in_turn(&ENOUGH), true),
        3 => all(few, in_turn(&TOO_FEW), true),
        4 | 5 => all(few, in_turn(&TOO_FEW), false),
        // More calls are given than the list has.
        6 => Plan {
            given: few + random.below(5),
            ..all(few, in_turn(&LENT), false)
        },
        7 => all(10 + random.below(60), in_turn(&ENOUGH), false),
        8 => Plan {
            given: few,
            ..all(100 + random.below(690), in_turn(&LENT), turn % 4 == 3)
        },
        9 => Plan {
            given: if turn.is_multiple_of(4) { GIVEN } else { few },
            ..all(GIVEN, in_turn(&LENT), false)
        },
        10 | 11 => Plan {
            given: if turn % 8 == 7 { GIVEN } else { few },
            lent: random.pick(&LENT),
            count: if group == 10 { TOO_MANY[0] } else { random.pick(&TOO_MANY) },
            bad: random.once_in(2),
        },
        _ => all(few, random.pick(&ENOUGH), false),
    }
}

/// A list's bytes; if its header is bad, this field is the first that is.
fn bytes(random: &mut Random, plan: &Plan, airframe: Airframe, field: usize) -> Vec<u8> {
    let need = (plan.count.min(MOST_RECORDS) + 1) * RECORD_BYTES;
    let room = match plan.lent {
        Lent::More => need + 1 + random.below(200),
        Lent::Exactly => need,
        Lent::OneShort => need - 1,
        Lent::Short => random.below(need),
        Lent::None => 0,
    };
    let mut settings = match plan.bad {
        true => bad_settings(random, airframe, field),
        false => extreme_settings(random, airframe),
    };
    settings[fields(airframe)..].fill_with(|| number(random));
    let numbers = [plan.count, room.min(ROOM), plan.given].map(|n| (n as u32).to_le_bytes());
    let option = random.draw() as u8;
    let mut list = [numbers.as_flattened(), &record(random, header_kind(airframe), option, &settings)].concat();
    for _ in 0..plan.given {
        list.extend(call(random, airframe));
    }
    list
}

/// A record with these numbers from number 1 on. What is not looked at is of any sort.
fn record(random: &mut Random, kind: u8, option: u8, numbers: &[f32]) -> RecordBytes {
    let mut all: [f32; 19] = std::array::from_fn(|_| number(random));
    all[..numbers.len()].copy_from_slice(numbers);
    let mut bytes = record_bytes(kind, option, &all);
    bytes[2..4].fill_with(|| random.draw() as u8);
    bytes
}

fn call(random: &mut Random, airframe: Airframe) -> RecordBytes {
    let kind = random.pick(&[1, 2, 2, 2, 2, 2, 3, 3, 4, 4]);
    let option = match kind {
        2 => random.below(4),
        3 => 11 + random.below(6),
        _ => 0,
    };
    let numbers: Vec<f32> = if kind == 4 {
        new_settings(random, airframe).to_vec()
    } else {
        Vec::new()
    };
    record(random, kind, option as u8, &numbers)
}

/// The settings of a call: good ones, bad ones, or of any sort.
fn new_settings(random: &mut Random, airframe: Airframe) -> Settings {
    match random.below(3) {
        0 => extreme_settings(random, airframe),
        1 => {
            let field = 1 + random.below(fields(airframe));
            bad_settings(random, airframe, field)
        }
        _ => std::array::from_fn(|_| number(random)),
    }
}

/// A number of any sort.
fn number(random: &mut Random) -> f32 {
    let any = random.draw() as u32;
    match random.below(8) {
        // NaNs of any bits, and subnormal numbers.
        0 => f32::from_bits(any | 0x7F80_0001),
        1 => f32::from_bits(any & 0x807F_FFFF),
        2 => random.edge(),
        3 => random.pick(&[0.0, -0.0, f32::INFINITY, f32::NEG_INFINITY]),
        4 => random.between(-20.0, 20.0),
        _ => f32::from_bits(any),
    }
}
