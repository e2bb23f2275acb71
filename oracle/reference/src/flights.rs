//! Flight cards made from a seed: flights as they would be flown, flights by the rows of document 01, section 4, clocks at their bounds,
//! numbers of every class, chains of every shape, and cards that are refused.

mod chains;
mod classes;
mod clocks;
mod each_mode;
mod fitted;
mod flight;
mod rows;
mod run_up;
mod usual;

pub use chains::{LONGEST, SHORT_SHAPES};
pub use classes::{bad_settings, ends, extreme_settings, past_ends};

use crate::card::in_order;
use crate::machine::Airframe;
use crate::random::Random;
use flight::Flight;

/// The groups of cards, one after the other.
const GROUPS: u64 = 16;
/// The headers that one field makes bad: of the tailsitter, then of the quadplane.
const BAD_HEADERS: u64 = 17 + 15;

/// Card number `index` of a seed.
pub fn card(seed: u64, index: u64) -> Vec<u8> {
    let first = Random::new(seed).draw();
    let random = Random::new(first ^ index.wrapping_mul(0xD1B5_4A32_D192_ED03));
    let (group, turn) = (index % GROUPS, index / GROUPS);
    match group {
        0 | 1 => as_flown(random, airframe_of(group)),
        2 | 3 => by_rows(random, airframe_of(group)),
        4 | 5 => at_bounds(random, airframe_of(group)),
        6 | 7 => in_each_mode(random, airframe_of(group), turn),
        8 | 9 => class_steps(random, airframe_of(group), turn),
        10 | 11 => class_settings(random, airframe_of(group), turn),
        12 | 13 => headers(random, 2 * turn + group - 12),
        _ => shapes(random, 2 * turn + group - 14),
    }
}

/// The first cards of a seed.
pub fn first(seed: u64, count: u64) -> impl Iterator<Item = Vec<u8>> {
    (0..count).map(move |index| card(seed, index))
}

fn airframe_of(group: u64) -> Airframe {
    if group.is_multiple_of(2) {
        Airframe::Tailsitter
    } else {
        Airframe::Quadplane
    }
}

/// A flight with ordinary settings.
fn new_flight(mut random: Random, airframe: Airframe) -> Flight {
    let settings = usual::settings(&mut random, airframe);
    Flight::new(random, airframe, &settings)
}

/// The flight as a card: mostly in order, else scattered.
fn finished(mut flight: Flight) -> Vec<u8> {
    match flight.random.below(6) {
        0 => {
            let unreached = flight.random.below(4);
            chains::scattered(&mut flight.random, &flight.records, unreached)
        }
        _ => in_order(flight.records),
    }
}

fn as_flown(random: Random, airframe: Airframe) -> Vec<u8> {
    let mut flight = new_flight(random, airframe);
    let steps = 12 + flight.random.below(17);
    usual::flight(&mut flight, steps);
    finished(flight)
}

fn by_rows(random: Random, airframe: Airframe) -> Vec<u8> {
    let mut flight = new_flight(random, airframe);
    let calls = 10 + flight.random.below(27);
    while flight.records.len() < calls {
        flight.row();
    }
    finished(flight)
}

fn at_bounds(random: Random, airframe: Airframe) -> Vec<u8> {
    let mut flight = new_flight(random, airframe);
    flight.prime();
    while flight.records.len() < 20 {
        flight.approach();
    }
    finished(flight)
}

/// Calls that are no steps, steps that are refused and banks at the limit, in each mode.
fn in_each_mode(random: Random, airframe: Airframe, turn: u64) -> Vec<u8> {
    let mut flight = new_flight(random, airframe);
    if flight.random.once_in(3) {
        flight.side_call();
    }
    each_mode::some(&mut flight, turn, 8);
    finished(flight)
}

fn class_steps(mut random: Random, airframe: Airframe, turn: u64) -> Vec<u8> {
    let settings = match random.below(3) {
        0 => classes::extreme_settings(&mut random, airframe),
        _ => usual::settings(&mut random, airframe),
    };
    let mut flight = Flight::new(random, airframe, &settings);
    if turn % 10 == 9 {
        classes::primes(&mut flight);
    } else {
        classes::steps(&mut flight, turn - turn / 10, 15);
    }
    finished(flight)
}

fn class_settings(random: Random, airframe: Airframe, turn: u64) -> Vec<u8> {
    let mut flight = new_flight(random, airframe);
    match airframe {
        Airframe::Tailsitter => classes::settings(&mut flight, turn, 11),
        Airframe::Quadplane if turn % 10 == 9 => classes::overflowing_shortfall(&mut flight),
        Airframe::Quadplane => classes::settings(&mut flight, turn - turn / 10, 11),
    }
    finished(flight)
}

/// Every field in turn as the first bad one of a header, then flights with extreme settings.
fn headers(mut random: Random, turn: u64) -> Vec<u8> {
    let turn = turn % (BAD_HEADERS + 8);
    match turn {
        0..17 => chains::bad_header(&mut random, Airframe::Tailsitter, turn as usize + 1),
        17..BAD_HEADERS => chains::bad_header(&mut random, Airframe::Quadplane, turn as usize - 16),
        _ => {
            let airframe = airframe_of(turn);
            let settings = classes::extreme_settings(&mut random, airframe);
            let mut flight = Flight::new(random, airframe, &settings);
            flight.prime();
            while flight.records.len() < 20 {
                flight.advance();
                flight.row();
            }
            finished(flight)
        }
    }
}

/// Every shape of a card in turn. Of the longest ones, few.
fn shapes(random: Random, turn: u64) -> Vec<u8> {
    let (shape, lap) = (turn % chains::SHAPES, turn / chains::SHAPES);
    let long = shape >= SHORT_SHAPES;
    let flight = short_flight(random, airframe_of(lap + turn / 3));
    chains::shaped(flight, if long && lap % 4 != 0 { chains::SCATTERED } else { shape })
}

/// A flight of 3 to 12 records.
fn short_flight(random: Random, airframe: Airframe) -> Flight {
    let mut flight = new_flight(random, airframe);
    let records = 3 + flight.random.below(10);
    while flight.records.len() < records {
        flight.row();
    }
    flight
}

/// A card of a shape.
pub fn shape(seed: u64, shape: u64) -> Vec<u8> {
    let random = Random::new(seed.wrapping_mul(chains::SHAPES) + shape);
    chains::shaped(short_flight(random, airframe_of(shape)), shape)
}
