//! Kinds 20 to 24: each field at each end of its range, and what good settings are made from.

use super::{List, around, places};
use crate::machine::Airframe;
use crate::random::{Random, SMALLEST};
use crate::settings::{Settings, defaults, fields};
use std::f32::consts::{FRAC_PI_2, PI};

/// The range of a field, as far as the list needs it: numbers without an upper end, or from 0 to an end.
#[derive(Clone, Copy, PartialEq)]
enum Range {
    Open,
    UpTo(f32),
}

const QUARTER: Range = Range::UpTo(FRAC_PI_2);
const HALF: Range = Range::UpTo(PI);
const UNIT: Range = Range::UpTo(1.0);
const OPEN: Range = Range::Open;

const TAILSITTER: [Range; 17] = [
    OPEN, QUARTER, QUARTER, OPEN, OPEN, QUARTER, OPEN, OPEN, OPEN, UNIT, UNIT, OPEN, OPEN, OPEN, HALF, UNIT, UNIT,
];
const QUADPLANE: [Range; 15] = [
    OPEN, OPEN, OPEN, OPEN, OPEN, OPEN, OPEN, OPEN, OPEN, OPEN, UNIT, OPEN, QUARTER, OPEN, HALF,
];

fn ranges(airframe: Airframe) -> &'static [Range] {
    match airframe {
        Airframe::Tailsitter => &TAILSITTER,
        Airframe::Quadplane => &QUADPLANE,
    }
}

/// Settings well inside every range.
pub fn good(airframe: Airframe, random: &mut Random) -> Settings {
    let mut settings = [0.0; 17];
    for (field, range) in ranges(airframe).iter().enumerate() {
        settings[field] = match range {
            Range::Open => random.between(0.25, 20.0),
            Range::UpTo(end) => random.between(0.01, 0.99) * end,
        };
    }
    settings
}

/// Numbers at the ends of a range, within and without.
fn ends(range: Range) -> Vec<f32> {
    let mut ends = vec![
        0.0,
        -0.0,
        SMALLEST,
        -SMALLEST,
        -1.0,
        f32::MAX,
        f32::NAN,
        f32::INFINITY,
        f32::NEG_INFINITY,
    ];
    match range {
        Range::Open => ends.extend([100.0, -f32::MAX, f32::MIN_POSITIVE]),
        Range::UpTo(_) => ends.extend([around(1.0), around(FRAC_PI_2), around(PI)].concat()),
    }
    ends
}

/// A number that no field takes.
fn bad(random: &mut Random) -> f32 {
    random.pick(&[-SMALLEST, -1.0, f32::NAN, f32::INFINITY, f32::NEG_INFINITY, -f32::MAX])
}

pub fn add(list: &mut List) {
    machine_settings(list, 20, Airframe::Tailsitter);
    machine_settings(list, 21, Airframe::Quadplane);
    split_settings(list);
    for kind in [23, 24, 23, 24] {
        list.add(kind, 0, &[]);
    }
}

fn machine_settings(list: &mut List, kind: u8, airframe: Airframe) {
    let count = fields(airframe);
    for (field, range) in ranges(airframe).iter().enumerate() {
        for x in ends(*range) {
            let mut settings = defaults(airframe);
            settings[field] = x;
            list.add(kind, 0, &settings[..count]);
        }
    }
    for (field, class, _) in places(count, 1) {
        let mut settings = good(airframe, &mut list.random);
        settings[field] = list.random.of_class(class);
        list.add(kind, 0, &settings[..count]);
    }
    for turn in 0..count + 8 {
        let first = turn % count;
        let second = if turn < count {
            (first + 1) % count
        } else {
            list.random.below(count)
        };
        let mut settings = good(airframe, &mut list.random);
        settings[first] = bad(&mut list.random);
        settings[second] = bad(&mut list.random);
        list.add(kind, 0, &settings[..count]);
    }
    for _ in 0..6 {
        let settings = good(airframe, &mut list.random);
        list.add(kind, 0, &settings[..count]);
    }
}

fn split_settings(list: &mut List) {
    for x in ends(OPEN) {
        list.add(22, 0, &[x, 0.25]);
    }
    for x in ends(QUARTER) {
        list.add(22, 0, &[0.5, x]);
    }
    list.sweep(22, 0, |random| vec![random.between(0.0, 3.0), random.between(0.0, 1.5)]);
    for _ in 0..6 {
        let (first, second) = (bad(&mut list.random), bad(&mut list.random));
        list.add(22, 0, &[first, second]);
    }
}
