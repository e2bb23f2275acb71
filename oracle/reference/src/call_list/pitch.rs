//! Kinds 40 to 45: the split, the forward transition's pitch and the hold.

use super::{List, UNIT_EDGES, around, betweens, places};
use crate::random::{Random, SMALLEST};
use std::f32::consts::FRAC_PI_2;

pub fn add_split(list: &mut List) {
    first_split(list);
    new_splits(list);
    split_classes(list);
    tangents(list);
    pitches(list);
    thrusts(list);
    pitch_limits(list);
    forward_pitches(list);
}

fn new(list: &mut List, gain: f32, limit_rad: f32) {
    list.add(40, 0, &[gain, limit_rad]);
}

fn split(list: &mut List, pitch_rad: f32, tangent: f32) {
    list.add(41, 0, &[pitch_rad, tangent]);
}

/// The split that the list begins with: gain 0, limit 0, the tangent never used.
fn first_split(list: &mut List) {
    for pitch_rad in [-0.5, 0.5, 0.0, -0.0, f32::NAN] {
        split(list, pitch_rad, 0.25);
        split(list, pitch_rad, f32::NAN);
    }
}

/// Good and bad settings, each followed by a split: a bad one leaves the one before.
fn new_splits(list: &mut List) {
    list.sweep(40, 0, |random| vec![random.between(0.1, 2.0), random.between(0.0, 1.5)]);
    for gain in [
        0.0,
        -0.0,
        SMALLEST,
        -SMALLEST,
        1.0,
        f32::MAX,
        f32::INFINITY,
        f32::NEG_INFINITY,
        f32::NAN,
        -1.0,
    ] {
        new(list, gain, 0.05);
        split(list, -0.5, 0.5);
    }
    for limit_rad in around(FRAC_PI_2)
        .into_iter()
        .chain([0.0, -0.0, SMALLEST, -SMALLEST, f32::NAN, f32::INFINITY, -1.0])
    {
        new(list, 0.5, limit_rad);
        split(list, -2.0, 0.5);
        split(list, -0.0, 0.5);
    }
}

fn split_classes(list: &mut List) {
    new(list, 0.75, 0.25);
    list.sweep(41, 0, |random| vec![random.between(-1.0, 0.5), random.between(0.0, 1.0)]);
    new(list, 0.0, 0.25);
    list.classes_everywhere(41, 0, 2);
}

/// Tangents at both ends of 0 to 1, used and unused.
fn tangents(list: &mut List) {
    let not_finite = [f32::NAN, f32::INFINITY, f32::NEG_INFINITY];
    new(list, 0.5, 0.25);
    for tangent in UNIT_EDGES.into_iter().chain(not_finite).chain(around(1.0)) {
        split(list, -0.125, tangent);
        split(list, f32::NAN, tangent);
    }
    new(list, -0.0, 0.25);
    for tangent in [-1.0, 2.0, f32::NAN] {
        split(list, -0.125, tangent);
    }
    new(list, 0.5, 0.25);
    for tangent in [f32::NAN, 2.0, -1.0] {
        split(list, 0.5, tangent);
        split(list, f32::INFINITY, tangent);
        split(list, -0.0, tangent);
    }
}

/// Pitches at the limit and beside it, and zeros.
fn pitches(list: &mut List) {
    for limit_rad in [0.25, 0.0, -0.0, SMALLEST, 1.1, FRAC_PI_2.next_down()] {
        new(list, 0.5, limit_rad);
        let few = [0.0, -0.0, 0.5, -1.5, -2.0, f32::INFINITY, f32::NEG_INFINITY];
        for pitch_rad in around(-limit_rad).into_iter().chain(few) {
            split(list, pitch_rad, 0.375);
        }
    }
}

/// gain · tangent at 1 and beside it, and random.
fn thrusts(list: &mut List) {
    for gain in [1.0, 2.0, 4.0, f32::MAX, 1.0f32.next_up(), 1.0f32.next_down(), SMALLEST] {
        new(list, gain, 0.1);
        for tangent in around(1.0 / gain).into_iter().chain([1.0, 0.5, 0.0]) {
            split(list, -0.5, tangent);
        }
    }
    for _ in 0..12 {
        let (gain, limit_rad) = (list.random.between(0.1, 3.0), list.random.between(0.0, 0.5));
        new(list, gain, limit_rad);
        for _ in 0..2 {
            let (pitch_rad, tangent) = (list.random.between(-0.7, 0.2), list.random.between(0.0, 0.9));
            split(list, pitch_rad, tangent);
        }
    }
}

fn pitch_limits(list: &mut List) {
    list.sweep(42, 0, |random| {
        let share = random.pick(&[0.5, 1.0, 1.0]);
        vec![
            random.between(0.01, 0.2),
            share,
            random.between(-5.0, 5.0),
            random.between(-5.0, 5.0),
        ]
    });
    let before = 3.0f32.next_down();
    let velocities = [
        [3.0, 0.0],
        [before, 0.0],
        [0.0, -3.0],
        [0.0, 3.0f32.next_up()],
        [1e30, 0.0],
        [f32::NAN, 5.0],
        [0.0, -0.0],
    ];
    let shares = [0.0, f32::NAN, -1.0, f32::INFINITY, 2.0];
    for share in around(1.0).into_iter().chain(shares) {
        for velocity in velocities {
            let max_rad = list.random.between(0.01, 0.5);
            list.add(42, 0, &[max_rad, share, velocity[0], velocity[1]]);
        }
    }
    pitch_limits_near_nine(list);
    for max_rad in [0.0, -0.0, -0.05, f32::MAX, 1.7e38, SMALLEST, f32::NAN] {
        list.add(42, 0, &[max_rad, 0.5, 0.0, 0.0]);
        list.add(42, 0, &[max_rad, 1.0, 3.0, 4.0]);
    }
}

/// Sums of two squares near 9.
fn pitch_limits_near_nine(list: &mut List) {
    let before = 3.0f32.next_down();
    list.many(30, 42, |random| {
        let x = random.between(0.5, 2.9);
        let y = random.near(nalgebra::root(9.0 - x * x));
        vec![random.between(0.01, 0.5), 1.0, x, -y]
    });
    for (x, y) in [
        (3.0, 1e-4),
        (before, 1e-4),
        (before, 0.00085),
        (before, 0.0015),
        (before, 0.0012),
        (before, 2e-20),
    ] {
        list.add(42, 0, &[0.25, 1.0, x, y]);
    }
}

fn forward_pitches(list: &mut List) {
    for option in [0, 1, 2, 4, 5] {
        let count = if option == 5 { 9 } else { 5 };
        list.classes_everywhere(43, option, count);
        for _ in 0..2 {
            let mut numbers = betweens(&mut list.random, count, -0.5, 0.5);
            numbers[0] = 1.0;
            list.add(43, option, &numbers);
        }
    }
    list.sweep(43, 3, |random| {
        let mut numbers = betweens(random, 4, -1.0, 1.0);
        numbers[0] = random.between(0.1, 0.6);
        numbers
    });
    for limit_rad in [0.05, 0.0, -0.0, f32::NAN, -SMALLEST] {
        let values = [
            around(limit_rad),
            around(-limit_rad),
            [0.0, -0.0, f32::NAN],
            [0.5, -0.5, f32::NEG_INFINITY],
        ];
        for pitch_rad in values.concat() {
            list.add(43, 3, &[limit_rad, 0.7, pitch_rad, 0.3]);
        }
    }
}

const WAYPOINT: u8 = 2;
const FALLEN_BACK: u8 = 8;
const VELOCITY: u8 = 16;
const HEADING: u8 = 32;
const OTHERS: [u8; 5] = [0, 1, 3, 4, 5];

pub fn add_hold(list: &mut List) {
    hold_classes(list);
    held_positions(list);
    hold_sequence(list);
    new_holds(list);
    random_holds(list);
}

/// A call with random numbers.
fn input(list: &mut List, option: u8) {
    let numbers = betweens(&mut list.random, 10, -99.0, 99.0);
    list.add(45, option, &numbers);
}

/// Each class in each number of each input, passed on.
fn hold_classes(list: &mut List) {
    for option in OTHERS {
        let fallen_back = list.random.pick(&[0, FALLEN_BACK]);
        list.classes_everywhere(45, option + fallen_back, if option == 4 { 5 } else { 7 });
    }
    list.classes_everywhere(45, WAYPOINT + VELOCITY + HEADING, 10);
    for option in [WAYPOINT, WAYPOINT + VELOCITY, WAYPOINT + HEADING] {
        input(list, option);
        input(list, option);
    }
}

/// Points of each class, held: the first call latches, the second one shows the same.
fn held_positions(list: &mut List) {
    for (place, class, turn) in places(3, 2) {
        let (forget, option) = [(WAYPOINT, WAYPOINT + VELOCITY + HEADING), (OTHERS[1], WAYPOINT)][turn];
        let mut numbers = betweens(&mut list.random, 10, -99.0, 99.0);
        numbers[place] = list.random.of_class(class);
        input(list, forget);
        list.add(45, FALLEN_BACK + option, &numbers);
        if turn == 0 {
            input(list, FALLEN_BACK + WAYPOINT + HEADING);
        }
    }
}

/// The hold begins at the first waypoint, stays over other waypoints and inputs, and is forgotten when not fallen back.
fn hold_sequence(list: &mut List) {
    for forget in [0, 1, WAYPOINT, 3, 4, 5] {
        input(list, forget);
        for other in OTHERS {
            let more = list.random.pick(&[0, VELOCITY, HEADING, VELOCITY + HEADING]);
            input(list, FALLEN_BACK + WAYPOINT + more);
            input(list, FALLEN_BACK + other);
        }
        input(list, FALLEN_BACK + WAYPOINT);
        input(list, forget);
        input(list, FALLEN_BACK + WAYPOINT + VELOCITY);
        input(list, FALLEN_BACK + WAYPOINT);
    }
}

fn new_holds(list: &mut List) {
    for _ in 0..3 {
        input(list, FALLEN_BACK + WAYPOINT);
        list.add(44, 0, &[]);
        input(list, FALLEN_BACK + WAYPOINT);
        input(list, FALLEN_BACK + WAYPOINT);
    }
}

fn random_holds(list: &mut List) {
    for _ in 0..30 {
        let option = random_option(&mut list.random);
        input(list, option);
    }
}

fn random_option(random: &mut Random) -> u8 {
    let fallen_back = if random.once_in(4) { 0 } else { FALLEN_BACK };
    if random.once_in(3) {
        fallen_back + random.pick(&OTHERS)
    } else {
        fallen_back + WAYPOINT + random.pick(&[0, VELOCITY, HEADING, VELOCITY + HEADING])
    }
}
