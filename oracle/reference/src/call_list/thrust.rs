//! Kinds 30 to 35: the handoff, the sink guard and the deceleration.

use super::{BAD_DT, List, around, betweens, places};
use crate::random::{Random, SMALLEST};

pub fn add_handoff(list: &mut List) {
    first_handoff(list);
    durations(list);
    starts(list);
    apply_classes(list);
    exact_ends(list);
    kept_through_refusals(list);
    long_handoffs(list);
    random_handoffs(list);
    guards(list);
}

fn new(list: &mut List, duration_s: f32) {
    list.add(30, 0, &[duration_s]);
}

fn start(list: &mut List, from: f32) {
    list.add(31, 0, &[from]);
}

fn apply(list: &mut List, dt: f32, demanded: f32) {
    list.add(32, 0, &[dt, demanded]);
}

/// The handoff that the list begins with: duration 0, never active.
fn first_handoff(list: &mut List) {
    apply(list, 0.5, 0.25);
    apply(list, 0.0, 0.25);
    start(list, 0.75);
    apply(list, SMALLEST, -0.0);
    apply(list, 1.0, 3.0);
}

fn durations(list: &mut List) {
    list.sweep(30, 0, |random| vec![random.between(0.0, 2.0)]);
    for duration_s in [
        0.0,
        -0.0,
        SMALLEST,
        -SMALLEST,
        1e-20,
        1.0,
        1e30,
        f32::MAX,
        -1.0,
        -f32::MAX,
        f32::INFINITY,
        f32::NAN,
    ] {
        new(list, duration_s);
        apply(list, 0.25, 0.625);
        start(list, 0.125);
        apply(list, 0.25, 0.625);
        apply(list, 1e29, 1.0);
    }
}

fn starts(list: &mut List) {
    new(list, 1.0);
    list.sweep(31, 0, |random| vec![random.between(0.0, 1.0)]);
    let few = [
        f32::NAN,
        f32::INFINITY,
        f32::NEG_INFINITY,
        -0.0,
        0.0,
        SMALLEST,
        -SMALLEST,
        f32::MAX,
        -1.0,
        2.0,
        1.0,
        0.7,
    ];
    for from in few.into_iter().chain(around(1.0)) {
        start(list, from);
        let demanded = list.random.pick(&[0.0, -0.0, 1.0, 0.3]);
        apply(list, 0.375, demanded);
        apply(list, SMALLEST, 0.6);
    }
    starts_again(list);
}

fn starts_again(list: &mut List) {
    // A start in the middle of a blend, and a new handoff in the middle of one.
    start(list, 0.9);
    apply(list, 0.5, 0.1);
    start(list, 0.2);
    apply(list, 0.5, 0.8);
    new(list, 2.0);
    apply(list, 0.5, 0.8);
    start(list, 0.4);
    apply(list, 0.5, 0.8);
    // A start after the end, and one in a handoff of duration 0.
    apply(list, 5.0, 0.8);
    start(list, 0.4);
    apply(list, 0.5, -0.0);
    new(list, 0.0);
    start(list, 0.4);
    apply(list, 0.5, -0.0);
}

/// Each class in each number of apply, in a blend and after it.
fn apply_classes(list: &mut List) {
    new(list, 1.0);
    for (place, class, turn) in places(2, 2) {
        let mut numbers = [list.random.between(0.1, 0.4), list.random.between(0.1, 0.9)];
        numbers[place] = list.random.of_class(class);
        let from = list.random.between(0.0, 1.0);
        start(list, from);
        if turn == 1 {
            apply(list, 1.0, 0.5);
        }
        list.add(32, 0, &numbers);
        apply(list, 0.25, 0.75);
    }
    new(list, 0.0);
    for bad in BAD_DT {
        apply(list, bad, 0.5);
    }
}

/// Blends that end exactly at the duration, one float before it and one float past it.
fn exact_ends(list: &mut List) {
    for duration_s in [1.0, 0.5, 0.1, 3.0, 15.3, 1e30, f32::MIN_POSITIVE] {
        new(list, duration_s);
        for dt in around(duration_s) {
            start(list, 0.3);
            apply(list, dt, 0.9);
            apply(list, duration_s * 1e-6, 0.1);
        }
    }
    new(list, SMALLEST);
    start(list, 0.3);
    apply(list, SMALLEST, 0.9);
    new(list, 2.0 * SMALLEST);
    start(list, 0.3);
    apply(list, SMALLEST, 0.9);
    apply(list, SMALLEST, 0.9);
    apply(list, SMALLEST, 0.8);
    for (duration_s, dt, steps) in [(1.0, 0.25, 5), (0.1, 0.01, 11), (0.7, 0.1, 8), (1.0, 0.3, 5)] {
        new(list, duration_s);
        start(list, 1.0);
        for _ in 0..steps {
            apply(list, dt, 1e-10);
        }
    }
}

/// A refused call leaves the blend as it was.
fn kept_through_refusals(list: &mut List) {
    new(list, 1.0);
    for bad in BAD_DT {
        start(list, 0.5);
        apply(list, 0.25, 1.0);
        apply(list, bad, 1.0);
        apply(list, 0.25, 0.0);
    }
    for bad in [f32::NAN, -1.0, f32::INFINITY] {
        start(list, 0.5);
        apply(list, 0.25, 1.0);
        new(list, bad);
        apply(list, 0.25, 1.0);
    }
}

/// Clocks that pass the largest number, or that a small dt does not move.
fn long_handoffs(list: &mut List) {
    new(list, f32::MAX);
    start(list, 0.25);
    apply(list, 3e38, 0.75);
    apply(list, 3e38, 0.75);
    apply(list, 3e38, 0.5);
    start(list, 0.25);
    apply(list, f32::MAX, 0.75);
    apply(list, 1.0, 0.75);
    start(list, 0.25);
    apply(list, f32::MAX.next_down(), 0.75);
    apply(list, 1.0, 0.75);
    new(list, SMALLEST);
    start(list, 1.0);
    apply(list, f32::MAX, 0.25);
    new(list, 1e10);
    start(list, 1.0);
    apply(list, 5e9, 0.25);
    apply(list, 1e-5, 0.25);
    apply(list, 1e-5, 0.5);
}

fn random_handoffs(list: &mut List) {
    for _ in 0..6 {
        let (duration_s, from) = (list.random.between(0.1, 3.0), list.random.between(-0.1, 1.1));
        new(list, duration_s);
        start(list, from);
        for _ in 0..4 {
            let (dt, demanded) = (list.random.between(0.05, 1.0), list.random.between(-0.1, 1.1));
            apply(list, dt, demanded);
        }
    }
}

fn guards(list: &mut List) {
    list.sweep(33, 0, |random| {
        let mut numbers = betweens(random, 4, 0.1, 1.0);
        numbers[1] = random.between(-4.0, -1.5);
        numbers
    });
    for limit_mps in [1.0, 0.5, 3.7, SMALLEST, 0.0, -0.0, f32::NAN, -1.0, f32::INFINITY] {
        let climbs = [around(-limit_mps), [0.0, f32::NAN, -5.0], [1.0, f32::INFINITY, f32::NEG_INFINITY]];
        for climb_mps in climbs.concat() {
            let (thrust, gain) = (list.random.between(0.0, 0.5), list.random.between(0.0, 0.2));
            list.add(33, 0, &[thrust, climb_mps, limit_mps, gain]);
        }
    }
    for thrust in around(0.5)
        .into_iter()
        .chain([-3.0, -0.5, 1.0, 0.0, -0.0, f32::NAN, f32::INFINITY, f32::NEG_INFINITY])
    {
        for (climb_mps, gain) in [(-2.0, 0.5), (f32::NEG_INFINITY, 0.0), (-2.0, -0.5)] {
            list.add(33, 0, &[thrust, climb_mps, 1.0, gain]);
        }
    }
    list.many(25, 33, |random| {
        vec![
            random.between(0.0, 0.6),
            random.between(-4.0, 0.0),
            random.between(0.1, 2.0),
            random.between(0.0, 0.5),
        ]
    });
}

pub fn add_deceleration(list: &mut List) {
    list.add(35, 0, &[0.5, 10.0, 0.0, -1.0, 0.0, 2.0, 0.1]);
    list.add(34, 0, &[]);
    deceleration_classes(list);
    at_the_ends(list);
    speeds(list);
    not_a_number(list);
    decelerations_kept(list);
    random_decelerations(list);
}

/// Numbers of a step that moves the pitch a little.
fn ordinary(random: &mut Random) -> [f32; 7] {
    [
        random.between(0.05, 0.5),
        random.between(-20.0, 20.0),
        random.between(-20.0, 20.0),
        random.between(-1.0, 1.0),
        random.between(-1.0, 1.0),
        random.between(1.0, 3.0),
        random.between(0.02, 0.15),
    ]
}

/// Each class in each number, from a pitch that is not 0.
fn deceleration_classes(list: &mut List) {
    for (place, class, turn) in places(7, 2) {
        if turn == 0 || list.random.once_in(4) {
            list.add(34, 0, &[]);
        }
        let before = ordinary(&mut list.random);
        list.add(35, 0, &before);
        let mut numbers = ordinary(&mut list.random);
        numbers[place] = list.random.of_class(class);
        list.add(35, 0, &numbers);
    }
}

/// Steps at speed 0 from pitch 0: the pitch grows by gain · target · dt alone.
fn still(list: &mut List, dt: f32, target: f32, gain: f32) {
    list.add(35, 0, &[dt, 0.0, -0.0, 5.0, 5.0, target, gain]);
}

/// The pitch at 0 and at 0.3, and beside them.
fn at_the_ends(list: &mut List) {
    for target in around(0.3).into_iter().chain([0.0, -0.0, SMALLEST, -SMALLEST, -1.0, 9.0]) {
        list.add(34, 0, &[]);
        still(list, 1.0, target, 1.0);
        still(list, 0.125, -0.5, 0.25);
        still(list, 0.125, -9.0, 2.0);
        still(list, 0.125, 0.5, 0.25);
    }
    list.add(34, 0, &[]);
    for target in [0.2, 0.2, 0.2, -0.1, -0.1, -0.1, -0.1, 0.1] {
        still(list, 1.0, target, 1.0);
    }
}

/// Speeds of 0, that underflow to 0, that pass the largest number, infinite ones.
fn speeds(list: &mut List) {
    let velocities = [
        [0.0, 0.0],
        [-0.0, 0.0],
        [1e-30, -1e-30],
        [SMALLEST, 0.0],
        [1e-15, 1e-16],
        [1e30, 0.0],
        [1e19, 2e19],
        [f32::INFINITY, 0.0],
        [0.0, f32::NEG_INFINITY],
        [f32::NAN, 0.0],
        [3.0, 4.0],
    ];
    for velocity in velocities {
        for acceleration in [[0.0, 0.0], [-1.0, 0.5], [f32::MAX, -f32::MAX], [f32::NAN, 1.0], [2e-30, 0.0]] {
            if list.random.once_in(3) {
                list.add(34, 0, &[]);
                still(list, 1.0, 0.125, 1.0);
            }
            let dt = list.random.between(0.1, 0.4);
            list.add(35, 0, &[dt, velocity[0], velocity[1], acceleration[0], acceleration[1], 2.0, 0.05]);
        }
    }
}

/// Steps that make the pitch NaN, which stays so until a new deceleration; and infinite ones, which do not.
fn not_a_number(list: &mut List) {
    // Shortfalls that pass the largest number, with gain 0 and with others.
    for (target, acceleration, gain) in [
        (f32::MAX, 3e38, 0.0),
        (f32::MAX, 3e38, 0.1),
        (-f32::MAX, -3e38, 0.1),
        (f32::MAX, 3e38, -0.0),
    ] {
        list.add(34, 0, &[]);
        still(list, 1.0, 0.125, 1.0);
        list.add(35, 0, &[0.5, 1.0, 0.0, acceleration, 0.0, target, gain]);
        list.add(35, 0, &[0.5, 10.0, 0.0, -1.0, 0.0, 2.0, 0.1]);
        list.add(35, 0, &[0.5, f32::NAN, 0.0, -1.0, 0.0, 2.0, 0.1]);
        still(list, 1.0, -9.0, 1.0);
    }
    list.add(34, 0, &[]);
    still(list, 1.0, 0.125, 1.0);
}

fn decelerations_kept(list: &mut List) {
    for bad in BAD_DT {
        list.add(34, 0, &[]);
        still(list, 1.0, 0.125, 1.0);
        list.add(35, 0, &[bad, 10.0, 0.0, -1.0, 0.0, 2.0, 0.1]);
        still(list, 1.0, 0.0625, 1.0);
    }
}

fn random_decelerations(list: &mut List) {
    for _ in 0..8 {
        list.add(34, 0, &[]);
        for _ in 0..4 {
            let numbers = ordinary(&mut list.random);
            list.add(35, 0, &numbers);
        }
    }
}
