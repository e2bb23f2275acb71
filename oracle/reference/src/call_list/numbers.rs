//! Kinds 1 to 13, and a few records that no kind is.

use super::{List, UNIT_EDGES, around, betweens, picks, spread, spreads, unit_quaternion};
use crate::random::{CLASSES, Class, Random, SMALLEST};

const SIGNED: [f32; 4] = [0.0, -0.0, 1.0, -1.0];

pub fn add(list: &mut List) {
    roots(list);
    norms(list);
    dots(list);
    rotations(list);
    nose_ups(list);
    forward_speeds(list);
    clamps(list);
    smaller_and_larger(list);
    saturations(list);
    airspeeds(list);
    unknown(list);
}

fn roots(list: &mut List) {
    for exponent in -149..=127 {
        list.add(1, 0, &[2.0f64.powi(exponent) as f32]);
    }
    for _ in 0..40 {
        let side = 1 + list.random.below(4096);
        let scale = 4.0f32.powi(list.random.below(100) as i32 - 55);
        for x in around((side * side) as f32 * scale) {
            list.add(1, 0, &[x]);
        }
    }
    for _ in 0..110 {
        let x = below_a_tie(&mut list.random);
        list.add(1, 0, &[x]);
        list.add(1, 0, &[x.next_up()]);
    }
    for digits in 1..=22 {
        let bits = list.random.draw() as u32 & ((1 << digits) - 1);
        list.add(1, 0, &[f32::from_bits(bits | 1 << digits)]);
        list.add(1, 0, &[f32::from_bits((1 << digits) - 1)]);
    }
    list.many(105, 1, |random| vec![random.any().abs()]);
    list.many(20, 1, |random| vec![-random.any().abs()]);
    list.sweep(1, 0, |random| vec![random.between(0.0, 99.0)]);
    for x in [
        0.0,
        1.0f32.next_down(),
        4.0f32.next_down(),
        f32::MAX,
        f32::MIN_POSITIVE,
        -f32::MIN_POSITIVE,
        -1.0,
        -SMALLEST,
    ] {
        list.add(1, 0, &[x]);
    }
}

/// The float just below the square of a number that lies halfway between two floats: its root and that of its upper neighbour
/// round apart.
fn below_a_tie(random: &mut Random) -> f32 {
    let halfway = (1 << 24) + 2 * random.below(1 << 23) as u64 + 1;
    let square = halfway * halfway;
    let drop = 64 - square.leading_zeros() - 24;
    let even = 2 * random.below(105) as i32 - 150;
    let field = (even + drop as i32 + 150) as u32;
    f32::from_bits(field << 23 | (square >> drop) as u32 & 0x7F_FFFF)
}

fn norms(list: &mut List) {
    list.sweep(2, 0, |random| betweens(random, 2, -50.0, 50.0));
    for (x, y) in [
        (3.0, 4.0),
        (-5.0, 12.0),
        (8.0, -15.0),
        (7e-20, 24e-20),
        (20e15, 21e15),
        (0.0, -7.0),
        (-0.0, -0.0),
    ] {
        list.add(2, 0, &[x, y]);
        list.add(2, 0, &[y, x]);
    }
    list.many(30, 2, |random| betweens(random, 2, -30.0, 30.0));
    list.many(40, 2, |random| spreads(random, 2, -77, -60));
    list.many(30, 2, |random| spreads(random, 2, 61, 64));
    list.many(30, 2, |random| vec![random.edge(), random.edge()]);
}

fn dots(list: &mut List) {
    list.sweep(3, 0, |random| betweens(random, 4, -20.0, 20.0));
    list.many(30, 3, |random| betweens(random, 4, -20.0, 20.0));
    list.many(25, 3, |random| picks(random, 4, &SIGNED));
    list.many(20, 3, |random| {
        let (a, b) = (random.between(-9.0, 9.0), random.between(-9.0, 9.0));
        vec![a, b, b, random.near(-a)]
    });
    list.many(20, 3, |random| spreads(random, 4, 61, 64));
    list.many(20, 3, |random| spreads(random, 4, -75, -60));
    list.many(15, 3, |random| (0..4).map(|_| random.edge()).collect());
}

/// A unit quaternion and a vector.
fn turn(random: &mut Random) -> Vec<f32> {
    let mut numbers = unit_quaternion(random);
    numbers.extend(betweens(random, 3, -20.0, 20.0));
    numbers
}

fn rotations(list: &mut List) {
    list.sweep(4, 0, turn);
    list.many(40, 4, turn);
    list.many(40, 4, |random| picks(random, 7, &SIGNED));
    list.many(25, 4, |random| spreads(random, 7, -4, 4));
    list.many(25, 4, |random| spreads(random, 7, 38, 42));
    list.many(10, 4, |random| spreads(random, 7, 60, 63));
    // Products near the largest number, and near the smallest.
    list.many(12, 4, |random| {
        let (v, n) = (betweens(random, 3, 0.6, 0.99), betweens(random, 3, 2e38, 3.3e38));
        [vec![0.25], v, n].concat()
    });
    list.many(8, 4, |random| [spreads(random, 1, 80, 100), spreads(random, 6, -75, -73)].concat());
    list.many(20, 4, |random| spreads(random, 7, -50, -46));
    list.many(15, 4, |random| spreads(random, 7, -76, -62));
    list.many(15, 4, |random| (0..7).map(|_| random.edge()).collect());
}

fn nose_ups(list: &mut List) {
    list.sweep(5, 0, unit_quaternion);
    list.many(25, 5, unit_quaternion);
    list.many(25, 5, |random| picks(random, 4, &SIGNED));
    list.many(30, 5, |random| spreads(random, 4, 61, 64));
    list.many(30, 5, |random| spreads(random, 4, -76, -72));
    list.many(15, 5, |random| {
        let (a, b) = (spread(random, -3, 3), spread(random, -3, 3));
        vec![a, b, random.near(b), a]
    });
    list.many(10, 5, |random| (0..4).map(|_| random.edge()).collect());
}

fn forward_speeds(list: &mut List) {
    list.sweep(6, 0, turn);
    list.many(30, 6, turn);
    list.many(30, 6, |random| picks(random, 7, &SIGNED));
    list.many(25, 6, |random| spreads(random, 7, -4, 4));
    list.many(20, 6, |random| spreads(random, 7, 39, 43));
    list.many(15, 6, |random| spreads(random, 7, -76, -62));
    list.many(15, 6, |random| (0..7).map(|_| random.edge()).collect());
}

/// The bounds are never NaN and never the wrong way round: the Rust does not take such.
fn clamps(list: &mut List) {
    for (place, class, _) in super::places(3, 2) {
        let mut numbers = vec![
            list.random.between(-9.0, 9.0),
            list.random.between(-9.0, 0.0),
            list.random.between(0.0, 9.0),
        ];
        if place > 0 && class == Class::NotANumber {
            continue;
        }
        numbers[place] = list.random.of_class(class);
        if place == 1 && numbers[1] > numbers[2] {
            numbers[2] = f32::INFINITY;
        } else if place == 2 && numbers[1] > numbers[2] {
            numbers[1] = f32::NEG_INFINITY;
        }
        list.add(7, 0, &numbers);
    }
    for (low, high) in [
        (0.0, 1.0),
        (-0.0, 0.0),
        (0.0, -0.0),
        (0.0, 0.3),
        (-1.0, 1.0),
        (2.0, 2.0),
        (-SMALLEST, SMALLEST),
    ] {
        let values = [around(low), around(high), [0.0, -0.0, f32::NAN]];
        for value in values.concat() {
            list.add(7, 0, &[value, low, high]);
        }
    }
    list.many(15, 7, |random| {
        vec![random.edge(), random.between(-2.0, 0.0), random.between(0.0, 2.0)]
    });
}

fn smaller_and_larger(list: &mut List) {
    let few = [0.0, -0.0, 1.0, f32::NAN, f32::INFINITY, f32::NEG_INFINITY, -SMALLEST];
    for kind in [8, 9] {
        for (a, b) in few.into_iter().flat_map(|a| few.map(|b| (a, b))) {
            list.add(kind, 0, &[a, b]);
        }
        list.sweep(kind, 0, |random| betweens(random, 2, -9.0, 9.0));
        list.many(20, kind, |random| {
            let a = random.any();
            vec![a, random.near(a)]
        });
    }
}

fn saturations(list: &mut List) {
    for kind in [10, 11] {
        for x in UNIT_EDGES.into_iter().chain(around(1.0)) {
            list.add(kind, 0, &[x]);
        }
        list.sweep(kind, 0, |random| vec![random.between(-2.0, 2.0)]);
        list.many(15, kind, |random| vec![random.between(-2.0, 3.0)]);
    }
    for limit in [0.0, -0.0, 0.3, f32::NAN, f32::INFINITY, -SMALLEST] {
        let values = [around(limit), around(-limit), [0.0, -0.0, f32::NAN], [5.0, -5.0, f32::INFINITY]];
        for value in values.concat() {
            list.add(12, 0, &[value, limit]);
        }
    }
    list.sweep(12, 0, |random| vec![random.between(-2.0, 2.0), random.between(0.0, 2.0)]);
    list.many(15, 12, |random| vec![random.between(-2.0, 2.0), random.between(-0.5, 1.5)]);
}

fn airspeeds(list: &mut List) {
    for option in [0, 1] {
        list.sweep(13, option, |random| vec![random.between(0.0, 30.0)]);
        for x in [0.0, -0.0, SMALLEST, -SMALLEST, 12.0, -12.0, f32::MAX, -f32::MAX] {
            list.add(13, option, &[x]);
        }
    }
}

/// Kinds and options that the table does not have.
fn unknown(list: &mut List) {
    let numbers: Vec<f32> = CLASSES.map(|class| list.random.of_class(class)).to_vec();
    for (kind, option) in [(0, 0), (14, 0), (19, 0), (25, 0), (36, 0), (46, 0), (55, 0), (65, 0), (255, 0)] {
        list.add(kind, option, &numbers);
    }
    for (kind, option) in [
        (13, 2),
        (43, 6),
        (45, 6),
        (45, 7),
        (53, 4),
        (54, 10),
        (54, 17),
        (63, 4),
        (64, 0),
        (64, 17),
    ] {
        list.add(kind, option, &numbers);
    }
}
