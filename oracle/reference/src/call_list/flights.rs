//! Kinds 50 to 54 and 60 to 64: the two machines, each led through its modes.

use super::flight::{Air, Flight, HOVER, LEVEL};
use super::ranges::good;
use super::{BAD_DT, List, around, places, quadplane, tailsitter, unit_quaternion};
use crate::machine::{Airframe, MODES};
use crate::random::{CLASSES, Class, SMALLEST};
use crate::settings::{fields, height_fields, timeout_fields};
use stable_flight::FlightMode;
use std::f32::consts::PI;

pub fn add(list: &mut List, airframe: Airframe) {
    let mut flight = Flight::new(list, airframe);
    let f = &mut flight;
    with_defaults(f);
    f.new_round();
    heights(f);
    two_heights(f);
    clocks(f);
    requests(f);
    floors(f);
    fallbacks(f);
    cuts(f);
    settings_in_modes(f);
    refusals(f);
    primes(f);
    match airframe {
        Airframe::Tailsitter => tailsitter::add(f),
        Airframe::Quadplane => quadplane::add(f),
    }
    settings_classes(f);
    update_classes(f);
    random_flight(f);
}

/// The machine that the list begins with: no prime yet, default settings.
fn with_defaults(f: &mut Flight) {
    f.step(HOVER);
    f.cut(15);
    f.step(HOVER.copter());
    f.step(HOVER.z(f32::NAN));
    f.prime(1.0);
    f.step(HOVER.z(6.0).airspeed(Some(3.0)));
    // The default forward cosine, and the default airspeed.
    for cosine in around(std::f32::consts::FRAC_1_SQRT_2).into_iter().rev() {
        f.step(HOVER.nose_up(cosine).airspeed(Some(9.0f32.next_down())));
    }
    f.step(HOVER.airspeed(Some(9.0)));
    f.step(HOVER.dt(5.0));
    f.step(HOVER.nose_up(0.0).copter());
    for cosine in around(std::f32::consts::FRAC_1_SQRT_2) {
        f.step(LEVEL.nose_up(cosine).copter());
    }
}

/// Heights at the minimum and beside it, and not finite ones.
fn heights(f: &mut Flight) {
    f.step(HOVER);
    let few = [f32::NAN, f32::INFINITY, f32::NEG_INFINITY, -0.0, -5.0, f32::MAX];
    for z in around(5.0).into_iter().chain(few) {
        f.prime(0.0);
        f.step(HOVER.z(z));
    }
    for home in [f32::NAN, f32::INFINITY, -f32::MAX] {
        f.prime(home);
        f.step(HOVER.z(home));
        f.step(HOVER.z(f32::MAX));
    }
    for home in [0.1, -7.3] {
        f.prime(home);
        f.step(HOVER.z((home + 5.0).next_down()));
        f.step(HOVER.z(home + 5.0));
    }
    // A standing request starts once the height is there.
    f.prime(2.0);
    f.step(HOVER.z(6.0));
    f.step(HOVER.z(6.5));
    f.step(HOVER.z(7.0));
}

/// The larger of the two minimums counts.
fn two_heights(f: &mut Flight) {
    let [first, second] = height_fields(f.airframe);
    for (min, plane_min) in [(8.0, 5.0), (5.0, 8.0), (0.0, 0.0), (-0.0, 0.0), (0.0, SMALLEST), (6.0, 0.0)] {
        let settings = f.changed(&[(first, min), (second, plane_min)]);
        f.new_machine(&settings);
        f.prime(0.0);
        for z in around(f32::max(min, plane_min)).into_iter().take(2) {
            f.step(HOVER.z(z));
        }
    }
    f.new_round();
}

/// Clocks at the timeout and at the next float, forward and back.
fn clocks(f: &mut Flight) {
    for dts in [&[15.0f32.next_up()][..], &[7.5, 7.5, SMALLEST, 1e-6], &[15.0, 0.25]] {
        f.enter(FlightMode::ToPlane);
        for dt in dts {
            f.step(HOVER.dt(*dt));
        }
        f.step(HOVER);
    }
    let back = f.back_timeout();
    for dts in [
        &[back][..],
        &[back.next_up()],
        &[back / 2.0, back / 2.0, SMALLEST, 1e-6],
        &[f32::MAX],
    ] {
        f.enter(FlightMode::ToCopter);
        for dt in dts {
            f.step(LEVEL.copter().dt(*dt));
        }
        f.step(LEVEL.copter());
    }
    clocks_anew(f);
}

/// The clock begins at 0 with every entry: the dt of the entry does not count, nor what ran before.
fn clocks_anew(f: &mut Flight) {
    f.prime(0.0);
    f.step(HOVER.dt(15.0));
    f.step(HOVER.dt(14.0));
    f.step(HOVER.copter());
    f.step(HOVER.dt(3.0));
    f.step(HOVER.dt(15.0));
    f.step(HOVER.dt(0.5));
    f.enter(FlightMode::ToPlane);
    f.step(HOVER.dt(14.0));
    f.step(LEVEL);
    f.step(LEVEL.dt(5.0));
    f.step(LEVEL.copter().dt(9.0));
    f.step(LEVEL.copter().dt(8.0));
    f.step(LEVEL);
    f.step(LEVEL.copter());
    f.step(LEVEL.copter().dt(8.0));
    f.step(LEVEL.copter().dt(8.0));
}

/// Each request in each mode, hovering and level.
fn requests(f: &mut Flight) {
    for mode in MODES {
        let airs = [HOVER, HOVER.copter(), LEVEL, LEVEL.copter()];
        // Only the request counts in copter flight.
        let tried = if mode == FlightMode::Copter { 2 } else { 4 };
        for air in &airs[..tried] {
            f.enter(mode);
            f.step(*air);
        }
    }
}

/// The floor in plane flight.
fn floors(f: &mut Flight) {
    let few = [f32::NAN, f32::INFINITY, f32::NEG_INFINITY, -1.0];
    for z in around(3.0).into_iter().chain(few) {
        f.be_in(FlightMode::Plane);
        f.step(LEVEL.z(z));
    }
    f.enter(FlightMode::Plane);
    f.step(LEVEL.copter().z(1.0));
    f.step(LEVEL.z(1.0));
    f.step(LEVEL.z(1.0));
    // The floor is over home.
    f.prime(-20.0);
    f.step(HOVER.z(-10.0));
    f.step(LEVEL.z(-10.0));
    f.step(LEVEL.z(-10.0).dt(4.0));
    for z in [-17.0, (-17.0f32).next_down()] {
        f.step(LEVEL.z(z));
    }
    // A floor of 0 is off, the least one is on.
    let [_, field] = height_fields(f.airframe);
    for floor in [0.0, -0.0, SMALLEST] {
        f.enter(FlightMode::Plane);
        f.set_changed(&[(field, floor)]);
        f.step(LEVEL.z(SMALLEST));
        f.step(LEVEL.z(0.0));
        f.step(LEVEL.z(-100.0));
    }
    f.set_round();
    // Below the floor in the other modes.
    for mode in [FlightMode::ToPlane, FlightMode::ToCopter] {
        f.enter(mode);
        f.step(HOVER.z(1.0));
    }
}

/// What an abandonment holds back, and what clears it.
fn fallbacks(f: &mut Flight) {
    // A timeout: refused until a Copter request, whatever the height.
    f.enter(FlightMode::ToPlane);
    f.step(HOVER.dt(16.0));
    for air in [
        HOVER,
        HOVER.z(f32::NAN),
        HOVER.z(1.0),
        LEVEL,
        HOVER.copter().z(1.0),
        HOVER.z(1.0),
        HOVER,
        HOVER.dt(16.0),
        HOVER,
    ] {
        f.step(air);
    }
    // A tripped floor: back whatever is requested, and held after it.
    for (inside, end) in [(LEVEL, HOVER), (LEVEL.copter(), HOVER), (LEVEL.copter(), HOVER.copter())] {
        f.enter(FlightMode::Plane);
        f.step(LEVEL.z(1.0));
        f.step(inside);
        f.step(LEVEL);
        f.step(end);
        f.step(HOVER);
        f.step(HOVER.copter());
        f.step(HOVER);
    }
    after_fallbacks(f);
}

/// What ends without an abandonment, or ends with one by the timeout.
fn after_fallbacks(f: &mut Flight) {
    // Back by the timeout, with an abandonment and a Plane request.
    f.enter(FlightMode::Plane);
    f.step(LEVEL.z(1.0));
    f.step(LEVEL.dt(16.0));
    f.step(HOVER);
    // Back without an abandonment: Plane again, by no handoff, and the floor again.
    f.enter(FlightMode::ToCopter);
    f.step(HOVER);
    f.step(LEVEL.z(1.0));
    f.step(LEVEL);
    // A cancelled transition is no abandonment.
    f.enter(FlightMode::ToPlane);
    f.step(HOVER.copter());
    f.step(HOVER);
    f.prime(0.0);
    f.step(HOVER.z(1.0));
    f.step(HOVER);
}

/// Each reason in each mode, and what follows.
fn cuts(f: &mut Flight) {
    for number in 11..=16 {
        f.enter(FlightMode::ToPlane);
        f.cut(number);
        f.cut(11 + number % 6);
        f.step(HOVER);
        f.step(HOVER.copter());
        f.cut(number);
    }
    for number in 11..=16 {
        f.be_in(FlightMode::Plane);
        f.cut(number);
        f.step(LEVEL.copter());
        f.cut(number);
    }
    f.step(HOVER);
    // A cut elsewhere leaves the report as it stands.
    f.prime(0.0);
    f.step(HOVER.z(1.0));
    f.cut(15);
    f.step(HOVER.z(1.0));
    f.enter(FlightMode::Plane);
    f.step(LEVEL.z(1.0));
    f.cut(15);
    f.step(HOVER);
    f.enter(FlightMode::Plane);
    f.step(LEVEL.z(1.0));
    f.step(LEVEL.copter());
    f.cut(11);
    f.step(HOVER);
    f.step(HOVER.copter());
    f.step(HOVER);
}

/// Settings in each mode, good and bad: nothing but the settings changes.
fn settings_in_modes(f: &mut Flight) {
    for mode in MODES {
        f.enter(mode);
        f.set_changed(&[(1, 0.75), (2, 0.5), (5, 2.0), (6, 0.75)]);
        f.step(LEVEL.copter());
        f.enter(mode);
        f.step(if mode == FlightMode::Copter { HOVER.z(1.0) } else { HOVER });
        f.set_changed(&[(9, f32::NAN), (15, f32::NAN)]);
        f.set_round();
        f.step(HOVER.dt(1.0));
    }
    // The report and the abandonment stand.
    f.enter(FlightMode::ToPlane);
    f.cut(12);
    f.set_changed(&[(timeout_fields(f.airframe)[0], 2.0)]);
    f.step(HOVER);
    // A shorter timeout counts from the next step.
    f.enter(FlightMode::ToPlane);
    f.step(HOVER.dt(2.0));
    f.step(HOVER.dt(SMALLEST));
    f.step(HOVER.dt(1e-3));
    f.set_round();
    f.enter(FlightMode::ToPlane);
    f.step(HOVER.dt(3.0));
    f.set_changed(&[(timeout_fields(f.airframe)[0], 2.0)]);
    f.step(HOVER.dt(0.5));
    f.set_round();
}

/// Refusals 1 and 2 in each mode: the state is kept, the report too.
fn refusals(f: &mut Flight) {
    for mode in MODES {
        f.enter(mode);
        for dt in BAD_DT {
            f.step(LEVEL.dt(dt));
        }
        f.step(HOVER.dt(0.5));
        f.enter(mode);
        let tilts = [f32::NAN, -SMALLEST, PI.next_up(), f32::INFINITY];
        // The quadplane takes them.
        let tried = if f.airframe == Airframe::Tailsitter { 4 } else { 1 };
        for tilt in &tilts[..tried] {
            f.step(LEVEL.copter().tilt(*tilt).dt(0.125));
        }
        f.step(HOVER.tilt(4.0).dt(f32::NAN));
        f.step(LEVEL.nose_up(f32::NAN).tilt(f32::NAN).copter());
    }
    f.prime(0.0);
    f.step(HOVER.z(1.0));
    f.step(HOVER.dt(0.0));
    f.set_round();
    f.step(HOVER.tilt(-1.0).z(1.0));
    f.set_round();
}

/// A prime or a new machine in each mode.
fn primes(f: &mut Flight) {
    for mode in MODES {
        f.enter(mode);
        f.prime(3.0);
        f.step(HOVER.z(8.0));
        f.be_in(mode);
        f.new_round();
        f.step(HOVER);
    }
    // It clears an abandonment.
    f.enter(FlightMode::ToPlane);
    f.cut(14);
    f.prime(0.0);
    f.step(HOVER);
    // A refused one leaves the machine.
    f.step(HOVER.dt(0.5));
    f.new_machine(&[f32::NAN; 17]);
    f.step(HOVER.dt(0.5));
}

/// Each class in each setting, of a new machine and of one that runs; each field bad alone.
fn settings_classes(f: &mut Flight) {
    let count = fields(f.airframe);
    for call in [0, 1] {
        for turn in 0..12 {
            let mut settings = [0.0; 17];
            for (field, x) in settings.iter_mut().enumerate() {
                *x = f.list.random.of_class(CLASSES[(field + turn) % 6]);
            }
            if call == 0 { f.new_machine(&settings) } else { f.set(&settings) }
        }
        for field in (1 + call..=count).step_by(2) {
            let settings = f.changed(&[(field, [f32::NAN, -1.0][call])]);
            if call == 0 { f.new_machine(&settings) } else { f.set(&settings) }
        }
    }
    f.step(HOVER);
    for class in CLASSES {
        let z = f.list.random.of_class(class);
        f.prime(z);
        f.prime(z);
        f.step(HOVER);
    }
}

/// Each class in each number of an update, in the modes where the number counts.
fn update_classes(f: &mut Flight) {
    // What the machine does not read is of some class in every record.
    let unread: &[usize] = match f.airframe {
        Airframe::Tailsitter => &[2, 3, 4, 5, 6],
        Airframe::Quadplane => &[5, 6, 12],
    };
    f.enter(FlightMode::Copter);
    let read = places(13, 2).into_iter().filter(|(place, _, _)| !unread.contains(place));
    for (count, (place, class, turn)) in read.enumerate() {
        let (mode, air) = class_place(f.airframe, place, turn);
        f.be_in(mode);
        let mut step = air.step(0.0);
        for other in unread {
            step.numbers[*other] = f.list.random.of_class(CLASSES[(count + count / 6 + other) % 6]);
        }
        step.numbers[place] = f.list.random.of_class(class);
        if place == 1 && class == Class::Huge && turn == 0 {
            step.numbers[place] = f32::MAX;
        }
        f.update(&step);
    }
}

/// The mode and the update in which a number counts.
fn class_place(airframe: Airframe, place: usize, turn: usize) -> (FlightMode, Air) {
    let turned = Air {
        attitude: [0.8, -0.1, 0.375, 0.5],
        velocity: [12.0, 9.0, -3.0],
        airspeed: None,
        ..LEVEL
    };
    match (place, turn) {
        (0, 0) => (FlightMode::ToPlane, turned),
        (1, 0) => (FlightMode::Copter, HOVER),
        (1, _) if airframe == Airframe::Tailsitter => (FlightMode::Plane, LEVEL),
        (1, _) => (FlightMode::Copter, HOVER),
        (2, 1) => (FlightMode::ToCopter, turned.copter().airspeed(Some(4.0))),
        (7..=10, 0) if airframe == Airframe::Tailsitter => (FlightMode::ToPlane, turned),
        (11, 0) => (FlightMode::ToPlane, LEVEL),
        (11, _) => (FlightMode::ToCopter, LEVEL.copter().speed(f32::NAN)),
        (12, 0) => (FlightMode::Copter, HOVER),
        (12, _) => (FlightMode::Plane, LEVEL.copter()),
        _ => (FlightMode::ToCopter, turned.copter()),
    }
}

/// A long flight by random calls, with random settings.
fn random_flight(f: &mut Flight) {
    f.new_round();
    f.prime(0.0);
    for turn in 0..34 {
        let chance = f.list.random.below(40);
        match chance {
            0 => {
                let settings = good(f.airframe, &mut f.list.random);
                f.set(&settings);
            }
            1 => f.cut(11 + turn % 6),
            2 => f.prime(0.5),
            _ => random_step(f),
        }
    }
}

fn random_step(f: &mut Flight) {
    let random = &mut f.list.random;
    let q = unit_quaternion(random);
    let air = Air {
        plane: !random.once_in(4),
        dt: random.between(0.1, 4.0),
        z: if random.once_in(8) {
            random.between(0.0, 6.0)
        } else {
            random.between(20.0, 40.0)
        },
        velocity: [0; 3].map(|_| random.between(-20.0, 20.0)),
        acceleration: [0; 2].map(|_| random.between(-5.0, 5.0)),
        attitude: [q[0], q[1], q[2], q[3]],
        airspeed: if random.once_in(4) { None } else { Some(random.between(0.0, 30.0)) },
        tilt: random.between(0.0, PI),
    };
    f.step(air);
}
