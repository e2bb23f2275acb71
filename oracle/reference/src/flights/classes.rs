//! Numbers of every class in every place: in steps, in primes and in settings.

use super::flight::Flight;
use super::usual;
use crate::joined::Call;
use crate::machine::{Airframe, MODES};
use crate::random::{CLASSES, Class, Random, SMALLEST};
use crate::settings::{Settings, bad_field, fields};
use stable_flight::FlightMode;
use std::f32::consts::{FRAC_PI_2, PI};

/// Every class, those of both signs twice.
const FORMS: u64 = CLASSES.len() as u64 + 2;
/// The places of a step's numbers with every form.
const STEP_PLACES: u64 = 15 * FORMS;
/// What a setting is set to in turn: every form, and the ends of its range with the floats past them.
const SETTING_FORMS: u64 = FORMS + 4;

/// A number of a form.
fn form(random: &mut Random, form: u64) -> f32 {
    match form {
        0..4 => random.of_class(CLASSES[form as usize]),
        4 | 5 => random.of_class(CLASSES[form as usize]).abs(),
        6 => random.of_class(Class::Subnormal).copysign(-1.0),
        _ => random.of_class(Class::Huge).copysign(-1.0),
    }
}

/// The least and the largest number that a setting takes.
pub fn ends(airframe: Airframe, field: usize) -> (f32, f32) {
    let most = f32::MAX;
    match (airframe, field) {
        (Airframe::Tailsitter, 2 | 6) | (Airframe::Quadplane, 13) => (SMALLEST, FRAC_PI_2.next_down()),
        (Airframe::Tailsitter, 3) => (SMALLEST, FRAC_PI_2),
        (Airframe::Tailsitter, 10 | 11) | (Airframe::Quadplane, 11) => (0.0, 1.0),
        (_, 15) => (SMALLEST, PI),
        (Airframe::Tailsitter, 16 | 17) => (SMALLEST, 1.0),
        (Airframe::Tailsitter, 1 | 5 | 7) | (Airframe::Quadplane, 2 | 3 | 6 | 8 | 12) => (SMALLEST, most),
        _ => (0.0, most),
    }
}

/// A number, its neighbours, and others.
pub fn with_neighbours(x: f32, others: &[f32]) -> Vec<f32> {
    [&[x, x.next_up(), x.next_down()], others].concat()
}

/// The least number below a setting's range, and the least above it.
pub fn past_ends(airframe: Airframe, field: usize) -> (f32, f32) {
    let (least, largest) = ends(airframe, field);
    let below = if least == 0.0 { -SMALLEST } else { 0.0 };
    (below, largest.next_up())
}

/// A number that this setting does not take.
fn bad_number(random: &mut Random, airframe: Airframe, field: usize) -> f32 {
    let (below, above) = past_ends(airframe, field);
    let numbers = [below, above, f32::NAN, f32::INFINITY, f32::NEG_INFINITY, -f32::MAX, -1.0];
    random.pick(&numbers)
}

/// Settings with this field as the first bad one.
pub fn bad_settings(random: &mut Random, airframe: Airframe, field: usize) -> Settings {
    let mut s = usual::settings(random, airframe);
    s[field - 1] = bad_number(random, airframe, field);
    if random.once_in(2) {
        s[field..].fill_with(|| random.edge());
    }
    s
}

/// Settings that are taken, some of them at the ends of their ranges.
pub fn extreme_settings(random: &mut Random, airframe: Airframe) -> Settings {
    let mut s = usual::settings(random, airframe);
    for field in 1..=fields(airframe) {
        if random.once_in(4) {
            let kept = s[field - 1];
            let (least, largest) = ends(airframe, field);
            s[field - 1] = random.pick(&[least, largest, -0.0, f32::from_bits(0x7F_FFFF), 1e30, 1e-20]);
            if bad_field(airframe, &s) != 0 {
                s[field - 1] = kept;
            }
        }
    }
    s
}

/// A flight whose steps hold every class in every place in turn, from turn `turn` on.
pub fn steps(flight: &mut Flight, turn: u64, count: u64) {
    flight.prime();
    for i in turn * count..(turn + 1) * count {
        let (place, lap) = (i % STEP_PLACES, i / STEP_PLACES);
        let number = (place / FORMS) as usize + 1;
        if flight.random.once_in(3) {
            let mode = flight.random.pick(&MODES);
            flight.reach(mode);
        }
        let x = form(&mut flight.random, place % FORMS);
        step(flight, number, x, lap);
        if flight.random.once_in(12) {
            let z_m = flight.random.edge();
            flight.call(Call::Prime(z_m));
        }
    }
}

fn step(flight: &mut Flight, number: usize, x: f32, lap: u64) {
    let mut step = if flight.random.once_in(2) { flight.hold() } else { flight.plain() };
    // Refusals 1 and 2 hide what else is out of the ordinary.
    if number != 1 && number != 13 && flight.random.once_in(4) {
        for _ in 0..3 {
            let place = flight.random.below(15);
            step.numbers[place] = flight.random.edge();
        }
    }
    if number == 13 && lap.is_multiple_of(2) {
        step.numbers[7] = f32::NAN;
    }
    step.airspeed_present |= number == 12;
    step.numbers[number - 1] = x;
    flight.step(step);
}

/// Primes at altitudes of every class, each followed by a request for plane flight.
pub fn primes(flight: &mut Flight) {
    for class in CLASSES {
        let z_m = flight.random.of_class(class);
        flight.call(Call::Prime(z_m));
        let mut step = flight.request(true);
        step.numbers[1] = flight.random.pick(&[z_m, -z_m, 100.0, f32::MAX]);
        flight.step(step);
    }
}

/// Settings calls with every form of every field in turn, in every mode, and extreme settings flown between.
pub fn settings(flight: &mut Flight, turn: u64, count: u64) {
    flight.prime();
    let airframe = flight.track.airframe;
    for i in turn * count..(turn + 1) * count {
        let field = (i / SETTING_FORMS) as usize % fields(airframe) + 1;
        if flight.random.once_in(3) {
            let mode = flight.random.pick(&MODES);
            flight.reach(mode);
        }
        let mut s = usual::settings(&mut flight.random, airframe);
        s[field - 1] = setting_form(&mut flight.random, airframe, field, i % SETTING_FORMS);
        flight.call(Call::Settings(s));
        if flight.random.once_in(2) {
            flight.advance();
        }
        if flight.random.once_in(4) {
            let s = extreme_settings(&mut flight.random, airframe);
            flight.call(Call::Settings(s));
            flight.row();
        }
    }
}

fn setting_form(random: &mut Random, airframe: Airframe, field: usize, which: u64) -> f32 {
    let ((least, largest), (below, above)) = (ends(airframe, field), past_ends(airframe, field));
    match which {
        0..FORMS => form(random, which),
        8 => least,
        9 => largest,
        10 => below,
        _ => above,
    }
}

/// The quadplane's pitch made NaN: gain 0, and a shortfall past the largest number.
pub fn overflowing_shortfall(flight: &mut Flight) {
    let mut s = usual::settings(&mut flight.random, Airframe::Quadplane);
    s[6] = 0.5;
    s[8] = 3e38;
    s[9] = 0.0;
    flight.call(Call::Settings(s));
    if !flight.reach(FlightMode::ToCopter) {
        return;
    }
    let mut step = flight.hold();
    step.numbers[2..7].copy_from_slice(&[1.0, 0.0, 0.0, 3e38, 0.0]);
    step.numbers[7..11].copy_from_slice(&[1.0, 0.0, 0.0, 0.0]);
    flight.step(step);
    let step = flight.hold();
    flight.step(step);
}
