//! The cards that are flown: for each airframe and mode one of 800 records, which enters the mode in its first steps and stays in it.

use reference::card::{self, MOST_RECORDS};
use reference::joined::Call;
use reference::machine::{Airframe, Step};
use reference::settings::{Settings, defaults};
use stable_flight::FlightMode;

/// Nose up, as the tailsitter hovers, and level.
const UP: [f32; 4] = [std::f32::consts::FRAC_1_SQRT_2, 0.0, std::f32::consts::FRAC_1_SQRT_2, 0.0];
const LEVEL: [f32; 4] = [1.0, 0.0, 0.0, 0.0];
/// 400 steps a second: a list ends before any timeout.
const DT_S: f32 = 0.0025;

/// The steps of a card after a prime at z 0, with its settings.
pub struct List {
    pub airframe: Airframe,
    pub settings: Settings,
    pub steps: Vec<Step>,
}

/// A step of flight with the airspeed present. Its numbers change a little from step to step.
fn nth_step(i: usize, plane_requested: bool, attitude: [f32; 4], speed_mps: f32) -> Step {
    let bit = (i % 7) as f32 / 64.0;
    let [w, x, y, z] = attitude;
    Step {
        plane_requested,
        airspeed_present: true,
        #[rustfmt::skip]
        numbers: [DT_S, 50.0 + bit, speed_mps + bit, 1.0 + bit, 0.125, bit - 1.0, 0.25, w, x + bit / 64.0, y, z, speed_mps + bit, 0.25, bit, 0.5 + bit],
    }
}

/// The steps into a mode, and those that stay in it. The quadplane's ramp begins some way into its forward transition.
fn steps(airframe: Airframe, mode: FlightMode) -> Vec<Step> {
    let hover = if airframe == Airframe::Tailsitter { UP } else { LEVEL };
    let slow = |i| nth_step(i, true, hover, 3.0);
    let fast = |i| nth_step(i, true, LEVEL, 20.0);
    let mut long = fast(0);
    long.numbers[0] = 10.0;
    let back = |i| nth_step(i, false, LEVEL, 20.0);
    let forward = |i| match airframe {
        Airframe::Quadplane if i > 200 => fast(i),
        _ => slow(i),
    };
    let (into, stay): (Vec<Step>, Box<dyn Fn(usize) -> Step>) = match mode {
        FlightMode::Copter => (vec![], Box::new(move |i| nth_step(i, false, hover, 3.0))),
        FlightMode::ToPlane => (vec![], Box::new(forward)),
        FlightMode::Plane => (vec![slow(0), fast(0), long], Box::new(fast)),
        _ => (vec![slow(0), fast(0), long, back(0)], Box::new(back)),
    };
    let room = MOST_RECORDS - 2;
    let staying = (into.len()..room).map(stay);
    into.iter().copied().chain(staying).collect()
}

/// The card of an airframe and a mode.
fn card(airframe: Airframe, mode: FlightMode) -> Vec<u8> {
    let header = card::header_bytes(airframe, &defaults(airframe));
    let mut records = vec![header, card::record_bytes(1, 0, &[])];
    records.extend(steps(airframe, mode).iter().map(card::step_bytes));
    card::in_order(records)
}

/// How many lines of a card's transcript are in a mode.
fn lines_in(transcript: &str, mode: FlightMode) -> usize {
    let letter = card::mode_letter(mode).to_string();
    let modes = transcript.lines().map(|line| line.split(' ').nth(1));
    modes.filter(|word| *word == Some(letter.as_str())).count()
}

/// The list of an airframe and a mode, read from its card. All but a few of its steps end in that mode.
pub fn list(airframe: Airframe, mode: FlightMode) -> List {
    let bytes = card(airframe, mode);
    let transcript = card::transcript(&bytes);
    let stays = lines_in(&transcript, mode);
    assert!(
        stays >= MOST_RECORDS - 8,
        "{airframe:?}: {stays} of {MOST_RECORDS} records are in {mode:?}"
    );
    let checked = card::check(&bytes, &mut [0; MOST_RECORDS]).expect("a good card");
    let steps = card::calls(&bytes, &checked.chain).into_iter().filter_map(|(_, call)| match call {
        Call::Step(step) => Some(step),
        _ => None,
    });
    List {
        airframe,
        settings: card::record(&bytes, 0).settings(),
        steps: steps.collect(),
    }
}
