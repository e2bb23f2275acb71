//! Ordinary settings and attitudes, and flights as an aircraft would fly them. Sine and cosine are polynomials here, so that a card is
//! the same on every machine.

use super::flight::Flight;
use crate::joined::Call;
use crate::machine::Airframe;
use crate::random::Random;
use crate::settings::{EXAMPLE, Settings, bad_field, defaults};
use stable_flight::FlightMode;
use std::f32::consts::FRAC_PI_2;

/// The cosine, for angles up to about two right angles.
pub fn cosine(angle_rad: f32) -> f32 {
    let square = f64::from(angle_rad) * f64::from(angle_rad);
    let (mut term, mut sum) = (1.0, 1.0);
    for i in 1..14 {
        term = -term * square / f64::from((2 * i - 1) * (2 * i));
        sum += term;
    }
    sum as f32
}

pub fn sine(angle_rad: f32) -> f32 {
    cosine(angle_rad - FRAC_PI_2)
}

/// An attitude: level with any heading and a little pitch, or for the tailsitter any pitch.
pub fn attitude(random: &mut Random, airframe: Airframe) -> [f32; 4] {
    match airframe {
        Airframe::Tailsitter => pitched(random.between(-0.3, FRAC_PI_2)),
        Airframe::Quadplane => headed(random.between(-3.0, 3.0), random.between(-0.1, 0.1)),
    }
}

/// Nose up by an angle, heading north.
pub fn pitched(pitch_rad: f32) -> [f32; 4] {
    [cosine(pitch_rad / 2.0), 0.0, sine(pitch_rad / 2.0), 0.0]
}

/// Heading, then nose up.
pub fn headed(heading_rad: f32, pitch_rad: f32) -> [f32; 4] {
    let (c, s) = (cosine(heading_rad / 2.0), sine(heading_rad / 2.0));
    let (pc, ps) = (cosine(pitch_rad / 2.0), sine(pitch_rad / 2.0));
    [c * pc, -s * ps, c * ps, s * pc]
}

/// The settings with the cosines of their done angles.
fn with_cosines(mut s: Settings) -> Settings {
    s[15] = cosine(s[1]);
    s[16] = cosine(s[5]);
    s
}

/// Settings near the defaults.
pub fn settings(random: &mut Random, airframe: Airframe) -> Settings {
    let mut s = defaults(airframe);
    if airframe == Airframe::Quadplane && random.once_in(6) {
        s = EXAMPLE;
    } else if !random.once_in(6) {
        varied(random, airframe, &mut s);
    }
    if bad_field(airframe, &s) == 0 { s } else { defaults(airframe) }
}

fn varied(random: &mut Random, airframe: Airframe, s: &mut Settings) {
    for x in s.iter_mut() {
        *x *= random.between(0.6, 1.4);
    }
    let (heights, thrusts): (_, &[usize]) = match airframe {
        Airframe::Tailsitter => (7..9, &[9, 10]),
        Airframe::Quadplane => (3..5, &[10]),
    };
    for i in thrusts {
        s[*i] = s[*i].min(1.0);
    }
    for i in heights {
        s[i] = random.pick(&[0.0, 2.5, 5.0, 7.3, 12.0]);
    }
    s[13] = random.pick(&[0.0, 0.25, 0.5, 0.7, 3.0]);
    match airframe {
        Airframe::Tailsitter => {
            s[3] = random.pick(&[0.0, 6.0, 9.7]);
            s[6] = random.pick(&[s[6], 1.5, 3.0, 6.0]);
            s[11] = random.pick(&[0.0, 0.5, 1.0, 2.5]);
            s[2] = s[2].min(FRAC_PI_2);
            *s = with_cosines(*s);
        }
        Airframe::Quadplane => {
            s[1] = random.pick(&[s[1], 5.0, 1.0, 2.0]);
            s[2] = random.pick(&[s[2], 1.5, 4.0]);
            s[7] = random.pick(&[s[7], 2.5, 5.0]);
            s[9] = random.pick(&[s[9], 0.0, 0.05]);
            s[10] = random.pick(&[s[10], 1.0, 0.7, 0.25, 0.0]);
            s[11] = random.pick(&[s[11], 0.05, 0.5, 2.0]);
        }
    }
}

/// What the aircraft is doing, in a flight as it would be flown.
struct Aircraft {
    height_m: f32,
    speed_mps: f32,
    tilt_rad: f32,
    heading_rad: f32,
    wind_mps: f32,
    home_z_m: f32,
}

/// Up, over to plane flight, cruise and back, with `steps` steps.
pub fn flight(flight: &mut Flight, steps: usize) {
    let random = &mut flight.random;
    let mut aircraft = Aircraft {
        height_m: 0.0,
        speed_mps: 0.0,
        tilt_rad: 0.0,
        heading_rad: random.between(-3.0, 3.0),
        wind_mps: random.between(-2.0, 2.0),
        home_z_m: random.between(-20.0, 300.0),
    };
    flight.call(Call::Prime(aircraft.home_z_m));
    let pace = flight.random.pick(&[0.005, 0.25, 0.7, 1.0, 1.0, 1.0]);
    let (climb, cruise) = (steps / 8, steps * 3 / 4);
    for i in 0..steps {
        let plane_requested = (climb..cruise).contains(&i);
        let short = flight.random.once_in(10);
        let dt = if short { 0.005 } else { flight.random.between(pace, 2.0 * pace) };
        moved(flight, &mut aircraft, plane_requested, dt);
        if flight.random.once_in(30) {
            event(flight);
        }
    }
}

/// A call that is no step, in the middle of a flight.
fn event(flight: &mut Flight) {
    match flight.random.below(3) {
        0 => flight.cut(),
        1 => {
            let s = settings(&mut flight.random, flight.track.airframe);
            flight.call(Call::Settings(s));
        }
        _ => {
            let mut step = flight.hold();
            step.numbers[13] = 2.0 * flight.track.roll_limit_rad();
            flight.step(step);
        }
    }
}

/// One step of the aircraft.
fn moved(flight: &mut Flight, aircraft: &mut Aircraft, plane_requested: bool, dt: f32) {
    let forward = matches!(flight.track.mode, FlightMode::ToPlane | FlightMode::Plane);
    let climb_mps = if aircraft.height_m < 20.0 {
        5.0
    } else {
        flight.random.between(-3.0, 1.0)
    };
    let acceleration = if forward {
        flight.random.between(3.0, 9.0)
    } else {
        flight.random.between(-5.0, -0.5)
    };
    aircraft.height_m = (aircraft.height_m + climb_mps * dt.max(0.5)).max(0.0);
    aircraft.speed_mps = (aircraft.speed_mps + acceleration * dt).clamp(0.0, 22.0);
    let tilt_end = if forward { 1.45 } else { 0.05 };
    let turn = (1.2 * dt).min(1.0) * (tilt_end - aircraft.tilt_rad);
    aircraft.tilt_rad += turn;
    let mut step = flight.plain();
    let (c, s) = (cosine(aircraft.heading_rad), sine(aircraft.heading_rad));
    let n = &mut step.numbers;
    n[0] = dt;
    n[1] = aircraft.home_z_m + aircraft.height_m;
    n[2..5].copy_from_slice(&[aircraft.speed_mps * c, aircraft.speed_mps * s, climb_mps]);
    n[5..7].copy_from_slice(&[acceleration * c, acceleration * s]);
    let attitude = match flight.track.airframe {
        Airframe::Tailsitter => pitched(FRAC_PI_2 - aircraft.tilt_rad),
        Airframe::Quadplane => headed(aircraft.heading_rad, 0.05),
    };
    n[7..11].copy_from_slice(&attitude);
    n[11] = (aircraft.speed_mps + aircraft.wind_mps).max(0.0);
    n[12] = aircraft.tilt_rad.max(0.0);
    step.plane_requested = plane_requested;
    step.airspeed_present = flight.track.airframe == Airframe::Quadplane || flight.random.once_in(2);
    flight.step(step);
}
