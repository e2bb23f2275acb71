//! The tailsitter's own edges: done cosines, airspeed, entry tilt, tilt.

use super::around;
use super::flight::{Flight, HOVER, LEVEL};
use crate::random::SMALLEST;
use stable_flight::FlightMode;
use std::f32::consts::PI;

pub fn add(f: &mut Flight) {
    done(f);
    airspeeds(f);
    entry_tilts(f);
    tilt_ramps(f);
    rounded_tilts(f);
}

/// The nose-up cosine at both done cosines and beside them, and not finite.
fn done(f: &mut Flight) {
    let few = [f32::NAN, f32::INFINITY, 1.0, 0.875, -1.0];
    for cosine in around(0.625).into_iter().rev().chain(few).chain([f32::NEG_INFINITY]) {
        f.be_in(FlightMode::ToPlane);
        f.step(HOVER.nose_up(cosine));
    }
    for cosine in around(0.875)
        .into_iter()
        .chain([f32::NAN, f32::NEG_INFINITY, -1.0, 0.625, 1.0, f32::INFINITY])
    {
        f.be_in(FlightMode::ToCopter);
        f.step(LEVEL.copter().nose_up(cosine));
    }
    // Done at the very step of the timeout, and past it.
    for dt in [15.0, 16.0] {
        f.enter(FlightMode::ToPlane);
        f.step(LEVEL.dt(dt));
        f.enter(FlightMode::ToPlane);
        f.step(LEVEL.dt(dt).airspeed(Some(11.0)));
    }
    // New cosines count from the next step.
    f.enter(FlightMode::ToPlane);
    f.set_changed(&[(16, 1.0), (17, SMALLEST)]);
    f.step(HOVER);
    f.step(LEVEL.copter());
    f.step(LEVEL.copter().nose_up(0.0));
    f.step(LEVEL.copter().nose_up(SMALLEST));
    f.set_round();
}

/// The airspeed at the minimum and beside it, absent and not valid.
fn airspeeds(f: &mut Flight) {
    let few = [0.0, -0.0, f32::INFINITY, f32::NAN, -1.0, -SMALLEST, f32::NEG_INFINITY];
    let present = around(12.0).into_iter().chain(few).map(Some);
    for airspeed in present.chain([None]) {
        f.be_in(FlightMode::ToPlane);
        f.step(LEVEL.airspeed(airspeed));
    }
    // No minimum.
    for min in [0.0, -0.0] {
        f.set_changed(&[(4, min)]);
        for airspeed in [0.0, -0.0] {
            f.enter(FlightMode::ToPlane);
            f.step(LEVEL.airspeed(Some(airspeed)));
        }
    }
    f.set_round();
}

/// Entry tilts at the ends of their range, forward and back, and nose-up cosines that are not finite.
fn entry_tilts(f: &mut Flight) {
    for tilt in [0.0, -0.0, SMALLEST, 1.3, PI] {
        f.prime(0.0);
        f.step(HOVER.tilt(tilt));
        f.step(HOVER.tilt(0.3));
        f.step(LEVEL.tilt(0.6));
        f.step(LEVEL.copter().tilt(tilt));
        f.step(LEVEL.copter().tilt(0.4));
    }
    for cosine in [f32::NAN, f32::INFINITY, f32::NEG_INFINITY] {
        let tilt = if cosine.is_nan() { f32::NAN } else { 0.9 };
        f.prime(0.0);
        f.step(HOVER.nose_up(cosine).tilt(tilt));
        f.step(HOVER);
        f.step(LEVEL);
        f.step(LEVEL.nose_up(cosine).tilt(tilt).copter());
        f.step(LEVEL.copter());
    }
    // A tripped floor enters with its tilt too.
    for cosine in [0.0, f32::NAN] {
        f.enter(FlightMode::Plane);
        f.step(LEVEL.z(1.0).tilt(0.8).nose_up(cosine));
        f.step(LEVEL);
    }
}

/// The tilt to its largest and to 0, and beside them.
fn tilt_ramps(f: &mut Flight) {
    for dt in [2.25, 2.25f32.next_down(), 1.3, 9.0] {
        f.enter(FlightMode::ToPlane);
        f.step(HOVER.dt(dt));
    }
    for dt in [4.0, 4.0f32.next_up(), 1.3] {
        f.enter(FlightMode::ToCopter);
        f.step(LEVEL.copter().dt(dt));
    }
    f.enter(FlightMode::Plane);
    f.step(LEVEL.copter().tilt(0.0));
    f.step(LEVEL.copter().dt(SMALLEST));
    f.step(LEVEL.copter().dt(1.0));
    // Rates that pass the largest number or that do not move the tilt.
    for rate in [f32::MAX, SMALLEST, 1.1] {
        f.set_changed(&[(1, rate), (5, rate)]);
        f.enter(FlightMode::ToPlane);
        f.step(HOVER.dt(2.0));
        f.enter(FlightMode::ToCopter);
        f.step(LEVEL.copter().dt(1.1));
    }
    f.set_round();
}

/// Tilts with all their digits, on both ways.
fn rounded_tilts(f: &mut Flight) {
    for _ in 0..3 {
        let rates = [f.list.random.between(0.25, 0.35), f.list.random.between(0.35, 0.4)];
        let tilts = [f.list.random.between(0.0, 0.05), f.list.random.between(1.45, 1.5)];
        f.set_changed(&[(1, rates[0]), (5, rates[1])]);
        f.prime(0.0);
        f.step(HOVER.tilt(tilts[0]));
        for air in [HOVER, LEVEL.copter()] {
            for most in [3.0, 0.2, 0.2, 0.2] {
                let dt = f.list.random.between(0.9, 1.0) * most;
                f.step(air.dt(dt));
            }
            f.step(LEVEL);
            f.step(LEVEL.tilt(tilts[1]).copter());
        }
    }
    f.set_round();
}
