//! The quadplane's own edges: airspeed, lift ramp, slowing, back ramp.

use super::around;
use super::flight::{Air, Flight, HOVER, LEVEL};
use crate::random::SMALLEST;
use stable_flight::FlightMode;

pub fn add(f: &mut Flight) {
    airspeeds(f);
    lift_ramps(f);
    ramp_and_timeout(f);
    slowed(f);
    back_ramps(f);
    rounded_shares(f);
}

/// The airspeed that begins the ramp: at the minimum and beside it, absent and not valid.
fn airspeeds(f: &mut Flight) {
    let few = [0.0, -0.0, f32::NAN, -1.0, f32::NEG_INFINITY, -20.0];
    let present = few.into_iter().chain([9.0f32.next_down(), 9.0]).map(Some);
    f.enter(FlightMode::ToPlane);
    for airspeed in [None].into_iter().chain(present) {
        f.step(HOVER.airspeed(airspeed));
        f.step(HOVER.airspeed(None));
    }
    for airspeed in [9.0f32.next_up(), f32::INFINITY] {
        f.enter(FlightMode::ToPlane);
        f.step(HOVER.airspeed(Some(airspeed)));
        f.step(HOVER);
    }
    for (min, airspeed) in [(0.0, -0.0), (-0.0, 0.0), (0.0, -SMALLEST), (0.0, f32::NAN)] {
        f.set_changed(&[(1, min)]);
        f.enter(FlightMode::ToPlane);
        f.step(HOVER.airspeed(Some(airspeed)));
        f.step(HOVER.airspeed(None));
    }
    f.set_round();
}

/// Ramps that end exactly at their time, one float before it and after it, from several starts.
fn lift_ramps(f: &mut Flight) {
    for start in [0.25, 0.3] {
        for dt in around(4.0) {
            f.enter(FlightMode::ToPlane);
            f.step(LEVEL.dt(start));
            f.step(HOVER.dt(dt));
            f.step(HOVER);
        }
    }
    // Starts whose clock rounds down, and up, when the ramp's time is added.
    for down in [true, false] {
        let start = rounded_start(f, down);
        f.enter(FlightMode::ToPlane);
        f.step(LEVEL.dt(start));
        f.step(HOVER.dt(4.0));
        f.step(HOVER);
    }
    // Steps within a ramp: slow again, without airspeed.
    f.enter(FlightMode::ToPlane);
    f.step(HOVER.dt(1.1));
    for (dt, airspeed) in [
        (0.7, Some(9.0)),
        (0.7, Some(0.0)),
        (0.9, None),
        (1.3, Some(f32::NAN)),
        (0.9, Some(50.0)),
        (0.3, None),
    ] {
        f.step(HOVER.dt(dt).airspeed(airspeed));
    }
    changed_ramps(f);
}

/// Ramps that end early, or whose time changes.
fn changed_ramps(f: &mut Flight) {
    // A ramp that another request ends begins anew.
    f.enter(FlightMode::ToPlane);
    f.step(LEVEL);
    f.step(LEVEL.dt(2.0));
    f.step(HOVER.copter());
    f.step(HOVER);
    f.step(HOVER.dt(5.0));
    f.step(LEVEL);
    f.step(HOVER.dt(1.0));
    // New ramp times within a ramp.
    for ramp_s in [8.0, 0.5, SMALLEST, f32::MAX] {
        f.enter(FlightMode::ToPlane);
        f.step(LEVEL);
        f.step(HOVER.dt(1.0));
        f.set_changed(&[(2, ramp_s)]);
        f.step(HOVER);
        f.set_round();
    }
}

/// A start of the ramp with clock - start below 4, or above it, where 4 was added.
fn rounded_start(f: &mut Flight, down: bool) -> f32 {
    loop {
        let start = f.list.random.between(4.0, 8.0);
        let ran = (start + 4.0) - start;
        if (down && ran < 4.0) || (!down && ran > 4.0) {
            return start;
        }
    }
}

/// The timeout counts until the ramp begins, and before the test that begins it.
fn ramp_and_timeout(f: &mut Flight) {
    for dt in around(15.0) {
        f.enter(FlightMode::ToPlane);
        f.step(LEVEL.dt(dt));
        f.step(LEVEL.dt(3.0));
        f.step(LEVEL.dt(30.0));
    }
    f.enter(FlightMode::ToPlane);
    f.step(HOVER.dt(14.0));
    f.step(LEVEL);
    f.step(HOVER.dt(3.5));
    f.step(HOVER.dt(0.5));
    f.enter(FlightMode::ToPlane);
    f.step(LEVEL);
    f.step(LEVEL);
    f.cut(15);
    f.step(HOVER);
    // Clocks that pass the largest number.
    f.set_changed(&[(3, f32::MAX), (2, 3e38), (8, f32::MAX), (6, 1e38)]);
    f.enter_with(f32::MAX, 1.0);
    f.enter_with(1e38, 2e38);
    f.step(LEVEL.copter().dt(3e38));
    f.step(LEVEL.copter().dt(3e38));
    f.set_round();
}

impl Flight<'_> {
    /// A forward transition whose ramp begins after one dt and runs for another, twice.
    fn enter_with(&mut self, begin: f32, run: f32) {
        self.enter(FlightMode::ToPlane);
        self.step(LEVEL.dt(begin));
        self.step(LEVEL.dt(run));
        self.step(LEVEL.dt(3e38));
        self.step(LEVEL.copter());
    }
}

/// The forward speed at its limit and beside it, by ground and by air.
fn slowed(f: &mut Flight) {
    let speeds = around(6.0).into_iter().rev().chain([-20.0, 0.0]);
    for speed in speeds {
        f.be_in(FlightMode::ToCopter);
        f.step(HOVER.copter().speed(speed).airspeed(Some(20.0)));
    }
    let few = [f32::NAN, -1.0, f32::NEG_INFINITY, f32::INFINITY, -0.0];
    for airspeed in around(6.0).into_iter().rev().chain(few).map(Some).chain([None]) {
        f.be_in(FlightMode::ToCopter);
        f.step(LEVEL.copter().speed(f32::NAN).airspeed(airspeed));
    }
    for unknown in [f32::INFINITY, f32::NEG_INFINITY] {
        for airspeed in [None, Some(5.5)] {
            f.be_in(FlightMode::ToCopter);
            f.step(LEVEL.copter().speed(unknown).airspeed(airspeed));
        }
    }
    // Ground speed, where it is known, counts alone.
    f.enter(FlightMode::ToCopter);
    f.step(LEVEL.copter().speed(7.0).airspeed(Some(1.0)));
    f.step(LEVEL.copter().speed(5.0).airspeed(Some(90.0)));
    f.set_changed(&[(7, 0.0)]);
    f.enter(FlightMode::ToCopter);
    for speed in [0.0, -0.0, SMALLEST, -SMALLEST] {
        f.step(LEVEL.copter().speed(speed));
    }
    f.set_round();
    turned_speeds(f);
}

/// Speeds along a nose that points elsewhere: three that stay fast, one that is slow.
fn turned_speeds(f: &mut Flight) {
    let (up, down, round, right) = (
        [0.5, 0.0, 0.5, 0.0],
        [0.5, 0.0, -0.5, 0.0],
        [0.0, 0.0, 0.0, 1.0],
        [0.5, 0.0, 0.0, 0.5],
    );
    let turns = [
        (up, [[0.0, 1.0, 30.0], [9.0, 0.0, 9.0], [2.0, -9.0, 12.0], [3.0, 0.0, -30.0]]),
        (down, [[0.0, 1.0, -30.0], [9.0, 0.0, -9.0], [20.0, 9.0, 1.0], [3.0, 0.0, 30.0]]),
        (round, [[-9.0, 1.0, 0.0], [-9.0, 20.0, 30.0], [-7.0, -9.0, -9.0], [9.0, -9.0, 0.0]]),
        (right, [[9.0, 9.0, 0.0], [0.0, 20.0, 9.0], [-1.0, 30.0, -9.0], [9.0, -9.0, 0.0]]),
    ];
    for (attitude, velocities) in turns {
        for velocity in velocities {
            f.be_in(FlightMode::ToCopter);
            f.step(Air {
                attitude,
                velocity,
                ..LEVEL.copter()
            });
        }
    }
}

/// The share on the way back, with an abandonment and without.
fn back_ramps(f: &mut Flight) {
    for dt in around(2.0).into_iter().chain([0.7, 5.0, SMALLEST]) {
        f.enter(FlightMode::ToCopter);
        f.step(LEVEL.copter().dt(dt));
        f.step(LEVEL.copter().dt(0.3));
    }
    f.enter(FlightMode::Plane);
    f.step(LEVEL.z(1.0));
    f.step(LEVEL.copter());
    f.step(LEVEL);
    f.enter(FlightMode::ToCopter);
    f.step(LEVEL.copter().dt(1.0));
    for ramp_s in [8.0, 0.5, SMALLEST, f32::MAX] {
        f.set_changed(&[(6, ramp_s)]);
    }
    f.set_round();
}

/// Shares with all their digits, on both ways.
fn rounded_shares(f: &mut Flight) {
    for _ in 0..3 {
        let ramps = [0; 2].map(|_| f.list.random.between(2.5, 6.0));
        let dts = [0; 5].map(|_| f.list.random.between(0.3, 1.2));
        f.set_changed(&[(2, ramps[0]), (6, ramps[1])]);
        f.enter(FlightMode::ToPlane);
        f.step(LEVEL.dt(dts[0]));
        f.step(LEVEL.dt(dts[1]));
        f.step(LEVEL.dt(dts[2]));
        f.step(LEVEL.dt(6.0));
        f.step(LEVEL.copter());
        f.step(LEVEL.dt(dts[3]).copter());
        f.step(LEVEL.dt(dts[4]).copter());
    }
    f.set_round();
}
