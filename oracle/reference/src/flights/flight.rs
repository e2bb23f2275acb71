//! A flight in the making: its records so far, and the machine that they have led to.

use super::usual;
use crate::card::{RECORD_BYTES, RecordBytes, header_kind};
use crate::joined::{Call, Joined};
use crate::machine::{Airframe, REASONS, Step, transitioning};
use crate::random::Random;
use crate::settings::{Settings, fields};
use crate::track::Track;
use stable_flight::FlightMode;
use std::f32::consts::{FRAC_PI_2, PI};

pub struct Flight {
    pub random: Random,
    pub track: Track,
    /// The header, then the records in the order of the calls; their next indices are written last.
    pub records: Vec<RecordBytes>,
}

/// A record with these numbers from number `first` on. The others are not used: zeros, or any bytes.
pub fn record(random: &mut Random, kind: u8, option: u8, first: usize, numbers: &[f32]) -> RecordBytes {
    let mut bytes = [0; RECORD_BYTES];
    if random.once_in(2) {
        bytes.fill_with(|| random.draw() as u8);
    }
    bytes[..4].copy_from_slice(&[kind, option, 0, 0]);
    for (i, x) in numbers.iter().enumerate() {
        let at = 4 * (first + i);
        bytes[at..at + 4].copy_from_slice(&x.to_le_bytes());
    }
    bytes
}

pub fn header(random: &mut Random, airframe: Airframe, settings: &Settings) -> RecordBytes {
    record(random, header_kind(airframe), 0, 1, &settings[..fields(airframe)])
}

/// A number and its neighbours.
pub fn around(x: f32) -> [f32; 7] {
    let (up, down) = (x.next_up(), x.next_down());
    let (up2, down2) = (up.next_up(), down.next_down());
    [x, up, down, up2, down2, up2.next_up(), down2.next_down()]
}

/// A dt that brings a sum of steps from one number exactly to another.
pub fn dt_to(from: f32, to: f32) -> Option<f32> {
    dt_at(1.0, from, to)
}

/// The same of a sum that grows by so much in each second.
pub fn dt_at(rate: f32, from: f32, to: f32) -> Option<f32> {
    let good = |dt: &f32| *dt > 0.0 && dt.is_finite() && from + rate * *dt == to;
    around((to - from) / rate).into_iter().find(good)
}

impl Flight {
    pub fn new(mut random: Random, airframe: Airframe, settings: &Settings) -> Flight {
        let joined = Joined::new(airframe, settings).expect("settings that were found good");
        let records = vec![header(&mut random, airframe, settings)];
        let track = Track::new(joined);
        Flight { random, track, records }
    }

    /// The next call.
    pub fn call(&mut self, call: Call) {
        let random = &mut self.random;
        let bytes = match &call {
            Call::Prime(z_m) => record(random, 1, 0, 2, &[*z_m]),
            Call::Step(step) => record(random, 2, step.option(), 1, &step.numbers),
            Call::Cut(reason) => record(random, 3, *reason, 1, &[]),
            Call::Settings(s) => record(random, 4, 0, 1, &s[..fields(self.track.airframe)]),
        };
        self.records.push(bytes);
        // A refusal leaves the machine as it was.
        let _ = self.track.call(&call);
    }

    pub fn step(&mut self, step: Step) {
        self.call(Call::Step(step));
    }

    pub fn prime(&mut self) {
        let z_m = match self.random.below(4) {
            0 => 0.0,
            1 => self.random.pick(&[-0.0, 100.0, -20.5, 1.0e-3, 1000.25]),
            _ => self.random.between(-50.0, 500.0),
        };
        self.call(Call::Prime(z_m));
    }

    pub fn cut(&mut self) {
        let (reason, _) = self.random.pick(&REASONS);
        self.call(Call::Cut(reason));
    }

    /// The altitude at exactly this height, if there is one.
    pub fn z_at(&self, height_m: f32) -> f32 {
        let home = if self.track.home_z_m.is_nan() { 0.0 } else { self.track.home_z_m };
        let near = home + height_m;
        around(near).into_iter().find(|z| z - home == height_m).unwrap_or(near)
    }

    /// The height that a way to plane flight needs.
    pub fn needed_height_m(&self) -> f32 {
        self.track.min_height_m().max(self.track.plane_min_height_m())
    }

    /// An altitude high enough for everything.
    pub fn high_z_m(&mut self) -> f32 {
        let spare = self.random.between(0.5, 40.0);
        self.z_at(self.needed_height_m() + spare).min(f32::MAX)
    }

    pub fn usual_dt(&mut self) -> f32 {
        if self.random.once_in(2) {
            self.random.pick(&[0.005, 0.01, 0.02, 0.05, 0.1, 0.25, 0.5, 1.0, 2.0])
        } else {
            self.random.between(0.005, 2.0)
        }
    }

    fn usual_demand(&mut self) -> f32 {
        match self.random.below(8) {
            0 | 1 => self.random.pick(&[f32::NAN, -1.0, 2.0, -0.0, 1.0, 0.0]),
            _ => self.random.between(0.0, 1.0),
        }
    }

    /// A step with ordinary numbers: high, bank within the limit, any request.
    pub fn plain(&mut self) -> Step {
        let (dt, z_m, demand) = (self.usual_dt(), self.high_z_m(), self.usual_demand());
        let bank_rad = self.track.roll_limit_rad() * self.random.between(-0.9, 0.9);
        let random = &mut self.random;
        let velocity = [random.between(-3.0, 25.0), random.between(-4.0, 4.0), random.between(-4.0, 3.0)];
        let acceleration = [random.between(-6.0, 4.0), random.between(-2.0, 2.0)];
        let attitude = usual::attitude(random, self.track.airframe);
        let (airspeed, tilt_rad) = (random.between(0.0, 25.0), random.between(0.0, FRAC_PI_2));
        let mut numbers = [0.0; 15];
        numbers[0] = dt;
        numbers[1] = z_m;
        numbers[2..5].copy_from_slice(&velocity);
        numbers[5..7].copy_from_slice(&acceleration);
        numbers[7..11].copy_from_slice(&attitude);
        numbers[11..].copy_from_slice(&[airspeed, tilt_rad, bank_rad, demand]);
        Step {
            plane_requested: random.once_in(2),
            airspeed_present: random.once_in(2),
            numbers,
        }
    }

    /// Such a step with this request.
    pub fn request(&mut self, plane_requested: bool) -> Step {
        Step {
            plane_requested,
            ..self.plain()
        }
    }

    /// Sets the attitude so that nose-up is exactly this number.
    pub fn set_nose_up(&mut self, step: &mut Step, c: f32) {
        let forms = [[0.5, 0.0, c, 0.0], [c, 0.0, 0.5, 0.0], [0.0, -0.5, 0.0, c], [0.0, c, 0.0, -0.5]];
        step.numbers[7..11].copy_from_slice(&self.random.pick(&forms));
    }

    /// Sets attitude and velocity so that the forward speed is exactly this number.
    pub fn set_speed(&mut self, step: &mut Step, v: f32) {
        let n = &mut step.numbers;
        let (attitude, velocity) = match self.random.below(4) {
            0 => ([1.0, 0.0, 0.0, 0.0], [v, n[3], n[4]]),
            1 => ([0.0, 0.0, 0.0, 1.0], [-v, n[3], n[4]]),
            2 => ([0.5, 0.0, 0.0, 0.5], [v, v, n[4]]),
            _ => ([0.5, 0.0, 0.5, 0.0], [v, n[3], v]),
        };
        n[7..11].copy_from_slice(&attitude);
        n[2..5].copy_from_slice(&velocity);
    }

    /// A dt that leaves the clock short of a bound, if it can.
    fn dt_short_of(&mut self, bound_s: f32) -> f32 {
        let left = bound_s - self.track.clock_s;
        let dt = self.usual_dt();
        match left > 0.0 {
            true if left * 0.5 > 0.0 => dt.min(left * 0.5),
            true => left,
            false => dt,
        }
    }

    /// The bound that the clock must not pass for the present mode to go on.
    pub fn bound_s(&self) -> f32 {
        match (self.track.mode, self.track.ramp_start_s) {
            (FlightMode::ToPlane, Some(start)) => start + self.track.field(2),
            (FlightMode::ToPlane, None) => self.track.timeout_s(),
            _ => self.track.back_timeout_s(),
        }
    }

    /// A step in which the present mode goes on.
    pub fn hold(&mut self) -> Step {
        let mut step = self.plain();
        let tailsitter = self.track.is_tailsitter();
        let mode = self.track.mode;
        step.plane_requested = matches!(mode, FlightMode::ToPlane | FlightMode::Plane);
        if matches!(mode, FlightMode::Copter | FlightMode::ToCopter) {
            step.plane_requested = self.track.abandonment != 0 && self.random.once_in(2);
        }
        if transitioning(mode) {
            step.numbers[0] = self.dt_short_of(self.bound_s());
        }
        match mode {
            FlightMode::ToPlane if tailsitter => self.keep_nose_up(&mut step),
            FlightMode::ToPlane => self.keep_slow(&mut step),
            FlightMode::ToCopter if tailsitter => self.keep_nose_down(&mut step),
            FlightMode::ToCopter => self.keep_fast(&mut step),
            _ => {}
        }
        step
    }

    /// Nose-up above the forward cosine.
    pub fn keep_nose_up(&mut self, step: &mut Step) {
        let cosine = self.track.field(16);
        let c = self.random.between(cosine.next_up(), 1.5);
        self.set_nose_up(step, c);
    }

    /// Nose-up below the back cosine.
    pub fn keep_nose_down(&mut self, step: &mut Step) {
        let cosine = self.track.field(17);
        let c = cosine - self.random.between(cosine * 0.01, 1.0);
        self.set_nose_up(step, c);
    }

    /// An airspeed below the minimum, or none that is valid.
    pub fn keep_slow(&mut self, step: &mut Step) {
        let least = self.track.min_airspeed_mps();
        step.airspeed_present = self.random.once_in(2);
        step.numbers[11] = match self.random.below(4) {
            0 => self.random.pick(&[-1.0, f32::NAN, f32::NEG_INFINITY]),
            _ if least > 0.0 => (least * self.random.between(0.0, 0.99)).min(least.next_down()),
            _ => -1.0,
        };
    }

    /// A forward speed that is not below the back speed.
    pub fn keep_fast(&mut self, step: &mut Step) {
        let v = self.track.field(7) + self.random.between(0.0, 20.0);
        self.set_speed(step, v);
    }

    /// A step that leads on: Copter, ToPlane, Plane, ToCopter, Copter.
    pub fn advance(&mut self) {
        match self.track.mode {
            FlightMode::Copter => self.advance_in_copter(),
            FlightMode::ToPlane if self.track.is_tailsitter() => {
                let step = self.nose_down_step();
                self.step(step);
            }
            FlightMode::ToPlane => {
                let step = self.ramp_step();
                self.step(step);
            }
            FlightMode::Plane => {
                let mut step = self.request(false);
                step.numbers[12] = self.usual_tilt();
                self.step(step);
            }
            _ => {
                let step = self.back_done_step();
                self.step(step);
            }
        }
    }

    fn usual_tilt(&mut self) -> f32 {
        if self.random.once_in(3) {
            self.random.pick(&[0.0, -0.0, PI, PI.next_down(), FRAC_PI_2, 0.01])
        } else {
            self.random.between(0.0, FRAC_PI_2)
        }
    }

    fn advance_in_copter(&mut self) {
        if !self.track.home_z_m.is_finite() || self.track.home_z_m.abs() > 1e6 {
            return self.prime();
        }
        let mut step = self.request(self.track.abandonment == 0);
        step.numbers[12] = self.usual_tilt();
        self.step(step);
    }

    /// The tailsitter's step from ToPlane to Plane.
    pub fn nose_down_step(&mut self) -> Step {
        let mut step = self.plain();
        let (cosine, least) = (self.track.field(16), self.track.min_airspeed_mps());
        let c = self.random.pick(&[cosine, cosine * 0.5, 0.0, -0.25, -1.0]);
        self.set_nose_up(&mut step, c);
        step.plane_requested = true;
        step.numbers[11] = match self.random.below(4) {
            0 => least,
            1 => self.random.pick(&[-1.0, f32::NAN, f32::INFINITY]),
            _ => least + self.random.between(0.0, 10.0),
        };
        step
    }

    /// The quadplane's step from ToPlane on: it begins the ramp, or ends it.
    pub fn ramp_step(&mut self) -> Step {
        let mut step = self.plain();
        let least = self.track.min_airspeed_mps();
        step.plane_requested = true;
        step.airspeed_present = true;
        step.numbers[11] = least + self.random.pick(&[0.0, 0.0, 3.0, 12.5]);
        step.numbers[0] = match self.track.ramp_start_s {
            None => self.dt_short_of(self.track.timeout_s()),
            Some(_) => ((self.bound_s() - self.track.clock_s).max(0.0) * 1.01 + 0.01).min(f32::MAX),
        };
        step
    }

    /// A step in which ToCopter is done.
    pub fn back_done_step(&mut self) -> Step {
        let mut step = self.plain();
        if self.track.is_tailsitter() {
            let c = self.random.pick(&[self.track.field(17), 1.0, 1.25]);
            self.set_nose_up(&mut step, c);
        } else {
            let back = self.track.field(7);
            let v = self.random.pick(&[back.next_down(), back * 0.5, 0.0, -2.0]);
            self.set_speed(&mut step, if v < back { v } else { -2.0 });
        }
        step.plane_requested = self.track.abandonment != 0 && self.random.once_in(2);
        step
    }

    /// Leads the machine to a mode, with the steps that it takes. Says whether it got there.
    pub fn reach(&mut self, mode: FlightMode) -> bool {
        for _ in 0..12 {
            if self.track.mode == mode {
                return true;
            }
            self.advance();
        }
        false
    }
}
