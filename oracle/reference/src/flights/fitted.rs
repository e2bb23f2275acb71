//! Settings fitted to a step: a bound set to the very number that the step will bring to it, or to a neighbour.

use super::flight::Flight;
use crate::joined::Call;
use crate::machine::{Step, transitioning};
use crate::settings::{height_fields, timeout_fields};
use crate::track::{forward_speed, nose_up};
use stable_flight::FlightMode;

/// A number, or the float next to it.
fn moved(x: f32, off: i8) -> f32 {
    match off {
        0 => x,
        1 => x.next_up(),
        _ => x.next_down(),
    }
}

impl Flight {
    /// Settings fitted to a step of the present mode, then the step.
    pub fn fit(&mut self) {
        if transitioning(self.track.mode) && self.random.once_in(3) {
            self.fit_timeout();
        } else {
            let off = self.random.pick(&[0, 0, 1, -1]);
            self.fit_off(off);
        }
    }

    /// The bound so many floats off what the step brings to it.
    pub fn fit_off(&mut self, off: i8) {
        let tailsitter = self.track.is_tailsitter();
        match self.track.mode {
            FlightMode::Copter | FlightMode::Plane => self.fit_height(off),
            FlightMode::ToPlane if tailsitter => self.fit_nose(16, off),
            FlightMode::ToPlane => self.fit_lift_ramp(off),
            _ if tailsitter => self.fit_nose(17, off),
            _ => self.fit_speed(off),
        }
    }

    fn fit_height(&mut self, off: i8) {
        if self.track.mode == FlightMode::Copter && self.random.once_in(2) {
            // So far below the altitude flown that the difference rounds.
            let z_m = self.random.between(0.1, 3.0);
            self.call(Call::Prime(z_m));
        }
        let mut step = self.request(true);
        step.numbers[1] = self.random.between(0.0, 700.0);
        let height = step.numbers[1] - self.track.home_z_m;
        let [least, floor] = height_fields(self.track.airframe);
        if height > 0.0 && height.is_finite() {
            let bound = moved(height, off);
            let lower = self.random.pick(&[0.0, height * 0.5, bound]);
            let both = if self.random.once_in(2) { [bound, lower] } else { [lower, bound] };
            self.change(&[(least, both[0]), (floor, both[1])]);
        }
        self.step(step);
    }

    fn fit_timeout(&mut self) {
        let step = self.hold();
        let clock = self.track.clock_s + step.dt();
        let [there, back] = timeout_fields(self.track.airframe);
        if clock.is_finite() {
            let bound = self.random.near(clock);
            self.change(&[(there, bound), (back, bound)]);
        }
        self.step(step);
    }

    /// Four numbers for an attitude.
    fn any_attitude(&mut self, step: &mut Step) {
        step.numbers[7..11].fill_with(|| self.random.between(-0.8, 0.8));
    }

    fn fit_nose(&mut self, field: usize, off: i8) {
        let mut step = self.hold();
        self.any_attitude(&mut step);
        if nose_up(&step) < 0.0 {
            step.numbers[7] = -step.numbers[7];
            step.numbers[8] = -step.numbers[8];
        }
        let bound = moved(nose_up(&step), off);
        if bound > 0.0 && bound <= 1.0 {
            self.change(&[(field, bound)]);
        }
        step.airspeed_present = false;
        self.step(step);
    }

    fn fit_lift_ramp(&mut self, off: i8) {
        if self.track.ramp_start_s.is_none() {
            let step = self.ramp_step();
            self.step(step);
        }
        let (FlightMode::ToPlane, Some(start)) = (self.track.mode, self.track.ramp_start_s) else {
            return;
        };
        let mut step = self.hold();
        step.numbers[0] = self.usual_dt();
        let time = (self.track.clock_s + step.dt()) - start;
        if time > 0.0 && time.is_finite() {
            let bound = moved(time, off);
            self.change(&[(2, bound)]);
        }
        self.step(step);
    }

    fn fit_speed(&mut self, off: i8) {
        let mut step = self.hold();
        self.any_attitude(&mut step);
        step.numbers[2..5].fill_with(|| self.random.between(-20.0, 20.0));
        if forward_speed(&step) < 0.0 {
            for v in &mut step.numbers[2..5] {
                *v = -*v;
            }
        }
        let bound = moved(forward_speed(&step), off);
        if bound >= 0.0 && bound.is_finite() {
            self.change(&[(7, bound)]);
        }
        self.step(step);
    }
}
