//! The quadplane's thrust in ToPlane (document 02, 2.2): run up to field 11 and to its neighbours, and with settings at their edges.

use super::flight::{Flight, dt_at};
use crate::machine::Step;
use crate::random::SMALLEST;
use stable_flight::FlightMode;

/// How many sequences of its own the run-up has.
pub const SEQUENCES: u64 = 6;

impl Flight {
    /// A step in which ToPlane goes on, with the dt that runs the thrust up exactly to this number, if there is one.
    pub fn run_up_to(&mut self, thrust: f32) -> Step {
        let mut step = self.hold();
        if let Some(dt) = dt_at(self.track.field(12), self.track.thrust, thrust) {
            step.numbers[0] = dt;
        }
        step
    }

    pub fn run_up_sequence(&mut self, which: u64) {
        match which {
            0 => self.run_up_to_the_bound(),
            1 => self.run_up_to_other_bounds(),
            2 => self.run_up_by_extremes(),
            3 => self.run_up_to_zeros(),
            4 => self.run_up_in_handoff(),
            _ => self.run_up_and_leave(),
        }
        self.change(&[(11, 1.0), (12, 0.33)]);
    }

    /// New settings that leave time enough, and ToPlane entered.
    fn enter_with(&mut self, most: f32, slew_per_s: f32) -> bool {
        self.change(&[(2, 20.0), (3, 30.0), (11, most), (12, slew_per_s), (14, 8.0)]);
        self.enter_anew(FlightMode::ToPlane)
    }

    /// One float short of field 11, at it, past it by one float and by more.
    fn run_up_to_the_bound(&mut self) {
        let most = self.random.pick(&[0.75, 0.7, 1.0]);
        if !self.enter_with(most, 0.3) {
            return;
        }
        for thrust in [most * 0.5, most.next_down(), most, most.next_up()] {
            let step = self.run_up_to(thrust);
            self.step(step);
        }
        self.hold_with(1, 0.5);
    }

    /// Field 11 below the thrust, and above it again.
    fn run_up_to_other_bounds(&mut self) {
        if !self.enter_with(1.0, 0.5) {
            return;
        }
        for most in [1.0, 0.3, 0.9, 0.0, 0.6] {
            self.change(&[(11, most)]);
            self.hold_with(1, 0.75);
        }
    }

    /// Rises that round to 0, that are the least above it, that the sum loses, and an infinite one.
    fn run_up_by_extremes(&mut self) {
        if !self.enter_with(0.8, SMALLEST) {
            return;
        }
        self.hold_with(1, 0.25);
        for (slew_per_s, dt) in [(SMALLEST, 0.75), (0.4, 1.0), (SMALLEST, 0.25), (1.0, SMALLEST), (f32::MAX, 2.0)] {
            self.change(&[(12, slew_per_s)]);
            self.hold_with(1, dt);
        }
    }

    /// Field 11 of 0 and of -0, with a rise above 0 and with one of 0.
    fn run_up_to_zeros(&mut self) {
        if !self.enter_with(-0.0, 0.5) {
            return;
        }
        for (most, slew_per_s) in [(-0.0, SMALLEST), (-0.0, 0.5), (-0.0, SMALLEST), (0.0, SMALLEST), (0.0, 0.5)] {
            self.change(&[(11, most), (12, slew_per_s)]);
            self.hold_with(1, 0.25);
        }
    }

    /// ToPlane while a handoff runs that began on the way back, left by a request, by a roll cut and past the timeout.
    fn run_up_in_handoff(&mut self) {
        self.change(&[(14, 60.0)]);
        if !self.enter_anew(FlightMode::Copter) {
            return;
        }
        for end in 0..3 {
            if !self.reach(FlightMode::ToPlane) {
                return;
            }
            self.hold_with(1, 0.5);
            self.leave_to_copter(end);
        }
    }

    /// A thrust above 0, then Copter by a request, by a roll cut and past the timeout, with no handoff running; and Plane.
    fn run_up_and_leave(&mut self) {
        self.prime();
        for end in 0..3 {
            if !self.enter_with(1.0, 0.25) {
                return;
            }
            self.hold_with(1, 1.5);
            self.leave_to_copter(end);
        }
        self.enter_anew(FlightMode::Plane);
    }

    /// The step back from ToPlane to Copter: by a request, by a roll cut or past the timeout.
    fn leave_to_copter(&mut self, end: u64) {
        let mut step = self.hold();
        match end {
            0 => step.plane_requested = false,
            1 => step.numbers[13] = 2.0 * self.track.roll_limit_rad(),
            _ => step.numbers[0] = self.track.timeout_s() * 1.5,
        }
        self.step(step);
    }
}
