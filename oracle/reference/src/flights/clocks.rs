//! Steps that bring a clock, or the quadplane's thrust in ToPlane, exactly to a bound or to a neighbour of it.

use super::flight::{Flight, around, dt_to};
use crate::machine::Step;
use crate::random::SMALLEST;
use stable_flight::FlightMode;

/// What a clock or that thrust is brought to.
#[derive(Debug, Clone, Copy)]
enum Bound {
    Timeout,
    BackTimeout,
    LiftRamp,
    LiftRampSum,
    BackRamp,
    Handoff,
    RunUp,
}

impl Flight {
    /// One approach to a bound, from the mode that it takes.
    pub fn approach(&mut self) {
        let bounds: &[Bound] = if self.track.is_tailsitter() {
            &[Bound::Timeout, Bound::BackTimeout, Bound::Handoff]
        } else {
            &[
                Bound::Timeout,
                Bound::BackTimeout,
                Bound::Handoff,
                Bound::LiftRamp,
                Bound::LiftRampSum,
                Bound::BackRamp,
                Bound::RunUp,
            ]
        };
        match self.random.pick(bounds) {
            Bound::Timeout => self.approach_timeout(FlightMode::ToPlane),
            Bound::BackTimeout => self.approach_timeout(FlightMode::ToCopter),
            Bound::LiftRamp => self.approach_lift_ramp(),
            Bound::LiftRampSum => self.approach_start_plus_ramp(),
            Bound::BackRamp => self.approach_back_ramp(),
            Bound::Handoff => self.approach_any_handoff(),
            Bound::RunUp => self.approach_run_up(),
        }
    }

    /// Leaves a mode, so that it can be entered anew.
    pub fn enter_anew(&mut self, mode: FlightMode) -> bool {
        if self.track.mode == mode {
            self.advance();
        }
        self.reach(mode)
    }

    /// Some steps in which the mode goes on.
    fn wait(&mut self) {
        for _ in 0..self.random.below(3) {
            let step = self.hold();
            self.step(step);
        }
    }

    /// One float below the bound, the bound, one float past it: some of the three, in this order.
    fn targets(&mut self, bound: f32) -> Vec<f32> {
        let all = [bound.next_down(), bound, bound.next_up()];
        let first = self.random.below(3);
        all[first..].to_vec()
    }

    /// The step, with the dt that brings a time exactly to another, if there is one.
    fn step_to(&mut self, mut step: Step, time_s: f32, target_s: f32) {
        if let Some(dt) = dt_to(time_s, target_s) {
            step.numbers[0] = dt;
        }
        self.step(step);
    }

    fn approach_timeout(&mut self, mode: FlightMode) {
        if !self.enter_anew(mode) {
            return;
        }
        self.wait();
        let bound = if mode == FlightMode::ToPlane {
            self.track.timeout_s()
        } else {
            self.track.back_timeout_s()
        };
        for target in self.targets(bound) {
            if self.track.mode != mode || self.track.ramp_start_s.is_some() {
                return;
            }
            let step = self.step_at_timeout(mode);
            self.step_to(step, self.track.clock_s, target);
        }
    }

    /// Mostly a step that would go on, else one that would also complete, or begin the ramp.
    fn step_at_timeout(&mut self, mode: FlightMode) -> Step {
        match (self.random.below(6), mode) {
            (0, FlightMode::ToPlane) if self.track.is_tailsitter() => self.nose_down_step(),
            (0, FlightMode::ToPlane) => self.ramp_step(),
            (0, _) => self.back_done_step(),
            _ => self.hold(),
        }
    }

    fn approach_lift_ramp(&mut self) {
        if !self.enter_anew(FlightMode::ToPlane) {
            return;
        }
        let mut step = self.ramp_step();
        let small: f32 = self.random.pick(&[0.005, 0.0625, 0.25, 0.5]);
        step.numbers[0] = small.min(self.track.timeout_s());
        self.step(step);
        if self.random.once_in(2) {
            self.wait();
        }
        for elapsed in self.targets(self.track.field(2)) {
            let (FlightMode::ToPlane, Some(start)) = (self.track.mode, self.track.ramp_start_s) else {
                return;
            };
            let mut step = self.hold();
            let clocks = around(start + elapsed).into_iter().filter(|clock| clock - start == elapsed);
            if let Some(dt) = clocks.filter_map(|clock| dt_to(self.track.clock_s, clock)).next() {
                step.numbers[0] = dt;
            }
            self.step(step);
        }
    }

    /// A late start, and then a clock near start plus ramp, where the sum and the difference may round apart.
    pub fn approach_start_plus_ramp(&mut self) {
        if !self.enter_anew(FlightMode::ToPlane) {
            return;
        }
        let mut step = self.ramp_step();
        let timeout = self.track.timeout_s();
        step.numbers[0] = (timeout * self.random.between(0.4, 1.0)).max(SMALLEST);
        self.step(step);
        let Some(start) = self.track.ramp_start_s else {
            return;
        };
        let (step, ramp) = (self.hold(), self.track.field(2));
        let apart = |clock: &f32| (clock - start >= ramp) != (*clock >= start + ramp);
        let near = around(start + ramp);
        let clock = near.into_iter().find(apart).unwrap_or(near[0]);
        self.step_to(step, self.track.clock_s, clock);
    }

    fn approach_back_ramp(&mut self) {
        if !self.enter_anew(FlightMode::ToCopter) {
            return;
        }
        self.wait();
        for target in self.targets(self.track.field(6)) {
            let step = self.hold();
            self.step_to(step, self.track.clock_s, target);
        }
    }

    fn approach_run_up(&mut self) {
        if !self.enter_anew(FlightMode::ToPlane) {
            return;
        }
        let most = self.track.field(11);
        let half = self.random.once_in(2).then_some(most * 0.5);
        for target in half.into_iter().chain(self.targets(most)) {
            let step = self.run_up_to(target);
            self.step(step);
        }
    }

    fn approach_any_handoff(&mut self) {
        let mode = self.random.pick(&[FlightMode::Plane, FlightMode::Copter]);
        if self.random.once_in(2) {
            let end = self.random.between(8.0, 40.0);
            self.change(&[(14, end)]);
        }
        let targets = self.targets(self.track.field(14));
        self.approach_handoff(mode, &targets);
    }

    /// A handoff begins on entering Plane or Copter, and that step already counts.
    pub fn approach_handoff(&mut self, mode: FlightMode, targets: &[f32]) {
        if !self.enter_anew(mode) || !self.track.handoff_active() {
            return;
        }
        for target in targets {
            let step = self.hold();
            self.step_to(step, self.track.handoff_elapsed_s, *target);
        }
    }
}
