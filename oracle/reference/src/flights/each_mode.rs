//! The same things done in each mode in turn, and short sequences that need more than one call.

use super::flight::Flight;
use super::rows::NOT_FINITE;
use super::run_up;
use crate::joined::Call;
use crate::machine::{MODES, Step};
use crate::random::SMALLEST;
use crate::settings::{airspeed_field, changed, height_fields, timeout_fields};
use stable_flight::FlightMode;
use std::f32::consts::PI;

const IN_EACH_MODE: u64 = 30;
/// The sequences of both airframes; the quadplane has those of the run-up too.
const SEQUENCES: u64 = 28;

/// The next `count` of all that is done in turn.
pub fn some(flight: &mut Flight, turn: u64, count: u64) {
    let own = if flight.track.is_tailsitter() { 0 } else { run_up::SEQUENCES };
    for i in turn * count..(turn + 1) * count {
        let i = i % (4 * IN_EACH_MODE + SEQUENCES + own);
        if i < 4 * IN_EACH_MODE {
            flight.reach(MODES[(i % 4) as usize]);
            flight.in_mode(i / 4);
        } else {
            flight.sequence(i - 4 * IN_EACH_MODE);
        }
    }
}

impl Flight {
    fn in_mode(&mut self, which: u64) {
        match which {
            0..6 => self.cut_and_ask(11 + which as u8),
            6 => self.hold_with(1, SMALLEST),
            7 => self.hold_with(1, f32::MAX),
            8 => self.hold_with(1, 0.0),
            9 => self.bad_dt_and_tilt(),
            10 => self.hold_with(13, PI),
            11 => self.hold_with(13, PI.next_up()),
            12 => self.bad_tilt_and_bank(),
            13 => self.bad_tilt_with_nose_unknown(),
            14 => self.good_settings(),
            15 => self.settings_below_the_clock(),
            16 => self.bad_settings(),
            17..25 => {
                let bank_rad = self.bank_edges()[which as usize - 17];
                self.hold_with(14, bank_rad);
            }
            25 | 26 => self.bank_on_completion(which == 25),
            27 => self.prime(),
            28 => {
                self.hold_with(1, 0.25);
                self.hold_with(1, SMALLEST);
            }
            _ => self.infinite_clock(),
        }
    }

    /// A cut, then requests for plane flight, and one that clears the abandonment.
    fn cut_and_ask(&mut self, reason: u8) {
        self.call(Call::Cut(reason));
        if reason == 14 {
            self.ask_at(f32::NAN);
        }
        self.ask(true);
        self.ask(false);
    }

    fn bad_tilt_with_nose_unknown(&mut self) {
        let place = 7 + self.random.below(4);
        let mut step = self.held(place, f32::NAN, true);
        step.numbers[12] = self.random.pick(&[-1.0, f32::NAN, f32::INFINITY]);
        self.step(step);
    }

    /// A step with this request, high enough for everything.
    fn ask(&mut self, plane_requested: bool) {
        let step = self.request(plane_requested);
        self.step(step);
    }

    /// A Plane request at this altitude.
    fn ask_at(&mut self, z_m: f32) {
        let mut step = self.request(true);
        step.numbers[1] = z_m;
        self.step(step);
    }

    /// A step that would go on, with one number changed.
    pub fn hold_with(&mut self, number: usize, x: f32) {
        let mut step = self.hold();
        step.numbers[number - 1] = x;
        self.step(step);
    }

    fn bad_dt_and_tilt(&mut self) {
        let mut step = self.hold();
        step.numbers[0] = self.random.pick(&[-1.0, f32::NAN, f32::INFINITY]);
        step.numbers[12] = self.random.pick(&[-1.0, f32::NAN, 4.0]);
        step.numbers[13] = 2.0 * self.track.roll_limit_rad();
        self.step(step);
    }

    /// Refused before the roll is looked at.
    fn bad_tilt_and_bank(&mut self) {
        let mut step = self.hold();
        step.numbers[12] = -SMALLEST;
        step.numbers[13] = 2.0 * self.track.roll_limit_rad();
        self.step(step);
    }

    /// The settings with some of the fields changed.
    pub fn change(&mut self, changes: &[(usize, f32)]) {
        let s = changed(self.track.settings(), changes);
        self.call(Call::Settings(s));
    }

    fn settings_below_the_clock(&mut self) {
        let step = self.hold();
        self.step(step);
        let less = (self.track.clock_s * 0.5).max(0.001);
        let [there, back] = timeout_fields(self.track.airframe);
        self.change(&[(there, less), (back, less)]);
        let step = self.hold();
        self.step(step);
        self.change(&[(there, 5.0), (back, 5.0)]);
    }

    /// A step that would complete, with a bank past the limit; or one with a Copter request.
    fn bank_on_completion(&mut self, completes: bool) {
        let tailsitter = self.track.is_tailsitter();
        let mut step = match self.track.mode {
            FlightMode::ToPlane if tailsitter => self.nose_down_step(),
            FlightMode::ToPlane => {
                let begin = self.ramp_step();
                self.step(begin);
                self.ramp_step()
            }
            FlightMode::ToCopter => self.back_done_step(),
            _ => self.hold(),
        };
        step.plane_requested &= completes;
        step.numbers[13] = -2.0 * self.track.roll_limit_rad();
        self.step(step);
    }

    /// Timeouts at the largest number, and two steps of the largest dt.
    fn infinite_clock(&mut self) {
        let [there, back] = timeout_fields(self.track.airframe);
        self.change(&[(there, f32::MAX), (back, f32::MAX)]);
        self.hold_with(1, f32::MAX);
        self.hold_with(1, f32::MAX);
        self.change(&[(there, 5.0), (back, 5.0)]);
    }

    /// Plane flight below the floor: ToCopter, abandoned with 16.
    fn below_floor(&mut self) -> bool {
        let floor = height_fields(self.track.airframe)[1];
        self.change(&[(floor, 10.0)]);
        if !self.reach(FlightMode::Plane) {
            return false;
        }
        self.ask_at(self.z_at(4.0));
        self.track.mode == FlightMode::ToCopter
    }

    fn sequence(&mut self, which: u64) {
        match which {
            0..10 => {
                if self.below_floor() {
                    self.after_floor(which);
                }
            }
            10 => self.return_past_timeout(),
            11 => self.heights(8.5, 2.25),
            12 => self.heights(2.25, 8.5),
            13 => self.floors(),
            14 => self.primes_in_handoff(),
            15 => self.settings_in_handoff(),
            16..20 => self.fits(MODES[which as usize - 16]),
            20 => self.handoff_ends(),
            21 => self.airspeeds_forward(),
            _ if self.track.is_tailsitter() => self.tailsitter_sequence(which),
            _ => self.quadplane_sequence(which),
        }
    }

    /// Settings fitted to steps in a mode.
    fn fits(&mut self, mode: FlightMode) {
        for off in [0, 1, -1] {
            self.reach(mode);
            self.fit_off(off);
        }
    }

    /// Handoffs at both neighbours of their end, and at it.
    fn handoff_ends(&mut self) {
        let end: f32 = 30.0;
        for (mode, last) in [(FlightMode::Plane, end), (FlightMode::Copter, end.next_up())] {
            self.change(&[(14, end)]);
            self.approach_handoff(mode, &[end.next_down(), last]);
        }
    }

    /// Airspeeds at the minimum and one float below it.
    fn airspeeds_forward(&mut self) {
        let (tailsitter, least) = (self.track.is_tailsitter(), 6.5f32);
        self.change(&[(airspeed_field(self.track.airframe), least)]);
        if !self.reach(FlightMode::ToPlane) {
            return;
        }
        for airspeed in [least.next_down(), least] {
            let mut step = if tailsitter { self.nose_down_step() } else { self.ramp_step() };
            step.airspeed_present = true;
            step.numbers[0] = step.numbers[0].min(0.01);
            step.numbers[11] = airspeed;
            self.step(step);
        }
    }

    fn after_floor(&mut self, which: u64) {
        let past = 2.0 * self.track.roll_limit_rad();
        let step = match which {
            0 | 1 => self.held(13, past, which == 0),
            2 => return self.in_mode(0),
            3 => return self.prime(),
            4 => return self.good_settings(),
            5 | 6 => {
                let late = self.track.back_timeout_s() * 1.5;
                self.held(0, late, which == 5)
            }
            7 | 8 => Step {
                plane_requested: which == 7,
                ..self.back_done_step()
            },
            _ => {
                let step = self.held(0, 0.01, false);
                self.step(step);
                self.held(0, 0.01, true)
            }
        };
        self.step(step);
        self.ask(true);
        self.ask(false);
    }

    fn held(&mut self, place: usize, x: f32, plane_requested: bool) -> Step {
        let mut step = self.hold();
        step.numbers[place] = x;
        step.plane_requested = plane_requested;
        step
    }

    /// Back to Plane in a step past the timeout, with a handoff that is fresh.
    fn return_past_timeout(&mut self) {
        if self.reach(FlightMode::ToCopter) {
            let late = self.track.back_timeout_s() * 1.5;
            let step = self.held(0, late, true);
            self.step(step);
            self.hold_with(1, 0.01);
        }
    }

    /// Requests at the larger minimum and one float below it.
    fn heights(&mut self, least: f32, floor: f32) {
        let [a, b] = height_fields(self.track.airframe);
        self.change(&[(a, least), (b, floor)]);
        let needed = least.max(floor);
        for height in [needed.next_down(), 5.0, needed] {
            self.call(Call::Prime(0.0));
            self.ask_at(height);
        }
    }

    /// Plane flight at the floor, at heights that are not numbers, and below the floor by one float or infinitely.
    fn floors(&mut self) {
        let floor = height_fields(self.track.airframe)[1];
        self.change(&[(floor, 6.0)]);
        self.call(Call::Prime(0.0));
        for last in [6.0f32.next_down(), f32::NEG_INFINITY] {
            if !self.reach(FlightMode::Plane) {
                return;
            }
            for height in [6.0, f32::NAN, f32::INFINITY, last] {
                self.ask_at(height);
            }
        }
        if self.reach(FlightMode::Plane) {
            let step = self.held(1, 2.0, false);
            self.step(step);
        }
        self.change(&[(floor, 0.0)]);
        if self.reach(FlightMode::Plane) {
            self.ask_at(-3.0);
        }
    }

    fn primes_in_handoff(&mut self) {
        for mode in [FlightMode::Plane, FlightMode::Copter] {
            self.change(&[(14, 40.0)]);
            self.enter_anew(mode);
            self.prime();
        }
    }

    fn settings_in_handoff(&mut self) {
        for mode in [FlightMode::Plane, FlightMode::Copter] {
            self.change(&[(14, 30.0)]);
            self.enter_anew(mode);
            self.change(&[(14, 0.5)]);
            self.hold_with(15, 0.75);
            self.cut();
        }
    }

    fn tailsitter_sequence(&mut self, which: u64) {
        match which {
            22 => self.sinks(1.0, 0.25),
            23 => {
                self.sinks(0.0, 0.25);
                self.change(&[(12, 1.0), (13, 0.0)]);
                self.hold_with(5, f32::NEG_INFINITY);
                // Were the guard to act at its limit, it would add +0 to this.
                self.change(&[(11, -0.0)]);
                self.hold_with(5, -1.0);
            }
            24 | 25 => self.noses(FlightMode::ToPlane, 16, 1.0),
            _ => self.noses(FlightMode::ToCopter, 17, -1.0),
        }
    }

    /// The way back at several rates of climb.
    fn sinks(&mut self, limit_mps: f32, gain: f32) {
        self.change(&[(7, 30.0), (11, 0.5), (12, limit_mps), (13, gain)]);
        if !self.reach(FlightMode::ToCopter) {
            return;
        }
        for climb_mps in [-1.0, (-1.0f32).next_down(), -2.0, -9.0, f32::NAN, 1.0] {
            self.hold_with(5, climb_mps);
        }
    }

    /// Nose-up one float short of a done cosine, on the side of `sign`; infinitely short; not a number; and at the cosine.
    fn noses(&mut self, mode: FlightMode, field: usize, sign: f32) {
        if !self.reach(mode) {
            return;
        }
        let cosine = self.track.field(field);
        let short = if sign > 0.0 { cosine.next_up() } else { cosine.next_down() };
        for c in [short, sign * f32::INFINITY, f32::NAN, cosine] {
            let mut step = self.hold();
            self.set_nose_up(&mut step, c);
            step.airspeed_present = false;
            step.numbers[0] = 0.01;
            self.step(step);
        }
    }

    fn quadplane_sequence(&mut self, which: u64) {
        match which {
            22 => self.ground_speeds(),
            23 => self.airspeeds_back(),
            24 => self.speeds_that_cancel(),
            25 => self.ramp_cut_down(),
            26 => {
                self.change(&[(2, 5.0), (3, 15.0)]);
                for _ in 0..3 {
                    self.approach_start_plus_ramp();
                }
            }
            27 => self.speeds_at_bound(),
            _ => self.run_up_sequence(which - SEQUENCES),
        }
    }

    /// The ramp begun by an infinite airspeed, settings that make it shorter than its time so far, and a prime.
    fn ramp_cut_down(&mut self) {
        self.reach(FlightMode::ToPlane);
        let mut step = self.ramp_step();
        step.numbers[11] = f32::INFINITY;
        self.step(step);
        self.hold_with(1, 0.25);
        self.change(&[(2, 0.125)]);
        self.change(&[(2, 2.0)]);
        self.prime();
    }

    fn speeds_at_bound(&mut self) {
        self.change(&[(7, 4.0)]);
        self.reach(FlightMode::ToCopter);
        for v in [4.0f32, 4.0f32.next_up(), 4.0f32.next_down()] {
            let mut step = self.hold();
            self.set_speed(&mut step, v);
            self.step(step);
        }
    }

    /// The nose-up of the way back: growing, held, at rest, falling, at both ends.
    fn ground_speeds(&mut self) {
        self.change(&[(7, 0.0), (8, 30.0), (9, 2.0), (10, 0.125)]);
        if !self.reach(FlightMode::ToCopter) {
            return;
        }
        let held = [[8.0, 0.0], [8.0, f32::NAN], [8.0, f32::INFINITY], [8.0, f32::NEG_INFINITY]];
        let moved = [[0.0, 1.0], [8.0, -3.0], [8.0, -40.0], [8.0, 40.0], [f32::INFINITY, 1.0]];
        for [v, a] in held.into_iter().chain(moved) {
            let mut step = self.hold();
            step.numbers[0] = 0.25;
            step.numbers[2..7].copy_from_slice(&[v, 0.0, 0.0, a, 0.0]);
            step.numbers[7..11].copy_from_slice(&[1.0, 0.0, 0.0, 0.0]);
            step.airspeed_present = false;
            self.step(step);
        }
    }

    /// Forward speeds whose large parts cancel: adding the parts in another order gives another speed.
    fn speeds_that_cancel(&mut self) {
        self.change(&[(7, 3.5), (8, 30.0)]);
        if !self.reach(FlightMode::ToCopter) {
            return;
        }
        for (back, small) in [(3.5, 3.75), (5.0, 4.75)] {
            self.change(&[(7, back)]);
            let mut step = self.hold();
            // The nose is (0.75, 0.5, -0.5).
            step.numbers[7..11].copy_from_slice(&[1.0, 0.0, 0.25, 0.25]);
            step.numbers[2..5].copy_from_slice(&[134217728.0, -201326592.0, 2.0 * small]);
            self.step(step);
        }
    }

    /// A forward speed that is not known, with an airspeed at the bound, not valid, and below the bound.
    fn airspeeds_back(&mut self) {
        self.change(&[(7, 4.0), (8, 30.0)]);
        if !self.reach(FlightMode::ToCopter) {
            return;
        }
        for (present, airspeed) in [
            (true, 4.0f32),
            (true, -1.0),
            (true, f32::NAN),
            (false, 1.0),
            (true, 4.0f32.next_down()),
        ] {
            let mut step = self.hold();
            step.numbers[2] = self.random.pick(&NOT_FINITE);
            step.airspeed_present = present;
            step.numbers[11] = airspeed;
            self.step(step);
        }
    }
}
