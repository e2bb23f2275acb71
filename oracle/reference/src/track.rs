//! The joined machine with what its answers do not show, worked out beside it: clock, ramp, abandonment, altitude of the last prime,
//! handoff.

use crate::joined::{Call, Joined, Line};
use crate::machine::{Airframe, Refusal, Step, transitioning};
use crate::settings::{Settings, airspeed_field, height_fields, timeout_fields};
use stable_flight::{FlightMode, open};
use std::f32::consts::FRAC_PI_2;

#[derive(Debug, Clone)]
pub struct Track {
    joined: Joined,
    pub airframe: Airframe,
    pub mode: FlightMode,
    /// The standing report.
    pub report: u8,
    pub thrust: f32,
    pub pitch_rad: f32,
    pub clock_s: f32,
    pub ramp_start_s: Option<f32>,
    pub start_tilt_rad: f32,
    pub primed: bool,
    /// NaN before any prime.
    pub home_z_m: f32,
    /// The number of the abandonment, or 0.
    pub abandonment: u8,
    pub handoff_s: f32,
    pub handoff_elapsed_s: f32,
}

pub fn nose_up(step: &Step) -> f32 {
    open::nose_up_cosine(&step.state())
}

pub fn forward_speed(step: &Step) -> f32 {
    open::forward_speed_mps(&step.state())
}

pub fn valid_airspeed(step: &Step) -> Option<f32> {
    step.state().valid_airspeed_mps()
}

impl Track {
    pub fn new(joined: Joined) -> Track {
        let moved = joined.machine().shown();
        let handoff_s = joined.settings()[13];
        Track {
            airframe: joined.machine().airframe(),
            mode: moved.mode,
            report: moved.report,
            thrust: 0.0,
            pitch_rad: 0.0,
            clock_s: 0.0,
            ramp_start_s: None,
            start_tilt_rad: 0.0,
            primed: false,
            home_z_m: f32::NAN,
            abandonment: 0,
            handoff_s,
            handoff_elapsed_s: handoff_s,
            joined,
        }
    }

    /// The setting with this number.
    pub fn field(&self, number: usize) -> f32 {
        self.joined.settings()[number - 1]
    }

    pub fn settings(&self) -> &Settings {
        self.joined.settings()
    }

    pub fn is_tailsitter(&self) -> bool {
        self.airframe == Airframe::Tailsitter
    }

    pub fn min_height_m(&self) -> f32 {
        self.field(height_fields(self.airframe)[0])
    }

    pub fn plane_min_height_m(&self) -> f32 {
        self.field(height_fields(self.airframe)[1])
    }

    pub fn min_airspeed_mps(&self) -> f32 {
        self.field(airspeed_field(self.airframe))
    }

    /// The timeout of the way to plane flight.
    pub fn timeout_s(&self) -> f32 {
        self.field(timeout_fields(self.airframe)[0])
    }

    /// The timeout of the way back.
    pub fn back_timeout_s(&self) -> f32 {
        self.field(timeout_fields(self.airframe)[1])
    }

    pub fn roll_limit_rad(&self) -> f32 {
        self.field(15)
    }

    pub fn handoff_active(&self) -> bool {
        self.handoff_elapsed_s < self.handoff_s
    }

    /// Whether a step that ends in this mode applies the handoff.
    pub fn applies_handoff(&self, after: FlightMode) -> bool {
        match self.airframe {
            Airframe::Tailsitter => !transitioning(after),
            Airframe::Quadplane => after != FlightMode::ToPlane,
        }
    }

    /// Whether a step is cut on roll in the present mode.
    pub fn cut_by_roll(&self, step: &Step) -> bool {
        transitioning(self.mode) && step.bank_rad().abs() > self.roll_limit_rad()
    }

    pub fn call(&mut self, call: &Call) -> Result<Line, Refusal> {
        let line = self.joined.call(call)?;
        match call {
            Call::Prime(z_m) => self.primed_at(*z_m),
            Call::Step(step) => self.stepped(step, &line),
            Call::Cut(reason) => self.cut(*reason, &line),
            Call::Settings(_) => {}
        }
        self.mode = line.moved.mode;
        self.report = line.moved.report;
        self.thrust = line.thrust;
        self.pitch_rad = line.pitch_rad;
        Ok(line)
    }

    fn primed_at(&mut self, z_m: f32) {
        self.primed = true;
        self.home_z_m = z_m;
        self.abandonment = 0;
        self.clock_s = 0.0;
        self.ramp_start_s = None;
        self.handoff_s = self.field(14);
        self.handoff_elapsed_s = self.handoff_s;
    }

    fn cut(&mut self, reason: u8, line: &Line) {
        if self.mode == FlightMode::ToPlane {
            self.abandonment = reason;
        }
        if line.moved.handoff {
            self.start_handoff();
        }
    }

    fn start_handoff(&mut self) {
        self.handoff_s = self.field(14);
        self.handoff_elapsed_s = 0.0;
    }

    fn stepped(&mut self, step: &Step, line: &Line) {
        let (before, after) = (self.mode, line.moved.mode);
        if self.cut_by_roll(step) {
            self.cut(15, line);
        } else {
            self.updated(step, line);
        }
        if before != after && after == FlightMode::Plane {
            self.start_handoff();
        }
        if self.applies_handoff(after) && self.handoff_active() {
            self.handoff_elapsed_s += step.dt();
        }
    }

    fn updated(&mut self, step: &Step, line: &Line) {
        let (before, after) = (self.mode, line.moved.mode);
        if transitioning(before) {
            self.clock_s += step.dt();
        }
        if before != after && transitioning(after) {
            self.enter(after, step);
        }
        match (before, after) {
            (FlightMode::Copter, _) if !step.plane_requested => self.abandonment = 0,
            (FlightMode::ToPlane, FlightMode::Copter) => self.abandonment = line.moved.report,
            (FlightMode::Plane, FlightMode::ToCopter) => self.abandonment = line.moved.report,
            (FlightMode::ToPlane, FlightMode::ToPlane) => self.begin_ramp(step),
            _ => {}
        }
        if line.moved.handoff {
            self.start_handoff();
        }
    }

    fn enter(&mut self, mode: FlightMode, step: &Step) {
        self.clock_s = 0.0;
        self.ramp_start_s = None;
        self.start_tilt_rad = match (nose_up(step).is_finite(), mode) {
            (true, _) => step.entry_tilt_rad(),
            (false, FlightMode::ToPlane) => 0.0,
            (false, _) => FRAC_PI_2,
        };
    }

    fn begin_ramp(&mut self, step: &Step) {
        let fast = valid_airspeed(step).is_some_and(|speed| speed >= self.min_airspeed_mps());
        if !self.is_tailsitter() && self.ramp_start_s.is_none() && fast {
            self.ramp_start_s = Some(self.clock_s);
        }
    }
}

#[cfg(test)]
mod tests {
    use super::*;
    use crate::{card, flights};

    /// Tilt or share from the clock and the start that are worked out beside the machine.
    fn output(track: &Track) -> Option<f32> {
        let clock = track.clock_s;
        match (track.airframe, track.mode) {
            (Airframe::Tailsitter, FlightMode::ToPlane) => {
                let end = track.field(3).max(track.start_tilt_rad);
                Some((track.start_tilt_rad + track.field(1) * clock).min(end))
            }
            (Airframe::Tailsitter, FlightMode::ToCopter) => {
                let ramp = track.start_tilt_rad - track.field(5) * clock;
                Some(if ramp < 0.0 { 0.0 } else { ramp })
            }
            (Airframe::Tailsitter, _) => None,
            (_, FlightMode::Plane) => Some(0.0),
            (_, FlightMode::ToPlane) => {
                let share = |start: f32| (1.0 - (clock - start) / track.field(2)).clamp(0.0, 1.0);
                Some(track.ramp_start_s.map_or(1.0, share))
            }
            (_, FlightMode::ToCopter) if track.abandonment == 0 => Some((clock / track.field(6)).min(1.0)),
            _ => Some(1.0),
        }
    }

    /// An accepted call, where it stands, and the machine before and after it.
    struct Seen<'a> {
        place: String,
        before: &'a Track,
        after: &'a Track,
        call: &'a Call,
        line: &'a Line,
    }

    /// The accepted calls of random cards, one after the other.
    fn each_call(mut look: impl FnMut(&Seen)) {
        for index in 0..3000 {
            let bytes = flights::card(5, index);
            let Ok(checked) = card::check(&bytes, &mut [0; card::MOST_RECORDS]) else {
                continue;
            };
            let mut track = Track::new(card::machine(&bytes, checked.airframe));
            for (at, call) in card::calls(&bytes, &checked.chain) {
                let before = track.clone();
                let Ok(line) = track.call(&call) else {
                    continue;
                };
                look(&Seen {
                    place: format!("card {index} record {at}"),
                    before: &before,
                    after: &track,
                    call: &call,
                    line: &line,
                });
            }
        }
    }

    #[test]
    fn clock_and_start_are_the_machine_s() {
        each_call(|seen| {
            let here = output(seen.after).map(card::bits);
            assert_eq!(here, seen.line.moved.output.map(card::bits), "{}", seen.place);
        });
    }

    /// The handoff's thrust, from the time that is worked out beside the machine.
    #[test]
    fn handoff_is_the_machine_s() {
        let mut from = 0.0;
        each_call(|seen| {
            let (before, after) = (seen.before, seen.after);
            let enters_plane = before.mode != after.mode && after.mode == FlightMode::Plane;
            let starts = seen.line.moved.handoff || enters_plane;
            if starts {
                from = before.thrust;
            }
            let Call::Step(step) = seen.call else {
                return;
            };
            let active = if starts { after.handoff_s > 0.0 } else { before.handoff_active() };
            let (weight, demand) = (after.handoff_elapsed_s / after.handoff_s, open::saturate_throttle(step.demand()));
            let blend = from + (demand - from) * weight.min(1.0);
            let thrust = if active { blend } else { demand };
            if after.applies_handoff(after.mode) {
                assert_eq!(card::bits(thrust), card::bits(seen.line.thrust), "{}", seen.place);
            }
        });
    }
}
