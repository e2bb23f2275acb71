//! Steps chosen by the rows of document 01, section 4, that are possible in the present mode.

use super::flight::Flight;
use super::{classes, usual};
use crate::joined::Call;
use crate::machine::Step;
use crate::random::SMALLEST;
use crate::settings::{fields, height_fields};
use stable_flight::FlightMode;
use std::f32::consts::PI;

pub const NOT_FINITE: [f32; 3] = [f32::NAN, f32::INFINITY, f32::NEG_INFINITY];

impl Flight {
    /// A step or another call of some row.
    pub fn row(&mut self) {
        if self.random.once_in(7) {
            return self.side_call();
        }
        if self.random.once_in(12) {
            return self.fit();
        }
        match self.track.mode {
            FlightMode::Copter => self.copter_row(),
            FlightMode::ToPlane if self.track.is_tailsitter() => self.tailsitter_to_plane_row(),
            FlightMode::ToPlane => self.quadplane_to_plane_row(),
            FlightMode::Plane => self.plane_row(),
            _ => self.back_row(),
        }
    }

    /// A call that is no step, or a step that is refused.
    pub fn side_call(&mut self) {
        match self.random.below(9) {
            0..=2 => self.cut(),
            3 => self.prime(),
            4 | 5 => self.good_settings(),
            6 => self.bad_settings(),
            7 => self.bad_dt(),
            _ => self.bad_tilt(),
        }
    }

    pub fn good_settings(&mut self) {
        let mut s = usual::settings(&mut self.random, self.track.airframe);
        if self.random.once_in(3) {
            s = *self.track.settings();
            let timeout = if self.track.is_tailsitter() { 6 } else { 2 };
            s[timeout] = (self.track.clock_s * 0.5).max(0.25);
        }
        if !self.track.is_tailsitter() && self.track.ramp_start_s.is_some() && self.random.once_in(2) {
            s[1] = 0.001;
        }
        self.call(Call::Settings(s));
    }

    pub fn bad_settings(&mut self) {
        let mut s = *self.track.settings();
        s[self.random.below(fields(self.track.airframe))] = self.random.pick(&[f32::NAN, -1.0, f32::INFINITY]);
        self.call(Call::Settings(s));
    }

    pub fn bad_dt(&mut self) {
        let mut step = self.plain();
        step.numbers[0] = self.random.pick(&[0.0, -0.0, -0.01, f32::NAN, f32::INFINITY, f32::NEG_INFINITY]);
        if self.random.once_in(3) {
            step.numbers[12] = -1.0;
        }
        self.step(step);
    }

    /// An entry tilt out of range: refused by the tailsitter if nose-up is finite.
    pub fn bad_tilt(&mut self) {
        let mut step = self.plain();
        step.numbers[12] = self.random.pick(&[f32::NAN, PI.next_up(), -SMALLEST, -1.0, 4.0, f32::INFINITY]);
        if self.random.once_in(3) {
            step.numbers[7 + self.random.below(4)] = f32::NAN;
        }
        self.step(step);
    }

    /// Banks at the limit, one float past it and far past it.
    pub fn bank_edges(&self) -> [f32; 8] {
        let limit = self.track.roll_limit_rad();
        let past = limit.next_up();
        [limit, -limit, past, -past, 2.0 * limit, f32::NAN, f32::INFINITY, f32::NEG_INFINITY]
    }

    fn bank_edge(&mut self) -> f32 {
        let banks = self.bank_edges();
        self.random.pick(&banks)
    }

    /// A step that would go on or lead on, with a bank at an edge.
    pub fn bank_step(&mut self) {
        let tailsitter = self.track.is_tailsitter();
        let mut step = match (self.random.below(3), self.track.mode) {
            (0, FlightMode::ToPlane) if tailsitter => self.nose_down_step(),
            (0, FlightMode::ToPlane) => self.ramp_step(),
            (0, FlightMode::ToCopter) => self.back_done_step(),
            _ => self.hold(),
        };
        step.numbers[13] = self.bank_edge();
        self.step(step);
    }

    /// A Copter request on the way to plane flight, also in a step past the timeout.
    fn request_back(&mut self) -> Step {
        let mut step = if self.random.once_in(2) { self.timed_out() } else { self.plain() };
        step.plane_requested = false;
        step
    }

    fn copter_row(&mut self) {
        if !self.track.primed && !self.random.once_in(3) {
            return self.prime();
        }
        let mut step = self.request(true);
        match self.random.below(9) {
            0 | 1 => step.plane_requested = false,
            2 => {
                let needed = self.random.near(self.needed_height_m());
                step.numbers[1] = self.z_at(needed);
            }
            3 => step.numbers[1] = self.random.pick(&NOT_FINITE),
            4 => step.numbers[13] = self.bank_edge(),
            5 => step.numbers[12] = self.random.pick(&[0.0, -0.0, PI, 1.5]),
            6 => step.numbers[7 + self.random.below(4)] = f32::NAN,
            _ => {}
        }
        self.step(step);
    }

    fn tailsitter_to_plane_row(&mut self) {
        let step = match self.random.below(13) {
            0 => self.request_back(),
            1 => self.nose_down_step(),
            2 => self.nose_down_near_airspeed(),
            3 | 4 => self.nose_near_cosine(),
            5 => self.timed_out(),
            6 => self.late(Flight::nose_down_step),
            7 => return self.bank_step(),
            8 => Step {
                plane_requested: false,
                ..self.nose_down_step()
            },
            9 => return self.advance(),
            _ => self.hold(),
        };
        self.step(step);
    }

    /// Nose down, with an airspeed near the minimum.
    fn nose_down_near_airspeed(&mut self) -> Step {
        let least = self.track.min_airspeed_mps();
        let mut step = self.nose_down_step();
        step.airspeed_present = true;
        step.numbers[11] = self.random.pick(&[least.next_down(), least * 0.5, least, least.next_up()]);
        step
    }

    /// Nose-up near the forward cosine, or not finite.
    fn nose_near_cosine(&mut self) -> Step {
        let mut step = self.hold();
        let edges = classes::with_neighbours(self.track.field(16), &NOT_FINITE);
        let c = self.random.pick(&edges);
        self.set_nose_up(&mut step, c);
        step.airspeed_present = false;
        step
    }

    /// A step that would go on but for its time.
    fn timed_out(&mut self) -> Step {
        let mut step = self.hold();
        let left = self.bound_s() - self.track.clock_s;
        step.numbers[0] = (left.max(0.0) * 1.01 + self.random.between(0.01, 1.0)).min(f32::MAX);
        step
    }

    /// Another step, with the dt of such a one.
    fn late(&mut self, other: fn(&mut Flight) -> Step) -> Step {
        let late = self.timed_out();
        let mut step = other(self);
        step.numbers[0] = late.dt();
        step
    }

    fn quadplane_to_plane_row(&mut self) {
        let least = self.track.min_airspeed_mps();
        let waits = self.track.ramp_start_s.is_none();
        let step = match self.random.below(12) {
            0 => self.request_back(),
            1 | 2 | 8 => self.ramp_step(),
            3 if waits => {
                let mut step = self.ramp_step();
                step.numbers[11] = self.random.near(least);
                step
            }
            4 => self.timed_out(),
            5 if waits => {
                let mut step = self.timed_out();
                step.airspeed_present = true;
                step.numbers[11] = least;
                step
            }
            6 => return self.bank_step(),
            7 => Step {
                plane_requested: false,
                ..self.ramp_step()
            },
            9 => {
                let thrust = self.random.near(self.track.field(11));
                self.run_up_to(thrust)
            }
            _ => self.hold(),
        };
        self.step(step);
    }

    fn plane_row(&mut self) {
        let floor = self.track.plane_min_height_m();
        let mut step = self.request(true);
        match self.random.below(12) {
            0 | 1 => step.plane_requested = false,
            2 => {
                step.plane_requested = false;
                step.numbers[1] = self.z_at(floor - 2.0);
            }
            3 | 4 if floor > 0.0 => step.numbers[1] = self.z_at(floor * 0.5),
            3 | 4 => return self.raise_floor(),
            5 => {
                let height = self.random.near(floor);
                step.numbers[1] = self.z_at(height);
            }
            6 => step.numbers[1] = self.random.pick(&NOT_FINITE),
            7 => step.numbers[1] = self.z_at(-3.0),
            8 => step.numbers[13] = self.bank_edge(),
            9 => return self.enter_back_at_edge(),
            10 => return self.advance(),
            _ => {}
        }
        self.step(step);
    }

    /// Settings with a floor for plane flight.
    fn raise_floor(&mut self) {
        let floor = height_fields(self.track.airframe)[1];
        let height = self.random.between(1.0, 20.0);
        self.change(&[(floor, height)]);
    }

    /// ToCopter entered with an entry tilt at an edge, or with an attitude that is not known.
    fn enter_back_at_edge(&mut self) {
        let mut step = self.request(false);
        step.numbers[12] = self.random.pick(&[0.0, -0.0, PI, SMALLEST]);
        if self.random.once_in(3) {
            step.numbers[7 + self.random.below(4)] = f32::NAN;
            step.numbers[12] = self.random.edge();
        }
        self.step(step);
    }

    fn back_row(&mut self) {
        let step = match self.random.below(13) {
            0 => self.request(true),
            1 => self.back_done_step(),
            2 => Step {
                plane_requested: true,
                ..self.back_done_step()
            },
            3 => self.timed_out(),
            4 => self.late(Flight::back_done_step),
            5 => return self.bank_step(),
            6 | 7 => self.back_edge(),
            8 => self.sink_step(),
            9 if !self.track.is_tailsitter() => self.speed_unknown(),
            _ => self.hold(),
        };
        self.step(step);
    }

    /// Nose-up or forward speed near its bound.
    fn back_edge(&mut self) -> Step {
        let mut step = self.hold();
        if self.track.is_tailsitter() {
            let edges = classes::with_neighbours(self.track.field(17), &NOT_FINITE);
            let c = self.random.pick(&edges);
            self.set_nose_up(&mut step, c);
        } else {
            let v = self.random.near(self.track.field(7));
            self.set_speed(&mut step, v);
        }
        step
    }

    /// A sink at the guard's limit or past it; for the quadplane, a speed along the ground at an edge.
    fn sink_step(&mut self) -> Step {
        let mut step = self.hold();
        if self.track.is_tailsitter() {
            let limit = self.track.field(12);
            let sinks = [
                -limit,
                (-limit).next_down(),
                -limit - 0.5,
                -limit - 1.0,
                -50.0,
                f32::NAN,
                f32::NEG_INFINITY,
            ];
            step.numbers[4] = self.random.pick(&sinks);
        } else if self.random.once_in(2) {
            step.numbers[2] = 0.0;
            step.numbers[3] = 0.0;
        } else {
            step.numbers[5 + self.random.below(2)] = self.random.pick(&[f32::NAN, 40.0, -40.0, f32::INFINITY]);
        }
        step
    }

    /// A forward speed that is not known, with an airspeed near its bound, any, or none.
    fn speed_unknown(&mut self) -> Step {
        let mut step = self.hold();
        let place = self.random.pick(&[2, 3, 4, 7, 8, 9, 10]);
        step.numbers[place] = self.random.pick(&[f32::NAN, f32::INFINITY]);
        step.airspeed_present = !self.random.once_in(4);
        let back = self.track.field(7);
        step.numbers[11] = match self.random.below(3) {
            0 => self.random.near(back),
            1 => back * 0.5,
            _ => self.random.between(-2.0, 30.0),
        };
        step
    }
}
