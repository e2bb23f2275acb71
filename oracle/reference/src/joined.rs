//! The joined machine of document 01, section 6, with the run-up of document 02, 2.2, over the Rust's machine, handoff, sink guard and
//! deceleration.

use crate::machine::{Airframe, Machine, Moved, Refusal, Step, first_of_zeros, reason, transitioning};
use crate::settings::Settings;
use stable_flight::guidance::vtol::ThrustHandoff;
use stable_flight::{FlightMode, open};

/// A call of the joined machine.
#[derive(Debug, Clone, Copy)]
pub enum Call {
    Prime(f32),
    Step(Step),
    /// The number of a reason, 11 to 16.
    Cut(u8),
    Settings(Settings),
}

/// What an accepted call answers.
#[derive(Debug, Clone, Copy)]
pub struct Line {
    pub moved: Moved,
    pub thrust: f32,
    pub pitch_rad: f32,
}

#[derive(Debug, Clone)]
pub struct Joined {
    machine: Machine,
    settings: Settings,
    handoff: ThrustHandoff,
    deceleration: open::Deceleration,
    thrust: f32,
}

impl Joined {
    pub fn new(airframe: Airframe, settings: &Settings) -> Result<Joined, Refusal> {
        Ok(Joined {
            machine: Machine::new(airframe, settings)?,
            settings: *settings,
            handoff: ThrustHandoff::new(settings[13]),
            deceleration: open::Deceleration::default(),
            thrust: 0.0,
        })
    }

    pub fn call(&mut self, call: &Call) -> Result<Line, Refusal> {
        let moved = match call {
            Call::Prime(z_m) => self.prime(*z_m),
            Call::Step(step) => self.step(step)?,
            Call::Cut(number) => self.cut(*number),
            Call::Settings(settings) => self.set(settings)?,
        };
        Ok(Line {
            moved,
            thrust: self.thrust,
            pitch_rad: self.deceleration.pitch_rad(),
        })
    }

    pub fn machine(&self) -> &Machine {
        &self.machine
    }

    pub fn settings(&self) -> &Settings {
        &self.settings
    }

    /// The field with this number.
    fn field(&self, number: usize) -> f32 {
        self.settings[number - 1]
    }

    fn prime(&mut self, z_m: f32) -> Moved {
        self.handoff = ThrustHandoff::new(self.field(14));
        self.deceleration.reset();
        self.thrust = 0.0;
        self.machine.prime(z_m)
    }

    fn step(&mut self, step: &Step) -> Result<Moved, Refusal> {
        if let Some(refusal) = self.machine.refusal(step) {
            return Err(refusal);
        }
        let before = self.machine.mode();
        let transitioning = transitioning(before);
        let moved = if transitioning && step.bank_rad().abs() > self.field(15) {
            self.machine.cut_short(reason(15))
        } else {
            self.machine.update(step)?
        };
        let entered = |mode| before != mode && moved.mode == mode;
        if moved.handoff || entered(FlightMode::Plane) {
            self.start_handoff();
        }
        if entered(FlightMode::ToCopter) {
            self.deceleration.reset();
        }
        if self.machine.airframe() == Airframe::Quadplane && moved.mode == FlightMode::ToCopter {
            let (target, gain) = (self.field(9), self.field(10));
            self.deceleration.advance(step.dt(), &step.state(), target, gain);
        }
        self.thrust = self.thrust_in(before, moved.mode, step);
        Ok(moved)
    }

    /// The step's thrust, by the mode after it.
    fn thrust_in(&mut self, before: FlightMode, mode: FlightMode, step: &Step) -> f32 {
        match (self.machine.airframe(), mode) {
            (Airframe::Tailsitter, FlightMode::ToPlane) => self.field(10),
            (Airframe::Tailsitter, FlightMode::ToCopter) => {
                let (back, climb_mps) = (self.field(11), step.state().velocity_mps.z);
                open::guard_sink(back, climb_mps, self.field(12), self.field(13)).unwrap_or(back)
            }
            (Airframe::Quadplane, FlightMode::ToPlane) => self.run_up(before, step.dt()),
            _ => self.handoff.apply(step.dt(), step.demand()),
        }
    }

    /// The quadplane's thrust in ToPlane: 0 on entering it, then up by field 12 in each second, as far as field 11. No handoff is applied.
    fn run_up(&self, before: FlightMode, dt: f32) -> f32 {
        if before != FlightMode::ToPlane {
            return 0.0;
        }
        let most = self.field(11);
        let rise = self.field(12) * dt;
        let risen = self.thrust + rise;
        first_of_zeros(most, risen, most.min(risen))
    }

    fn cut(&mut self, number: u8) -> Moved {
        let moved = self.machine.cut_short(reason(number));
        if moved.handoff {
            self.start_handoff();
        }
        moved
    }

    fn set(&mut self, settings: &Settings) -> Result<Moved, Refusal> {
        let moved = self.machine.set_config(settings)?;
        self.settings = *settings;
        Ok(moved)
    }

    /// A fresh handoff from the kept thrust.
    fn start_handoff(&mut self) {
        self.handoff = ThrustHandoff::new(self.field(14));
        self.handoff.start(self.thrust);
    }
}
