//! The joined machine over stable-flight's own machines, written for speed: changed in place, with plain tests for the refusals. The
//! entry tilt is supplied where the Rust may ask for it.

use libm::{For, with_tilt};
use reference::joined::Line;
use reference::machine::{Airframe, Moved, report_number, transitioning, with_done_cosines};
use reference::settings::{Settings, lift_transition_config, transition_config};
use stable_flight::guidance::vtol::{LiftTransition, ThrustHandoff, Transition};
use stable_flight::{FlightMode, FlightRegime, ModeRefusal, VehicleState, open};
use std::f32::consts::PI;

enum Machine {
    Tailsitter(Transition),
    Quadplane(LiftTransition),
}

pub struct Joined {
    machine: Machine,
    settings: Settings,
    handoff: ThrustHandoff,
    deceleration: open::Deceleration,
    thrust: f32,
}

/// What a step is told.
pub struct StepInput {
    pub dt: f32,
    pub requested: FlightRegime,
    pub state: VehicleState,
    pub entry_tilt_rad: f32,
    pub bank_rad: f32,
    pub demand: f32,
}

impl Joined {
    /// Primed at z 0. The settings are good.
    pub fn new(airframe: Airframe, settings: &Settings) -> Joined {
        let home = VehicleState::default();
        let machine = match airframe {
            Airframe::Tailsitter => {
                let mut machine = with_done_cosines(settings, || Transition::new(transition_config(settings)));
                machine.prime(&home);
                Machine::Tailsitter(machine)
            }
            Airframe::Quadplane => {
                let mut machine = LiftTransition::new(lift_transition_config(settings));
                machine.prime(&home);
                Machine::Quadplane(machine)
            }
        };
        Joined {
            machine,
            settings: *settings,
            handoff: ThrustHandoff::new(settings[13]),
            deceleration: open::Deceleration::default(),
            thrust: 0.0,
        }
    }

    fn mode(&self) -> FlightMode {
        match &self.machine {
            Machine::Tailsitter(machine) => machine.report().mode,
            Machine::Quadplane(machine) => machine.report().mode,
        }
    }

    /// One step, or the number of its refusal.
    pub fn step(&mut self, input: &StepInput) -> Result<Line, u32> {
        if !(input.dt > 0.0 && input.dt.is_finite()) {
            return Err(1);
        }
        let before = self.mode();
        let moved = self.moved(input, before)?;
        let entered = |mode| before != mode && moved.mode == mode;
        if moved.handoff || entered(FlightMode::Plane) {
            self.handoff = ThrustHandoff::new(self.settings[13]);
            self.handoff.start(self.thrust);
        }
        if entered(FlightMode::ToCopter) {
            self.deceleration.reset();
        }
        self.thrust = self.thrust_in(before, moved.mode, input);
        Ok(Line {
            moved,
            thrust: self.thrust,
            pitch_rad: self.deceleration.pitch_rad(),
        })
    }

    /// The machine's part of a step, with refusal 2.
    fn moved(&mut self, input: &StepInput, before: FlightMode) -> Result<Moved, u32> {
        let (dt, requested, state) = (input.dt, input.requested, &input.state);
        let cut = transitioning(before) && input.bank_rad.abs() > self.settings[14];
        let (mode, output, handoff, report) = match &mut self.machine {
            Machine::Tailsitter(machine) => {
                let nose_up = open::nose_up_cosine(state);
                if nose_up.is_finite() && !(0.0..=PI).contains(&input.entry_tilt_rad) {
                    return Err(2);
                }
                let tilt = For {
                    argument: nose_up.clamp(-1.0, 1.0),
                    number: input.entry_tilt_rad,
                };
                let step = match cut {
                    true => machine.cut_short(ModeRefusal::RollError),
                    false if may_enter(before, requested) => with_tilt(tilt, || machine.update(dt, requested, state)),
                    false => machine.update(dt, requested, state),
                };
                (step.mode, step.tilt_target_rad, step.handoff, machine.report().refusal)
            }
            Machine::Quadplane(machine) => {
                let step = match cut {
                    true => machine.cut_short(ModeRefusal::RollError),
                    false => machine.update(dt, requested, state),
                };
                (step.mode, Some(step.lift_share), step.handoff, machine.report().refusal)
            }
        };
        Ok(Moved {
            mode,
            output,
            handoff,
            report: report_number(report),
        })
    }

    /// The step's thrust, by the mode after it; the quadplane's back transition advances the pitch.
    fn thrust_in(&mut self, before: FlightMode, mode: FlightMode, input: &StepInput) -> f32 {
        let field = |number: usize| self.settings[number - 1];
        match (&self.machine, mode) {
            (Machine::Tailsitter(_), FlightMode::ToPlane) => field(10),
            (Machine::Tailsitter(_), FlightMode::ToCopter) => {
                open::guard_sink(field(11), input.state.velocity_mps.z, field(12), field(13)).unwrap_or(field(11))
            }
            (Machine::Quadplane(_), FlightMode::ToPlane) if before != FlightMode::ToPlane => 0.0,
            (Machine::Quadplane(_), FlightMode::ToPlane) => {
                let (most, risen) = (field(11), self.thrust + field(12) * input.dt);
                if risen < most { risen } else { most }
            }
            (Machine::Quadplane(_), FlightMode::ToCopter) => {
                self.deceleration.advance(input.dt, &input.state, field(9), field(10));
                self.handoff.apply(input.dt, input.demand)
            }
            _ => self.handoff.apply(input.dt, input.demand),
        }
    }
}

/// Whether a step may enter a transition, so that the Rust may ask for the entry tilt.
fn may_enter(before: FlightMode, requested: FlightRegime) -> bool {
    match before {
        FlightMode::Copter => requested == FlightRegime::Plane,
        FlightMode::Plane => true,
        _ => false,
    }
}
