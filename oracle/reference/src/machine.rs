//! Either machine of the Rust behind one face: settings, prime, update, cut (document 01, section 4), with the refusals of section 9.

use crate::settings::{Settings, bad_field, lift_transition_config, transition_config};
use nalgebra::UnitQuaternion;
use stable_flight::controllers::InvalidConfig;
use stable_flight::guidance::vtol::{LiftTransition, LiftTransitionStep, Transition, TransitionStep};
use stable_flight::{Configurable, FlightMode, FlightModeReport, FlightRegime, ModeRefusal, Vec3, VehicleState, open};
use std::cell::Cell;
use std::panic;
use std::sync::Once;

#[derive(Debug, Clone, Copy, PartialEq, Eq, PartialOrd, Ord)]
pub enum Airframe {
    Tailsitter,
    Quadplane,
}

pub const AIRFRAMES: [Airframe; 2] = [Airframe::Tailsitter, Airframe::Quadplane];
pub const MODES: [FlightMode; 4] = [FlightMode::Copter, FlightMode::ToPlane, FlightMode::Plane, FlightMode::ToCopter];

pub fn transitioning(mode: FlightMode) -> bool {
    matches!(mode, FlightMode::ToPlane | FlightMode::ToCopter)
}

/// Why a call is turned down: the number of section 9, with the field for 3.
#[derive(Debug, Clone, Copy, PartialEq, Eq)]
pub enum Refusal {
    Number(u8),
    Setting(u8),
}

/// Mode, share or tilt, handoff flag and report.
#[derive(Debug, Clone, Copy)]
pub struct Moved {
    pub mode: FlightMode,
    pub output: Option<f32>,
    pub handoff: bool,
    pub report: u8,
}

/// The numbers 1 to 15 of a step record, with its option.
#[derive(Debug, Clone, Copy)]
pub struct Step {
    pub plane_requested: bool,
    pub airspeed_present: bool,
    pub numbers: [f32; 15],
}

impl Step {
    /// The step of a record's option and numbers.
    pub fn new(option: u8, numbers: [f32; 15]) -> Step {
        Step {
            plane_requested: option % 2 == 1,
            airspeed_present: option >= 2,
            numbers,
        }
    }

    /// The option: 1 for a Plane request, plus 2 if the airspeed is present.
    pub fn option(&self) -> u8 {
        u8::from(self.plane_requested) + 2 * u8::from(self.airspeed_present)
    }

    pub fn dt(&self) -> f32 {
        self.numbers[0]
    }

    pub fn entry_tilt_rad(&self) -> f32 {
        self.numbers[12]
    }

    pub fn bank_rad(&self) -> f32 {
        self.numbers[13]
    }

    pub fn demand(&self) -> f32 {
        self.numbers[14]
    }

    pub fn requested(&self) -> FlightRegime {
        if self.plane_requested {
            FlightRegime::Plane
        } else {
            FlightRegime::Copter
        }
    }

    pub fn state(&self) -> VehicleState {
        let n = &self.numbers;
        VehicleState {
            position_m: Vec3::new(0.0, 0.0, n[1]),
            velocity_mps: Vec3::new(n[2], n[3], n[4]),
            acceleration_mps2: Vec3::new(n[5], n[6], 0.0),
            attitude: UnitQuaternion {
                w: n[7],
                i: n[8],
                j: n[9],
                k: n[10],
            },
            airspeed_mps: self.airspeed_present.then_some(n[11]),
            ..VehicleState::default()
        }
    }
}

#[derive(Debug, Clone)]
pub enum Machine {
    Tailsitter(Transition),
    Quadplane(LiftTransition),
}

/// Refusal 3, with the first bad field.
pub fn check_settings(airframe: Airframe, s: &Settings) -> Result<(), Refusal> {
    match bad_field(airframe, s) {
        0 => Ok(()),
        field => Err(Refusal::Setting(field)),
    }
}

thread_local! {
    static EXPECTED: Cell<bool> = const { Cell::new(false) };
}

/// What the Rust's `call` returns, or none if it panics. Such a panic is not printed; others are.
pub fn caught<T>(call: impl FnOnce() -> T) -> Option<T> {
    static HOOK: Once = Once::new();
    HOOK.call_once(|| {
        let print = panic::take_hook();
        panic::set_hook(Box::new(move |info| {
            if !EXPECTED.get() {
                print(info);
            }
        }));
    });
    EXPECTED.set(true);
    let answer = panic::catch_unwind(panic::AssertUnwindSafe(call));
    EXPECTED.set(false);
    answer.ok()
}

/// Refusal 1: what the Rust's `assert_dt` does not let pass.
pub fn good_dt(dt: f32) -> bool {
    caught(|| open::assert_dt(dt)).is_some()
}

/// What the Rust's own `call` makes of settings; refusal 3 if it turns them down. The two cosines are document 01's, so it alone refuses them.
fn with_settings<T>(airframe: Airframe, s: &Settings, call: impl FnOnce() -> Option<T>) -> Result<T, Refusal> {
    let found = check_settings(airframe, s);
    if let Err(Refusal::Setting(16..)) = found {
        found?;
    }
    call().ok_or_else(|| found.expect_err("settings that were found good are turned down"))
}

/// The reasons of section 10, with their numbers.
pub const REASONS: [(u8, ModeRefusal); 6] = [
    (11, ModeRefusal::Unsupported),
    (12, ModeRefusal::OnGround),
    (13, ModeRefusal::BelowMinAltitude),
    (14, ModeRefusal::TransitionTimeout),
    (15, ModeRefusal::RollError),
    (16, ModeRefusal::BelowPlaneMinAltitude),
];

pub fn reason(number: u8) -> ModeRefusal {
    let found = REASONS.iter().find(|(n, _)| *n == number);
    found.expect("the number of a reason").1
}

pub fn number(reason: ModeRefusal) -> u8 {
    let found = REASONS.iter().find(|(_, r)| *r == reason);
    found.expect("a reason with a number").0
}

/// The number of a report, 0 if it is none.
pub fn report_number(report: Option<ModeRefusal>) -> u8 {
    report.map_or(0, number)
}

impl Machine {
    pub fn new(airframe: Airframe, s: &Settings) -> Result<Machine, Refusal> {
        with_settings(airframe, s, || caught(|| Machine::made(airframe, s)))
    }

    fn made(airframe: Airframe, s: &Settings) -> Machine {
        match airframe {
            Airframe::Tailsitter => Machine::Tailsitter(with_done_cosines(s, || Transition::new(transition_config(s)))),
            Airframe::Quadplane => Machine::Quadplane(LiftTransition::new(lift_transition_config(s))),
        }
    }

    pub fn airframe(&self) -> Airframe {
        match self {
            Machine::Tailsitter(_) => Airframe::Tailsitter,
            Machine::Quadplane(_) => Airframe::Quadplane,
        }
    }

    pub fn set_config(&mut self, s: &Settings) -> Result<Moved, Refusal> {
        with_settings(self.airframe(), s, || self.set(s).ok())?;
        Ok(self.shown())
    }

    fn set(&mut self, s: &Settings) -> Result<(), InvalidConfig> {
        match self {
            Machine::Tailsitter(machine) => with_done_cosines(s, || machine.set_config(transition_config(s))),
            Machine::Quadplane(machine) => machine.set_config(lift_transition_config(s)),
        }
    }

    pub fn prime(&mut self, z_m: f32) -> Moved {
        let state = VehicleState {
            position_m: Vec3::new(0.0, 0.0, z_m),
            ..VehicleState::default()
        };
        match self {
            Machine::Tailsitter(machine) => machine.prime(&state),
            Machine::Quadplane(machine) => machine.prime(&state),
        }
        self.shown()
    }

    /// Refusals 1 and 2 of a step.
    pub fn refusal(&self, step: &Step) -> Option<Refusal> {
        let tilt_rad = step.entry_tilt_rad();
        let nose_known = open::nose_up_cosine(&step.state()).is_finite();
        let in_half_turn = (0.0..=std::f32::consts::PI).contains(&tilt_rad);
        if !good_dt(step.dt()) && !self.takes(step) {
            Some(Refusal::Number(1))
        } else if self.airframe() == Airframe::Tailsitter && nose_known && !in_half_turn {
            Some(Refusal::Number(2))
        } else {
            None
        }
    }

    /// Whether the Rust's own update takes the step.
    fn takes(&self, step: &Step) -> bool {
        caught(|| self.clone().updated(step)).is_some()
    }

    pub fn update(&mut self, step: &Step) -> Result<Moved, Refusal> {
        match self.refusal(step) {
            Some(refusal) => Err(refusal),
            None => Ok(self.updated(step)),
        }
    }

    fn updated(&mut self, step: &Step) -> Moved {
        let (dt, requested, state) = (step.dt(), step.requested(), step.state());
        match self {
            Machine::Tailsitter(machine) => {
                let tilt = libm::For {
                    argument: open::nose_up_cosine(&state).clamp(-1.0, 1.0),
                    number: step.entry_tilt_rad(),
                };
                let step = libm::with_tilt(tilt, || machine.update(dt, requested, &state));
                tailsitter_moved(machine, &step)
            }
            Machine::Quadplane(machine) => {
                let step = machine.update(dt, requested, &state);
                quadplane_moved(machine, &step)
            }
        }
    }

    pub fn cut_short(&mut self, why: ModeRefusal) -> Moved {
        match self {
            Machine::Tailsitter(machine) => {
                let step = machine.cut_short(why);
                tailsitter_moved(machine, &step)
            }
            Machine::Quadplane(machine) => {
                let step = machine.cut_short(why);
                quadplane_moved(machine, &step)
            }
        }
    }

    fn report(&self) -> FlightModeReport {
        match self {
            Machine::Tailsitter(machine) => machine.report(),
            Machine::Quadplane(machine) => machine.report(),
        }
    }

    pub fn mode(&self) -> FlightMode {
        self.report().mode
    }

    /// What a prime or a settings call answers: the Rust's calls return nothing, so it is read from the machine.
    pub fn shown(&self) -> Moved {
        let output = match self {
            Machine::Tailsitter(machine) => tilt(machine, open::tilt_target_rad(machine)),
            Machine::Quadplane(machine) => Some(open::lift_share(machine)),
        };
        moved(self.mode(), output, false, self.report())
    }
}

fn moved(mode: FlightMode, output: Option<f32>, handoff: bool, report: FlightModeReport) -> Moved {
    Moved {
        mode,
        output,
        handoff,
        report: report_number(report.refusal),
    }
}

/// The step that the Rust returned, and its report.
fn tailsitter_moved(machine: &Transition, step: &TransitionStep) -> Moved {
    moved(step.mode, tilt(machine, step.tilt_target_rad), step.handoff, machine.report())
}

/// The step that the Rust returned, and its report.
fn quadplane_moved(machine: &LiftTransition, step: &LiftTransitionStep) -> Moved {
    moved(step.mode, Some(step.lift_share), step.handoff, machine.report())
}

/// Runs `call` with the settings' two done cosines at hand.
pub fn with_done_cosines<T>(s: &Settings, call: impl FnOnce() -> T) -> T {
    let supplied = |angle: usize, cosine: usize| libm::For {
        argument: s[angle],
        number: s[cosine],
    };
    libm::with_cosines(supplied(1, 15), supplied(5, 16), call)
}

/// The min or max of two numbers that the Rust gives. Of two zeros it may be either there; here it is the first named, as in document 01,
/// section 1.
pub fn first_of_zeros(a: f32, b: f32, given: f32) -> f32 {
    if [a, b, given] == [0.0; 3] { a } else { given }
}

/// The tilt; on the way back it is the max of the ramp and 0.
fn tilt(machine: &Transition, tilt_rad: Option<f32>) -> Option<f32> {
    let given = tilt_rad?;
    match machine.report().mode {
        FlightMode::ToCopter => Some(first_of_zeros(open::back_ramp(machine), 0.0, given)),
        _ => Some(given),
    }
}
