//! The answers to a list of calls: each record is one call of a helper or of a machine of the Rust and gives one line.

use crate::card::{RECORD_BYTES, Record, bits, mode_letter, refused};
use crate::joined::Line;
use crate::machine::{Airframe, Machine, Moved, Refusal, caught, first_of_zeros, good_dt, reason};
use crate::settings::{bad_field, defaults, split_bad_field};
use nalgebra::UnitQuaternion;
use stable_flight::guidance::vtol::{ForwardThrust, ForwardThrustConfig, ThrustHandoff};
use stable_flight::{
    AbsoluteAttitudeCommand, AbsoluteRateCommand, AttitudeCommand, AttitudeSetpoint, BlendSetpoint, BodyRateSetpoint, Configurable,
    ControlInput, LandCommand, PlaneSetpoint, RateCommand, RateSetpoint, Setpoint, Vec2, Vec3, VehicleState, WaypointCommand, open,
};
use std::f32::consts::FRAC_PI_4;

/// One line for each whole record.
pub fn answers(list: &[u8]) -> String {
    let mut kept = Kept::new();
    let mut text = String::new();
    for bytes in list.chunks_exact(RECORD_BYTES) {
        text.push_str(&kept.line(&Record(bytes)));
        text.push('\n');
    }
    text
}

/// What is kept from record to record.
struct Kept {
    handoff: ThrustHandoff,
    deceleration: open::Deceleration,
    split: ForwardThrust,
    hold: open::Hold,
    tailsitter: Machine,
    quadplane: Machine,
}

impl Kept {
    fn new() -> Kept {
        let made = |airframe| Machine::new(airframe, &defaults(airframe)).expect("the default settings are good");
        Kept {
            handoff: ThrustHandoff::new(0.0),
            deceleration: open::Deceleration::default(),
            split: ForwardThrust::new(ForwardThrustConfig {
                gain: 0.0,
                pitch_limit_rad: 0.0,
            }),
            hold: open::Hold::default(),
            tailsitter: made(Airframe::Tailsitter),
            quadplane: made(Airframe::Quadplane),
        }
    }

    fn line(&mut self, r: &Record) -> String {
        if !known(r.kind(), r.option()) {
            return "unknown".to_string();
        }
        match r.kind() {
            1..=13 => number_line(r),
            20..=24 => settings_line(r),
            30..=33 => self.thrust_line(r),
            34..=35 => self.deceleration_line(r),
            40..=41 => self.split_line(r),
            42..=43 => pitch_line(r),
            44..=45 => self.hold_line(r),
            50..=54 => machine_line(&mut self.tailsitter, r),
            _ => machine_line(&mut self.quadplane, r),
        }
    }
}

/// Whether the table has this kind with this option. A kind without options has the option 0.
fn known(kind: u8, option: u8) -> bool {
    match kind {
        13 => option <= 1,
        43 => option <= 5,
        45 => option < 16 && option % 8 <= 5 || option < 64 && option % 8 == 2,
        53 | 63 => option <= 3,
        54 | 64 => (11..=16).contains(&option),
        1..=12 | 20..=24 | 30..=35 | 40..=42 | 44 | 50..=52 | 60..=62 => option == 0,
        _ => false,
    }
}

/// The digits of one number.
fn word(x: f32) -> String {
    format!("{:08x}", bits(x))
}

fn words(numbers: &[f32]) -> String {
    numbers.iter().map(|x| word(*x)).collect::<Vec<_>>().join(" ")
}

fn word_or_none(x: Option<f32>) -> String {
    x.map_or("-".to_string(), word)
}

fn pair(r: &Record, first: usize) -> Vec2 {
    Vec2::new(r.number(first), r.number(first + 1))
}

fn triple(r: &Record, first: usize) -> Vec3 {
    Vec3::new(r.number(first), r.number(first + 1), r.number(first + 2))
}

/// The attitude in numbers 1 to 4.
fn attitude(r: &Record) -> UnitQuaternion<f32> {
    UnitQuaternion {
        w: r.number(1),
        i: r.number(2),
        j: r.number(3),
        k: r.number(4),
    }
}

/// Kinds 1 to 13: numbers in, numbers out.
fn number_line(r: &Record) -> String {
    let (a, b) = (r.number(1), r.number(2));
    match r.kind() {
        1 => word(nalgebra::root(a)),
        2 => word(pair(r, 1).norm()),
        3 => word(pair(r, 1).dot(&pair(r, 3))),
        4..=6 => attitude_line(r),
        7 => word(a.clamp(b, r.number(3))),
        8 => word(first_of_zeros(a, b, a.min(b))),
        9 => word(first_of_zeros(a, b, a.max(b))),
        10 => word(open::saturate_throttle(a)),
        11 => word(open::limit_or_zero(a)),
        12 => word(open::saturate_symmetric(a, b)),
        _ => airspeed_line(r),
    }
}

fn attitude_line(r: &Record) -> String {
    let state = VehicleState {
        attitude: attitude(r),
        velocity_mps: triple(r, 5),
        ..VehicleState::default()
    };
    match r.kind() {
        4 => {
            let turned = attitude(r) * triple(r, 5);
            words(&[turned.x, turned.y, turned.z])
        }
        5 => word(open::nose_up_cosine(&state)),
        _ => word(open::forward_speed_mps(&state)),
    }
}

fn airspeed_line(r: &Record) -> String {
    let state = VehicleState {
        airspeed_mps: (r.option() == 1).then_some(r.number(1)),
        ..VehicleState::default()
    };
    word_or_none(state.valid_airspeed_mps())
}

fn split_config(r: &Record) -> ForwardThrustConfig {
    ForwardThrustConfig {
        gain: r.number(1),
        pitch_limit_rad: r.number(2),
    }
}

/// Kinds 20 to 24: the checks of settings, and the default settings.
fn settings_line(r: &Record) -> String {
    match r.kind() {
        20 => bad_field(Airframe::Tailsitter, &r.settings()).to_string(),
        21 => bad_field(Airframe::Quadplane, &r.settings()).to_string(),
        22 => split_bad_field(&split_config(r)).to_string(),
        23 => words(&defaults(Airframe::Tailsitter)[..15]),
        _ => words(&defaults(Airframe::Quadplane)[..15]),
    }
}

impl Kept {
    /// Kinds 30 to 33: the handoff and the sink guard.
    fn thrust_line(&mut self, r: &Record) -> String {
        let (a, b) = (r.number(1), r.number(2));
        match r.kind() {
            30 => match caught(|| ThrustHandoff::new(a)) {
                Some(handoff) => {
                    self.handoff = handoff;
                    self.active()
                }
                None => refused(Refusal::Number(4)),
            },
            31 => {
                self.handoff.start(a);
                self.active()
            }
            32 => match caught(|| self.handoff.apply(a, b)) {
                Some(thrust) => format!("{} {}", word(thrust), self.active()),
                None => refused(Refusal::Number(1)),
            },
            _ => word_or_none(open::guard_sink(a, b, r.number(3), r.number(4))),
        }
    }

    fn active(&self) -> String {
        u8::from(self.handoff.active()).to_string()
    }

    /// Kinds 34 and 35: the deceleration.
    fn deceleration_line(&mut self, r: &Record) -> String {
        if r.kind() == 34 {
            self.deceleration.reset();
            return word(self.deceleration.pitch_rad());
        }
        let dt = r.number(1);
        if !good_dt(dt) {
            return refused(Refusal::Number(1));
        }
        let state = VehicleState {
            velocity_mps: Vec3::new(r.number(2), r.number(3), 0.0),
            acceleration_mps2: Vec3::new(r.number(4), r.number(5), 0.0),
            ..VehicleState::default()
        };
        self.deceleration.advance(dt, &state, r.number(6), r.number(7));
        word(self.deceleration.pitch_rad())
    }

    /// Kinds 40 and 41: the split.
    fn split_line(&mut self, r: &Record) -> String {
        if r.kind() == 41 {
            return self.split(r.number(1), r.number(2));
        }
        let config = split_config(r);
        match caught(|| ForwardThrust::new(config)) {
            Some(split) => {
                self.split = split;
                u8::from(split.enabled()).to_string()
            }
            None => refused(Refusal::Setting(split_bad_field(&config))),
        }
    }

    fn split(&self, pitch_rad: f32, tangent: f32) -> String {
        let used = self.split.enabled() && !pitch_rad.is_nan();
        if used && !(0.0..=1.0).contains(&tangent) {
            return refused(Refusal::Number(5));
        }
        let supplied = libm::For {
            argument: (-pitch_rad).clamp(0.0, FRAC_PI_4),
            number: tangent,
        };
        let split = libm::with_tangent(supplied, || self.split.split(pitch_rad));
        let limit_rad = self.split.config().pitch_limit_rad;
        words(&[first_of_zeros(pitch_rad, -limit_rad, split.pitch_rad), split.thrust])
    }
}

/// Kinds 42 and 43: the pitch limit and the pitch of the forward transition.
fn pitch_line(r: &Record) -> String {
    let a = r.number(1);
    if r.kind() == 43 {
        return word(open::forward_pitch_rad(&setpoint(r), a));
    }
    let state = VehicleState {
        velocity_mps: Vec3::new(r.number(3), r.number(4), 0.0),
        ..VehicleState::default()
    };
    word(open::forward_pitch_limit_rad(a, r.number(2), &state))
}

/// The setpoint of kind 43: its numbers from 2, its flags false.
fn setpoint(r: &Record) -> Setpoint {
    match r.option() {
        0 => Setpoint::Attitude(attitude_setpoint(r)),
        1 => Setpoint::Rate(RateSetpoint {
            roll_rate: r.number(2),
            pitch_rate: r.number(3),
            yaw_rate: r.number(4),
            thrust: r.number(5),
            idle: false,
        }),
        2 => Setpoint::BodyRate(body_rate_setpoint(r)),
        3 => Setpoint::Plane(plane_setpoint(r, 2)),
        4 => Setpoint::PlaneRate(body_rate_setpoint(r)),
        _ => Setpoint::Blend(BlendSetpoint {
            hover: attitude_setpoint(r),
            plane: plane_setpoint(r, 6),
            lift_share: r.number(9),
        }),
    }
}

fn attitude_setpoint(r: &Record) -> AttitudeSetpoint {
    AttitudeSetpoint {
        roll_rad: r.number(2),
        pitch_rad: r.number(3),
        heading_rad: r.number(4),
        thrust: r.number(5),
        transition: false,
        idle: false,
    }
}

fn body_rate_setpoint(r: &Record) -> BodyRateSetpoint {
    BodyRateSetpoint {
        roll_radps: r.number(2),
        pitch_radps: r.number(3),
        yaw_radps: r.number(4),
        thrust: r.number(5),
        idle: false,
    }
}

fn plane_setpoint(r: &Record, first: usize) -> PlaneSetpoint {
    PlaneSetpoint {
        roll_rad: r.number(first),
        pitch_rad: r.number(first + 1),
        thrust: r.number(first + 2),
        transition: false,
    }
}

impl Kept {
    /// Kinds 44 and 45: the hold.
    fn hold_line(&mut self, r: &Record) -> String {
        if r.kind() == 44 {
            self.hold.clear();
            return "-".to_string();
        }
        let state = VehicleState {
            position_m: triple(r, 1),
            ..VehicleState::default()
        };
        let fallen_back = r.option() & 8 != 0;
        input_words(&self.hold.input(fallen_back, &input(r), &state))
    }
}

/// The input of kind 45: its numbers from 4.
fn input(r: &Record) -> ControlInput {
    let (a, b, c, d) = (r.number(4), r.number(5), r.number(6), r.number(7));
    match r.option() % 8 {
        0 => ControlInput::Attitude(AttitudeCommand {
            throttle: a,
            roll: b,
            pitch: c,
            yaw: d,
        }),
        1 => ControlInput::Rate(RateCommand {
            throttle: a,
            roll_rate: b,
            pitch_rate: c,
            yaw_rate: d,
        }),
        2 => ControlInput::Waypoint(waypoint(r)),
        3 => ControlInput::AbsoluteAttitude(AbsoluteAttitudeCommand {
            roll_rad: a,
            pitch_rad: b,
            heading_rad: c,
            thrust: d,
        }),
        4 => ControlInput::Land(LandCommand { position_m: pair(r, 4) }),
        _ => ControlInput::AbsoluteRate(AbsoluteRateCommand {
            roll_radps: a,
            pitch_radps: b,
            yaw_radps: c,
            thrust: d,
        }),
    }
}

fn waypoint(r: &Record) -> WaypointCommand {
    WaypointCommand {
        position_m: pair(r, 4),
        velocity_mps: (r.option() & 16 != 0).then(|| pair(r, 6)),
        altitude_m: r.number(8),
        cruise_speed_mps: r.number(9),
        heading_rad: (r.option() & 32 != 0).then(|| r.number(10)),
    }
}

/// The option of an input, then its numbers in the order of its struct.
fn input_words(input: &ControlInput) -> String {
    let numbered = |option: u8, numbers: &[f32]| format!("{option} {}", words(numbers));
    match input {
        ControlInput::Attitude(c) => numbered(0, &[c.throttle, c.roll, c.pitch, c.yaw]),
        ControlInput::Rate(c) => numbered(1, &[c.throttle, c.roll_rate, c.pitch_rate, c.yaw_rate]),
        ControlInput::Waypoint(c) => format!("2 {}", waypoint_words(c)),
        ControlInput::AbsoluteAttitude(c) => numbered(3, &[c.roll_rad, c.pitch_rad, c.heading_rad, c.thrust]),
        ControlInput::Land(c) => numbered(4, &[c.position_m.x, c.position_m.y]),
        ControlInput::AbsoluteRate(c) => numbered(5, &[c.roll_radps, c.pitch_radps, c.yaw_radps, c.thrust]),
        _ => panic!("an input that the table does not have"),
    }
}

/// A velocity that is none is one word.
fn waypoint_words(c: &WaypointCommand) -> String {
    format!(
        "{} {} {} {}",
        words(&[c.position_m.x, c.position_m.y]),
        c.velocity_mps.map_or("-".to_string(), |v| words(&[v.x, v.y])),
        words(&[c.altitude_m, c.cruise_speed_mps]),
        word_or_none(c.heading_rad),
    )
}

/// Kinds 50 to 54 and 60 to 64: a machine.
fn machine_line(machine: &mut Machine, r: &Record) -> String {
    let answer = match r.kind() % 10 {
        0 => return new_machine_line(machine, r),
        1 => machine.set_config(&r.settings()),
        2 => Ok(machine.prime(r.number(2))),
        3 => machine.update(&r.step()),
        _ => Ok(machine.cut_short(reason(r.option()))),
    };
    answer.map_or_else(refused, |moved| moved_words(&moved))
}

fn new_machine_line(machine: &mut Machine, r: &Record) -> String {
    match Machine::new(machine.airframe(), &r.settings()) {
        Ok(made) => {
            *machine = made;
            "new".to_string()
        }
        Err(refusal) => refused(refusal),
    }
}

/// The words of a line of the joined machine.
pub fn line_words(line: &Line) -> String {
    format!("{} {}", moved_words(&line.moved), words(&[line.thrust, line.pitch_rad]))
}

fn moved_words(moved: &Moved) -> String {
    format!(
        "{} {} {} {}",
        mode_letter(moved.mode),
        word_or_none(moved.output),
        u8::from(moved.handoff),
        moved.report,
    )
}
