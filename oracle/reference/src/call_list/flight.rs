//! One machine led by its calls, and the updates that lead it.

use super::List;
use crate::machine::{Airframe, Machine, Step, reason};
use crate::settings::{self, Settings, defaults, fields, timeout_fields};
use stable_flight::FlightMode;

/// Settings with round numbers, every field apart from the others.
const TAILSITTER: Settings = [
    0.5, 0.75, 1.25, 12.0, 0.375, 0.5, 15.0, 5.0, 3.0, 0.5, 0.625, 1.0, 0.4, 0.25, 0.75, 0.625, 0.875,
];
const QUADPLANE: Settings = [
    9.0, 4.0, 15.0, 5.0, 3.0, 2.0, 6.0, 10.0, 2.5, 0.1, 1.0, 0.25, 0.0625, 0.5, 0.75, 0.0, 0.0,
];

/// What an update takes.
#[derive(Clone, Copy)]
pub struct Air {
    pub plane: bool,
    pub dt: f32,
    pub z: f32,
    pub velocity: [f32; 3],
    pub acceleration: [f32; 2],
    pub attitude: [f32; 4],
    pub airspeed: Option<f32>,
    pub tilt: f32,
}

/// Nose straight up, standing still: not done forward, done back, on both airframes.
pub const HOVER: Air = Air {
    plane: true,
    dt: 0.25,
    z: 10.0,
    velocity: [0.0; 3],
    acceleration: [0.0; 2],
    attitude: [0.5, 0.0, 1.0, 0.0],
    airspeed: None,
    tilt: 0.125,
};

/// Level and fast: done forward, not done back, on both airframes.
pub const LEVEL: Air = Air {
    velocity: [20.0, 0.0, 0.0],
    attitude: [1.0, 0.0, 0.0, 0.0],
    airspeed: Some(20.0),
    tilt: 1.5,
    ..HOVER
};

impl Air {
    /// The same with Copter requested.
    pub fn copter(self) -> Air {
        Air { plane: false, ..self }
    }

    pub fn dt(self, dt: f32) -> Air {
        Air { dt, ..self }
    }

    pub fn z(self, z: f32) -> Air {
        Air { z, ..self }
    }

    pub fn tilt(self, tilt: f32) -> Air {
        Air { tilt, ..self }
    }

    pub fn airspeed(self, airspeed: Option<f32>) -> Air {
        Air { airspeed, ..self }
    }

    /// The same with this nose-up cosine.
    pub fn nose_up(self, cosine: f32) -> Air {
        Air {
            attitude: [0.5, 0.0, cosine, 0.0],
            ..self
        }
    }

    /// The same with this forward speed, level.
    pub fn speed(self, speed: f32) -> Air {
        Air {
            attitude: [1.0, 0.0, 0.0, 0.0],
            velocity: [speed, 0.0, 0.0],
            ..self
        }
    }

    /// The update as a step, of which a machine reads numbers 1 to 13. An airspeed that is absent has a number that would count.
    pub fn step(&self, absent: f32) -> Step {
        let (v, a, q) = (self.velocity, self.acceleration, self.attitude);
        let airspeed = self.airspeed.unwrap_or(absent);
        Step {
            plane_requested: self.plane,
            airspeed_present: self.airspeed.is_some(),
            numbers: [
                self.dt, self.z, v[0], v[1], v[2], a[0], a[1], q[0], q[1], q[2], q[3], airspeed, self.tilt, 0.0, 0.0,
            ],
        }
    }
}

/// The records of one machine, and the machine itself, to know its mode.
pub struct Flight<'a> {
    pub list: &'a mut List,
    pub airframe: Airframe,
    machine: Machine,
    /// The z of the last prime.
    home: f32,
}

impl<'a> Flight<'a> {
    /// The machine that the list begins with.
    pub fn new(list: &'a mut List, airframe: Airframe) -> Flight<'a> {
        Flight {
            list,
            airframe,
            machine: Machine::new(airframe, &defaults(airframe)).expect("the default settings are good"),
            home: f32::NAN,
        }
    }

    fn add(&mut self, call: u8, option: u8, numbers: &[f32]) {
        let base = match self.airframe {
            Airframe::Tailsitter => 50,
            Airframe::Quadplane => 60,
        };
        self.list.add(base + call, option, numbers);
    }

    pub fn new_machine(&mut self, settings: &Settings) {
        if let Ok(machine) = Machine::new(self.airframe, settings) {
            self.machine = machine;
            self.home = f32::NAN;
        }
        self.add(0, 0, &settings[..fields(self.airframe)]);
    }

    pub fn set(&mut self, settings: &Settings) {
        // Refused or not: the list is about the answers, the machine here only follows.
        let _ = self.machine.set_config(settings);
        self.add(1, 0, &settings[..fields(self.airframe)]);
    }

    pub fn new_round(&mut self) {
        self.new_machine(&self.round());
    }

    pub fn set_round(&mut self) {
        self.set(&self.round());
    }

    /// The round settings with some fields changed.
    pub fn set_changed(&mut self, changes: &[(usize, f32)]) {
        self.set(&self.changed(changes));
    }

    pub fn prime(&mut self, z: f32) {
        self.machine.prime(z);
        self.home = z;
        let before = self.list.random.between(-9.0, 9.0);
        self.add(2, 0, &[before, z]);
    }

    pub fn step(&mut self, air: Air) {
        let absent = self.list.random.pick(&[0.0, 1000.0]);
        self.update(&air.step(absent));
    }

    pub fn update(&mut self, step: &Step) {
        let _ = self.machine.update(step);
        self.add(3, step.option(), &step.numbers[..13]);
    }

    pub fn cut(&mut self, number: u8) {
        self.machine.cut_short(reason(number));
        self.add(4, number, &[]);
    }

    /// The settings with round numbers.
    fn round(&self) -> Settings {
        match self.airframe {
            Airframe::Tailsitter => TAILSITTER,
            Airframe::Quadplane => QUADPLANE,
        }
    }

    /// The round settings with some fields changed, each by its number from 1.
    pub fn changed(&self, changes: &[(usize, f32)]) -> Settings {
        settings::changed(&self.round(), changes)
    }

    /// The round settings' timeout of the way back.
    pub fn back_timeout(&self) -> f32 {
        self.round()[timeout_fields(self.airframe)[1] - 1]
    }

    /// Into a mode as if just entered, without an abandonment and with home at z 0: by the shortest way.
    pub fn enter(&mut self, mode: FlightMode) {
        match mode {
            FlightMode::Copter => self.prime(0.0),
            FlightMode::ToPlane => {
                if !self.leads_to(HOVER, FlightMode::Copter, mode) {
                    self.prime(0.0);
                }
                self.step(HOVER);
            }
            FlightMode::Plane => self.enter_plane(),
            _ => {
                self.enter(FlightMode::Plane);
                self.step(LEVEL.copter());
            }
        }
    }

    fn enter_plane(&mut self) {
        let plane = FlightMode::Plane;
        if self.leads_to(LEVEL, plane, plane) {
            return;
        }
        if self.leads_to(LEVEL, FlightMode::ToCopter, plane) {
            self.step(LEVEL);
            return;
        }
        self.enter(FlightMode::ToPlane);
        self.step(LEVEL);
        if self.airframe == Airframe::Quadplane {
            self.step(LEVEL.dt(4.0));
        }
    }

    /// Whether an update leads from one mode to another here, with home at z 0.
    fn leads_to(&self, air: Air, from: FlightMode, to: FlightMode) -> bool {
        let mut ahead = self.machine.clone();
        let next = ahead.update(&air.step(0.0));
        self.home == 0.0 && self.machine.mode() == from && next.is_ok_and(|moved| moved.mode == to)
    }

    /// The same, unless the machine is there already.
    pub fn be_in(&mut self, mode: FlightMode) {
        if self.machine.mode() != mode {
            self.enter(mode);
        }
    }
}
