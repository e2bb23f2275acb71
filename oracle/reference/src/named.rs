//! Cards with a name: the example of document 01, section 7, the inputs of docs/DIFFERENCES.md, and those of document 02's requests. Each
//! comes with what the paper or that page says of it, and the tests hold the reference to that.

mod run_up;

use crate::card::{RecordBytes, header_bytes, in_order, record_bytes, step_bytes};
use crate::machine::{Airframe, Step};
use crate::settings::{EXAMPLE, Settings, changed, defaults};
use std::f32::consts::{FRAC_PI_2, PI};

/// A card, and lines of its transcript: each a number from 1 and the words.
pub struct Named {
    pub name: &'static str,
    pub card: Vec<u8>,
    pub lines: Vec<(usize, &'static str)>,
}

/// A card whose records run in their order.
struct Flight {
    records: Vec<RecordBytes>,
}

/// What differs from step to step in these flights. The rest: z 10, velocity and acceleration 0, the nose where the airframe hovers.
#[derive(Clone, Copy)]
struct ShortStep {
    plane: bool,
    dt: f32,
    demand: f32,
    airspeed: Option<f32>,
    vx: f32,
    attitude: [f32; 4],
    tilt_rad: f32,
    bank_rad: f32,
}

const LEVEL: [f32; 4] = [1.0, 0.0, 0.0, 0.0];
/// Nose straight up: 2·w·y is 1.
const NOSE_UP: [f32; 4] = [0.5, 0.0, 1.0, 0.0];

fn copter(dt: f32, demand: f32) -> ShortStep {
    ShortStep {
        plane: false,
        dt,
        demand,
        airspeed: None,
        vx: 0.0,
        attitude: LEVEL,
        tilt_rad: FRAC_PI_2,
        bank_rad: 0.0,
    }
}

fn plane(dt: f32, demand: f32) -> ShortStep {
    ShortStep {
        plane: true,
        ..copter(dt, demand)
    }
}

/// The same with an airspeed that begins the ramp.
fn fast(step: ShortStep) -> ShortStep {
    ShortStep {
        airspeed: Some(12.0),
        ..step
    }
}

/// The same with a bank.
fn banked(bank_rad: f32, step: ShortStep) -> ShortStep {
    ShortStep { bank_rad, ..step }
}

/// The same with the nose straight up.
fn upright(step: ShortStep) -> ShortStep {
    ShortStep {
        attitude: NOSE_UP,
        tilt_rad: 0.0,
        ..step
    }
}

impl ShortStep {
    fn step(&self) -> Step {
        let [w, x, y, z] = self.attitude;
        let airspeed = self.airspeed.unwrap_or(0.0);
        let state = [10.0, self.vx, 0.0, 0.0, 0.0, 0.0, w, x, y, z];
        let others = [airspeed, self.tilt_rad, self.bank_rad, self.demand];
        let numbers = [&[self.dt], &state[..], &others].concat();
        Step {
            plane_requested: self.plane,
            airspeed_present: self.airspeed.is_some(),
            numbers: numbers.try_into().expect("15 numbers"),
        }
    }
}

impl Flight {
    /// The airframe's header, and a prime at z 0.
    fn new(airframe: Airframe, settings: &Settings) -> Flight {
        Flight {
            records: vec![header_bytes(airframe, settings), record_bytes(1, 0, &[])],
        }
    }

    fn fly(mut self, steps: &[ShortStep]) -> Flight {
        self.records.extend(steps.iter().map(|short| step_bytes(&short.step())));
        self
    }

    fn cut(mut self, reason: u8) -> Flight {
        self.records.push(record_bytes(3, reason, &[]));
        self
    }

    /// The example's settings with some fields changed.
    fn set(mut self, changes: &[(usize, f32)]) -> Flight {
        self.records.push(record_bytes(4, 0, &changed(&EXAMPLE, changes)));
        self
    }

    fn card(self) -> Vec<u8> {
        in_order(self.records)
    }
}

/// A quadplane with the example's settings but for some fields.
fn quadplane(changes: &[(usize, f32)]) -> Flight {
    Flight::new(Airframe::Quadplane, &changed(&EXAMPLE, changes))
}

/// A quadplane with its defaults but for the handoff, that has flown into Plane by line 4 with the demand 0.5.
fn quadplane_in_plane(handoff_s: f32) -> Flight {
    let settings = changed(&defaults(Airframe::Quadplane), &[(14, handoff_s)]);
    Flight::new(Airframe::Quadplane, &settings).fly(&[plane(1.0, 0.5), fast(plane(1.0, 0.5)), plane(5.0, 0.5)])
}

/// A tailsitter with its defaults but for handoff, forward and back thrust.
fn tailsitter(handoff_s: f32, forward_thrust: f32, back_thrust: f32) -> Flight {
    let changes = [(10, forward_thrust), (11, back_thrust), (14, handoff_s)];
    Flight::new(Airframe::Tailsitter, &changed(&defaults(Airframe::Tailsitter), &changes))
}

/// Document 01, section 7: the example, with the thrust of document 02, 2.2.
fn example() -> Named {
    let steps = [
        plane(1.0, 0.5),
        fast(plane(1.0, 0.5)),
        plane(2.0, 0.5),
        plane(2.0, 0.5),
        copter(1.0, 0.5),
        ShortStep {
            vx: 10.0,
            ..copter(1.0, 0.5)
        },
        ShortStep {
            vx: 4.0,
            ..copter(1.0, 0.5)
        },
    ]
    .map(|step| ShortStep { tilt_rad: 0.0, ..step });
    Named {
        name: "document 01, section 7",
        card: quadplane(&[]).fly(&steps).card(),
        lines: vec![
            (1, "1 C 3F800000 0 0 00000000 00000000"),
            (2, "2 F 3F800000 0 0 00000000 00000000"),
            (3, "3 F 3F800000 0 0 3E800000 00000000"),
            (4, "4 F 3F000000 0 0 3F400000 00000000"),
            (5, "5 P 00000000 1 0 3F000000 00000000"),
            (6, "6 B 00000000 0 0 3F000000 00000000"),
            (7, "7 B 3F000000 0 0 3F000000 00000000"),
            (8, "8 C 3F800000 1 0 3F000000 00000000"),
            (9, "end 8"),
        ],
    }
}

fn quadplane_thrust_cards() -> Vec<Named> {
    vec![
        Named {
            name: "2.1, quadplane ToPlane: the demand is no bound",
            card: quadplane(&[]).fly(&[plane(1.0, 0.125), plane(1.0, 0.125)]).card(),
            lines: vec![(3, "3 F 3F800000 0 0 3E800000 00000000")],
        },
        Named {
            name: "2.1, quadplane Plane: the demand is saturated",
            card: quadplane_in_plane(0.0).fly(&[plane(1.0, 2.0)]).card(),
            lines: vec![(5, "5 P 00000000 0 0 3F800000 00000000")],
        },
        Named {
            name: "2.2, quadplane entering ToPlane: 0, and no rise",
            card: quadplane(&[]).fly(&[copter(1.0, 0.75), plane(1.0, 0.75), plane(1.0, 0.75)]).card(),
            lines: vec![(3, "3 F 3F800000 0 0 00000000 00000000"), (4, "4 F 3F800000 0 0 3E800000 00000000")],
        },
    ]
}

fn quadplane_blend_cards() -> Vec<Named> {
    let still_fast = ShortStep {
        vx: 20.0,
        ..copter(1.0, 0.5)
    };
    vec![
        Named {
            name: "2.2, quadplane ToCopter to Plane: from the kept thrust",
            card: quadplane_in_plane(2.0).fly(&[plane(2.0, 0.5), still_fast, plane(1.0, 0.5)]).card(),
            lines: vec![(7, "7 P 00000000 0 0 3F000000 3E4CCCCD")],
        },
        Named {
            name: "2.2, quadplane ToCopter to Copter: starts a blend",
            card: quadplane_in_plane(2.0).fly(&[plane(2.0, 0.5), still_fast, copter(1.0, 0.0)]).card(),
            lines: vec![(7, "7 C 3F800000 1 0 3E800000 3E4CCCCD")],
        },
        Named {
            name: "2.3, quadplane: all modes but ToPlane advance a blend",
            card: quadplane(&[(14, 4.0)])
                .fly(&[plane(1.0, 0.5), fast(plane(1.0, 0.5)), plane(3.0, 0.5), plane(1.0, 0.0)])
                .fly(&[copter(1.0, 0.0), copter(1.0, 0.0), plane(1.0, 0.0), copter(1.0, 0.0)])
                .card(),
            lines: vec![
                (4, "4 F 3E800000 0 0 3F800000 00000000"),
                (5, "5 P 00000000 1 0 3F400000 00000000"),
                (6, "6 B 00000000 0 0 3F000000 00000000"),
                (7, "7 C 3F800000 1 0 3EC00000 00000000"),
                (8, "8 F 3F800000 0 0 00000000 00000000"),
                (9, "9 C 3F800000 0 0 3E800000 00000000"),
            ],
        },
    ]
}

/// The tailsitter's steps into ToPlane and Plane.
fn into_plane() -> [ShortStep; 2] {
    [upright(plane(0.5, 0.5)), plane(0.5, 0.0)]
}

fn tailsitter_thrust_cards() -> Vec<Named> {
    let [enter, complete] = into_plane();
    vec![
        Named {
            name: "2.1, tailsitter ToPlane: field 10 alone",
            card: tailsitter(0.5, 0.5, 0.5)
                .fly(&[upright(copter(1.0, 0.75)), upright(plane(1.0, 0.75))])
                .card(),
            lines: vec![(2, "2 C - 0 0 3F400000 00000000"), (3, "3 F 00000000 0 0 3F000000 00000000")],
        },
        Named {
            name: "2.1, tailsitter Plane: no floor under the throttle",
            card: tailsitter(0.0, 0.5, 0.5).fly(&[enter, complete]).card(),
            lines: vec![(3, "3 P - 1 0 00000000 00000000")],
        },
        Named {
            name: "2.1, tailsitter ToCopter: no blend",
            card: tailsitter(2.0, 0.5, 0.0).fly(&[enter, complete, copter(0.5, 0.0)]).card(),
            lines: vec![(3, "3 P - 1 0 3EC00000 00000000"), (4, "4 B 3FC90FDB 0 0 00000000 00000000")],
        },
        Named {
            name: "2.1, tailsitter Copter: a NaN demand is 0",
            card: tailsitter(0.5, 0.5, 0.5).fly(&[upright(copter(1.0, f32::NAN))]).card(),
            lines: vec![(2, "2 C - 0 0 00000000 00000000")],
        },
    ]
}

fn tailsitter_blend_cards() -> Vec<Named> {
    let [enter, complete] = into_plane();
    vec![
        Named {
            name: "2.2, tailsitter ToCopter to Plane: starts a blend",
            card: tailsitter(2.0, 0.5, 0.5)
                .fly(&[enter, complete, plane(2.0, 0.0), copter(0.5, 0.0), plane(1.0, 0.0)])
                .card(),
            lines: vec![(6, "6 P - 0 0 3E800000 00000000")],
        },
        Named {
            name: "2.3, tailsitter: the transitions let a blend stand",
            card: tailsitter(2.0, 0.5, 0.5)
                .fly(&[
                    enter,
                    complete,
                    plane(2.0, 0.5),
                    copter(0.5, 0.5),
                    upright(copter(1.0, 1.0)),
                    upright(plane(0.5, 1.0)),
                ])
                .card(),
            lines: vec![(6, "6 C - 1 0 3F400000 00000000"), (7, "7 F 00000000 0 0 3F000000 00000000")],
        },
        Named {
            name: "1.2, entry tilt: looked at in Copter too",
            card: tailsitter(0.5, 0.5, 0.5)
                .fly(&[ShortStep {
                    tilt_rad: f32::NAN,
                    ..copter(1.0, 0.5)
                }])
                .card(),
            lines: vec![(2, "2 refused 2")],
        },
    ]
}

fn roll_cards() -> Vec<Named> {
    let usual = defaults(Airframe::Quadplane);
    let widest = changed(&usual, &[(15, PI)]);
    let forward = |settings: &Settings| Flight::new(Airframe::Quadplane, settings).fly(&[plane(1.0, 0.5)]);
    vec![
        Named {
            name: "1.2, bank: any number",
            card: forward(&widest)
                .fly(&[banked(PI, plane(1.0, 0.5)), banked(4.0, plane(1.0, 0.5))])
                .card(),
            lines: vec![
                (3, "3 F 3F800000 0 0 3EA8F5C3 00000000"),
                (4, "4 C 3F800000 0 15 3F000000 00000000"),
            ],
        },
        Named {
            name: "2.4, bad dt with a roll cut",
            card: forward(&usual).fly(&[banked(1.0, plane(0.0, 0.5)), plane(1.0, 0.5)]).card(),
            lines: vec![(3, "3 refused 1"), (4, "4 F 3F800000 0 0 3EA8F5C3 00000000")],
        },
        Named {
            name: "2.4, cut call: any reason",
            card: forward(&usual).cut(12).fly(&[plane(1.0, 0.5)]).card(),
            lines: vec![
                (3, "3 C 3F800000 0 12 00000000 00000000"),
                (4, "4 C 3F800000 0 12 3F000000 00000000"),
            ],
        },
    ]
}

/// All of them: the first cards of the recorded list.
pub fn all() -> Vec<Named> {
    let example = vec![example()];
    let parts = [
        example,
        quadplane_thrust_cards(),
        quadplane_blend_cards(),
        tailsitter_thrust_cards(),
        tailsitter_blend_cards(),
        roll_cards(),
        run_up::cards(),
    ];
    parts.into_iter().flatten().collect()
}

#[cfg(test)]
mod tests {
    use crate::card::transcript;

    #[test]
    fn each_line_is_as_said() {
        for named in super::all() {
            let text = transcript(&named.card);
            let lines: Vec<&str> = text.lines().collect();
            for (number, words) in named.lines {
                assert_eq!(lines[number - 1], words, "{}\n{text}", named.name);
            }
        }
    }

    #[test]
    fn the_example_is_byte_for_byte() {
        let example = super::example();
        let said: String = example.lines.iter().map(|(_, words)| format!("{words}\n")).collect();
        assert_eq!(transcript(&example.card), said);
    }
}
