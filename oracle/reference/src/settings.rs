//! The settings of document 01, section 2, as 17 numbers, and the Rust's own configurations made of them.

use crate::machine::Airframe;
use stable_flight::controllers::InvalidConfig;
use stable_flight::guidance::vtol::{ForwardThrustConfig, LiftTransitionConfig, TransitionConfig};

/// Numbers 1 to 17 of a settings record. The quadplane uses the first 15.
pub type Settings = [f32; 17];

/// The binary32 nearest to the cosine of the Rust's default done angles, 3F490FDB.
const DONE_COSINE: f32 = f32::from_bits(0x3F35_04F3);

/// The quadplane's settings of document 01's example, section 7.
pub const EXAMPLE: Settings = [
    9.0, 4.0, 15.0, 5.0, 0.0, 2.0, 5.0, 10.0, 2.0, 0.0, 1.0, 0.25, 0.0625, 0.0, 0.75, 0.0, 0.0,
];

/// From the fields of a configuration of the Rust in their order: their names, the configuration of settings, and its default numbers.
macro_rules! configuration {
    ($config:ident, $names:ident, $of_settings:ident, $defaults:ident, [$($field:ident),*]) => {
        const $names: [&str; 15] = [$(stringify!($field)),*];

        pub fn $of_settings(s: &Settings) -> $config {
            let [$($field),*, _, _] = *s;
            $config { $($field),* }
        }

        fn $defaults() -> [f32; 15] {
            let config = $config::default();
            [$(config.$field),*]
        }
    };
}

configuration!(
    TransitionConfig,
    TAILSITTER_FIELDS,
    transition_config,
    tailsitter_defaults,
    [
        forward_rate_radps,
        forward_done_rad,
        forward_max_tilt_rad,
        min_airspeed_mps,
        back_rate_radps,
        back_done_rad,
        timeout_s,
        min_height_m,
        plane_min_height_m,
        forward_thrust,
        back_thrust,
        back_sink_limit_mps,
        back_sink_gain,
        handoff_s,
        roll_limit_rad
    ]
);
configuration!(
    LiftTransitionConfig,
    QUADPLANE_FIELDS,
    lift_transition_config,
    quadplane_defaults,
    [
        min_airspeed_mps,
        lift_ramp_s,
        timeout_s,
        min_height_m,
        plane_min_height_m,
        back_ramp_s,
        back_speed_mps,
        back_timeout_s,
        back_decel_mps2,
        back_decel_i,
        forward_thrust,
        pusher_slew_per_s,
        forward_pitch_max_rad,
        handoff_s,
        roll_limit_rad
    ]
);
const SPLIT_FIELDS: [&str; 2] = ["gain", "pitch_limit_rad"];

/// The Rust's default settings, the tailsitter's with the cosines of its default done angles.
pub fn defaults(airframe: Airframe) -> Settings {
    let (fields, cosine) = match airframe {
        Airframe::Tailsitter => (tailsitter_defaults(), DONE_COSINE),
        Airframe::Quadplane => (quadplane_defaults(), 0.0),
    };
    std::array::from_fn(|i| fields.get(i).copied().unwrap_or(cosine))
}

/// How many settings an airframe has.
pub fn fields(airframe: Airframe) -> usize {
    match airframe {
        Airframe::Tailsitter => 17,
        Airframe::Quadplane => 15,
    }
}

/// The fields of the timeouts, forward and back.
pub fn timeout_fields(airframe: Airframe) -> [usize; 2] {
    match airframe {
        Airframe::Tailsitter => [7, 7],
        Airframe::Quadplane => [3, 8],
    }
}

/// The fields of the two least heights: of a way to plane flight, and of plane flight.
pub fn height_fields(airframe: Airframe) -> [usize; 2] {
    match airframe {
        Airframe::Tailsitter => [8, 9],
        Airframe::Quadplane => [4, 5],
    }
}

/// The field of the least airspeed.
pub fn airspeed_field(airframe: Airframe) -> usize {
    match airframe {
        Airframe::Tailsitter => 4,
        Airframe::Quadplane => 1,
    }
}

/// The settings with some fields changed, each by its number from 1.
pub fn changed(settings: &Settings, changes: &[(usize, f32)]) -> Settings {
    let mut settings = *settings;
    for (field, x) in changes {
        settings[field - 1] = *x;
    }
    settings
}

/// The first bad field by its position from 1, or 0: the Rust's `validate`, then the two cosines that document 01 adds.
pub fn bad_field(airframe: Airframe, s: &Settings) -> u8 {
    match airframe {
        Airframe::Tailsitter => tailsitter_bad_field(s),
        Airframe::Quadplane => position(lift_transition_config(s).validate(), &QUADPLANE_FIELDS),
    }
}

fn tailsitter_bad_field(s: &Settings) -> u8 {
    let unit_above_zero = |x: f32| x > 0.0 && x <= 1.0;
    match position(transition_config(s).validate(), &TAILSITTER_FIELDS) {
        0 if !unit_above_zero(s[15]) => 16,
        0 if !unit_above_zero(s[16]) => 17,
        field => field,
    }
}

pub fn split_bad_field(config: &ForwardThrustConfig) -> u8 {
    position(config.validate(), &SPLIT_FIELDS)
}

fn position(validated: Result<(), InvalidConfig>, fields: &[&str]) -> u8 {
    match validated {
        Ok(()) => 0,
        Err(error) => 1 + fields.iter().position(|name| *name == error.field).expect("a field of the struct") as u8,
    }
}
