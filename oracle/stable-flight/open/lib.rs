//! What of the crate's private functions the reference calls.

use crate::VehicleState;

pub use crate::guidance::vtol::open::{Deceleration, Hold, back_ramp, forward_pitch_limit_rad, forward_pitch_rad, forward_speed_mps, lift_share, tilt_target_rad};

pub fn assert_dt(dt: f32) {
    crate::math::assert_dt(dt);
}

pub fn saturate_throttle(value: f32) -> f32 {
    crate::math::saturate_throttle(value)
}

pub fn limit_or_zero(limit: f32) -> f32 {
    crate::math::limit_or_zero(limit)
}

pub fn saturate_symmetric(value: f32, limit: f32) -> f32 {
    crate::math::saturate_symmetric(value, limit)
}

pub fn guard_sink(thrust: f32, climb_mps: f32, limit_mps: f32, gain: f32) -> Option<f32> {
    crate::math::guard_sink(thrust, climb_mps, limit_mps, gain)
}

pub fn nose_up_cosine(state: &VehicleState) -> f32 {
    crate::math::nose_up_cosine(&state.attitude)
}
