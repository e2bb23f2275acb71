//! What of vtol.rs's private items the reference calls.

use super::{FallbackHold, Transition};
use crate::{ControlInput, VehicleState};

pub use super::lift::open::{forward_speed_mps, lift_share};
pub use super::quadplane::open::{Deceleration, forward_pitch_limit_rad, forward_pitch_rad};

/// The hold.
#[derive(Debug, Clone, Copy, Default)]
pub struct Hold(FallbackHold);

impl Hold {
    pub fn input(&mut self, fallen_back: bool, input: &ControlInput, state: &VehicleState) -> ControlInput {
        self.0.input(fallen_back, input, state)
    }

    pub fn clear(&mut self) {
        self.0.clear();
    }
}

pub fn tilt_target_rad(transition: &Transition) -> Option<f32> {
    transition.tilt_target_rad()
}

/// The first operand of the back tilt's `max`, whose second is 0.
pub fn back_ramp(transition: &Transition) -> f32 {
    transition.start_tilt_rad - transition.config.back_rate_radps * transition.elapsed_s
}
