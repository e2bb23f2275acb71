//! What of quadplane.rs's and deceleration.rs's private items the reference calls.

use super::deceleration::BackDeceleration;
use crate::{Setpoint, VehicleState};

/// The nose-up of the back transition.
#[derive(Debug, Clone, Copy, Default)]
pub struct Deceleration {
    machine: BackDeceleration,
    pitch_rad: f32,
}

impl Deceleration {
    pub fn reset(&mut self) {
        self.machine.reset();
        self.pitch_rad = 0.0;
    }

    pub fn advance(&mut self, dt: f32, state: &VehicleState, target_mps2: f32, gain: f32) {
        self.pitch_rad = self.machine.pitch_rad(dt, state, target_mps2, gain);
    }

    /// The last pitch.
    pub fn pitch_rad(&self) -> f32 {
        self.pitch_rad
    }
}

pub fn forward_pitch_limit_rad(max_rad: f32, lift_share: f32, state: &VehicleState) -> f32 {
    super::forward_pitch_limit_rad(max_rad, lift_share, state)
}

pub fn forward_pitch_rad(wing: &Setpoint, limit_rad: f32) -> f32 {
    super::forward_pitch_rad(wing, limit_rad)
}
