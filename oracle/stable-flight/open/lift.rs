//! What of lift.rs's private items the reference calls.

use super::LiftTransition;
use crate::VehicleState;

pub fn forward_speed_mps(state: &VehicleState) -> f32 {
    super::forward_speed_mps(state)
}

pub fn lift_share(transition: &LiftTransition) -> f32 {
    transition.lift_share()
}
