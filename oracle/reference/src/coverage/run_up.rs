//! Items of the quadplane's thrust in ToPlane, by document 02, 2.2.

use super::{Counts, Item, Seen, airframe_word, no_line, no_step};
use crate::machine::Step;
use crate::track::Track;
use stable_flight::FlightMode;

pub fn name(counts: &mut Counts, track: &Track) {
    let (call, line) = (&no_step(), &no_line(track));
    let (before, after) = (track, track);
    if !track.is_tailsitter() {
        counts.name_all(airframe_word(track.airframe), &items(&Seen { before, after, call, line }));
    }
}

pub fn count_step(counts: &mut Counts, seen: &Seen<Step>) {
    if !seen.before.is_tailsitter() {
        counts.reach_all(airframe_word(seen.before.airframe), &items(seen));
    }
}

fn items(seen: &Seen<Step>) -> Vec<Item> {
    [entries(seen), bounds(seen), edges(seen), demands(seen), ends(seen)].concat()
}

impl Seen<'_, Step> {
    fn enters_to_plane(&self) -> bool {
        self.updated_to(FlightMode::ToPlane)
    }

    fn runs_up(&self) -> bool {
        self.before.mode == FlightMode::ToPlane && self.goes_on()
    }

    /// By how much the thrust would rise, and to what.
    fn rise(&self) -> (f32, f32) {
        let rise = self.before.field(12) * self.call.dt();
        (rise, self.before.thrust + rise)
    }
}

fn entries(seen: &Seen<Step>) -> Vec<Item> {
    let (enters, demand) = (seen.enters_to_plane(), seen.call.demand());
    vec![
        (
            "run-up begins, demand and kept thrust above 0",
            enters && demand > 0.0 && seen.before.thrust > 0.0,
        ),
        ("run-up begins with a handoff running", enters && seen.before.handoff_active()),
        ("run-up begins, demand NaN", enters && demand.is_nan()),
    ]
}

/// The sum against field 11.
fn bounds(seen: &Seen<Step>) -> Vec<Item> {
    let (on, most, (rise, risen)) = (seen.runs_up(), seen.before.field(11), seen.rise());
    let (kept, thrust) = (seen.before.thrust, seen.line.thrust);
    vec![
        ("run-up below field 11", on && risen < most && thrust > kept),
        ("run-up one float short of field 11", on && risen == most.next_down()),
        ("run-up exactly to field 11", on && risen == most && kept < most),
        ("run-up one float past field 11", on && risen == most.next_up()),
        ("run-up held at field 11", on && kept == most && rise > 0.0 && most > 0.0),
        ("run-up held at field 11 of 1", on && kept == 1.0 && most == 1.0),
        ("run-up brought down by a lower field 11", on && thrust < kept),
    ]
}

fn edges(seen: &Seen<Step>) -> Vec<Item> {
    let (on, most, (rise, risen)) = (seen.runs_up(), seen.before.field(11), seen.rise());
    let (kept, stays, minus) = (seen.before.thrust, on && rise == 0.0, most.is_sign_negative());
    let fused = seen.before.field(12).mul_add(seen.call.dt(), kept);
    vec![
        ("run-up, field 12 times dt infinite", on && rise == f32::INFINITY),
        ("run-up, field 12 times dt rounds to 0 at thrust 0", stays && kept == 0.0),
        ("run-up, field 12 times dt rounds to 0 above thrust 0", stays && kept > 0.0),
        ("run-up, rise lost in the sum", on && rise > 0.0 && risen == kept && risen < most),
        (
            "run-up, another sum if the product is not rounded",
            on && risen < most && risen != fused,
        ),
        ("run-up, field 11 of 0", on && most == 0.0 && !minus && risen > 0.0),
        ("run-up, field 11 of -0", on && most == 0.0 && minus && risen > 0.0),
        ("run-up, field 11 of -0 and a sum of 0", on && most == 0.0 && minus && risen == 0.0),
    ]
}

fn demands(seen: &Seen<Step>) -> Vec<Item> {
    let (on, demand) = (seen.runs_up(), seen.call.demand());
    vec![
        ("run-up, demand NaN", on && demand.is_nan()),
        ("run-up, demand infinite", on && demand == f32::INFINITY),
        ("run-up, demand below the thrust", on && demand < seen.line.thrust),
        ("run-up, demand above the thrust", on && demand > seen.line.thrust),
        ("run-up, a handoff stands", on && seen.before.handoff_active()),
    ]
}

/// The steps that leave ToPlane, from a thrust above 0.
fn ends(seen: &Seen<Step>) -> Vec<Item> {
    let above = seen.before.mode == FlightMode::ToPlane && seen.before.thrust > 0.0;
    let back = above && seen.after.mode == FlightMode::Copter;
    let (stood, report) = (seen.before.handoff_active(), seen.line.moved.report);
    let demanded = back && !stood && seen.line.thrust != seen.before.thrust;
    vec![
        (
            "run-up ends in Plane, handoff from it",
            above && seen.after.mode == FlightMode::Plane && seen.before.field(14) > 0.0,
        ),
        ("run-up ends by a Copter request, thrust the demand", demanded && report == 0),
        ("run-up ends by the timeout, thrust the demand", demanded && report == 14),
        ("run-up ends by a roll cut, thrust the demand", demanded && report == 15),
        ("run-up ends by a Copter request, the handoff goes on", back && stood && report == 0),
        ("run-up ends by the timeout, the handoff goes on", back && stood && report == 14),
        ("run-up ends by a roll cut, the handoff goes on", back && stood && report == 15),
    ]
}
