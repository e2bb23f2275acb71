//! Items of clocks at their bounds, of handoffs and thrust, and of the pitch of the way back.

use super::{Counts, Item, Seen, airframe_word, no_line, no_step, place};
use crate::machine::{Step, transitioning};
use crate::track::Track;
use stable_flight::FlightMode;

const DEMANDS: [&str; 6] = ["ordinary", "NaN", "below 0", "above 1", "-0", "1"];

/// The clock items of the present mode.
pub fn name(counts: &mut Counts, track: &Track) {
    let (call, line) = (&no_step(), &no_line(track));
    let (before, after) = (track, track);
    if transitioning(track.mode) {
        counts.name_all(&place(track.airframe, track.mode), &clocks(&Seen { before, after, call, line }));
    }
}

/// The items that no mode is named in.
pub fn name_thrust(counts: &mut Counts, track: &Track) {
    let (call, line) = (&no_step(), &no_line(track));
    let (before, after, word) = (track, track, airframe_word(track.airframe));
    let seen = Seen { before, after, call, line };
    counts.name_all(word, &handoffs(&seen));
    for demand in DEMANDS {
        counts.name(demand_item(track, demand, true));
        counts.name(demand_item(track, demand, false));
    }
    if !track.is_tailsitter() {
        counts.name_all(word, &pitches(&seen));
    }
}

pub fn count_step(counts: &mut Counts, seen: &Seen<Step>) {
    let (track, word) = (seen.before, airframe_word(seen.before.airframe));
    if transitioning(track.mode) && !seen.cut_by_roll() {
        counts.reach_all(&place(track.airframe, track.mode), &clocks(seen));
    }
    if seen.before.applies_handoff(seen.after.mode) {
        counts.reach_all(word, &handoffs(seen));
        let demand = demand_word(seen.call.demand());
        counts.reach(&demand_item(track, demand, seen.handoff_active()));
    }
    if !track.is_tailsitter() {
        counts.reach_all(word, &pitches(seen));
    }
}

fn demand_item(track: &Track, demand: &str, blended: bool) -> String {
    let how = if blended { "blended" } else { "passed on" };
    format!("{}: demand {demand}, {how}", airframe_word(track.airframe))
}

fn demand_word(demand: f32) -> &'static str {
    match demand {
        x if x.is_nan() => "NaN",
        x if x < 0.0 => "below 0",
        x if x > 1.0 => "above 1",
        x if x == 0.0 && x.is_sign_negative() => "-0",
        1.0 => "1",
        _ => "ordinary",
    }
}

/// Whether a time is at a bound: one float short of it, at it, one float past it.
fn at(time: f32, bound: f32) -> [bool; 3] {
    [time == bound.next_down(), time == bound, time == bound.next_up()]
}

fn clocks(seen: &Seen<Step>) -> Vec<Item> {
    let clock = seen.clock_s();
    let mut items = vec![
        ("clock infinite", clock == f32::INFINITY),
        ("dt too small to move the clock", clock == seen.before.clock_s && clock.is_finite()),
    ];
    match (seen.before.mode, seen.before.is_tailsitter()) {
        (FlightMode::ToPlane, true) => items.extend(timeout(seen)),
        (FlightMode::ToPlane, false) => {
            items.extend(timeout(seen));
            items.extend(lift_ramp(seen));
        }
        (_, true) => items.extend(back_timeout(seen)),
        _ => {
            items.extend(back_timeout(seen));
            items.extend(back_ramp(seen));
        }
    }
    items
}

fn timeout(seen: &Seen<Step>) -> Vec<Item> {
    let [short, exact, past] = at(seen.clock_s(), seen.before.timeout_s());
    let waits = seen.before.ramp_start_s.is_none();
    let (on, completes) = (seen.goes_on() && waits, seen.updated_to(FlightMode::Plane));
    let times_out = seen.updated_to(FlightMode::Copter) && seen.line.moved.report == 14;
    let mut items = vec![
        ("clock one float short of the timeout goes on", short && on),
        ("clock exactly the timeout goes on", exact && on),
        ("clock one float past the timeout abandons", past && times_out),
    ];
    if seen.before.is_tailsitter() {
        items.push(("clock one float past the timeout completes", past && completes));
    } else {
        let begins = on && seen.after.ramp_start_s.is_some();
        items.push(("clock exactly the timeout, ramp begins", exact && begins));
    }
    items
}

fn lift_ramp(seen: &Seen<Step>) -> Vec<Item> {
    let [short, exact, past] = seen.ramp_s().map_or([false; 3], |time| at(time, seen.before.field(2)));
    let (completes, ramp) = (seen.updated_to(FlightMode::Plane), seen.before.field(2));
    let sum = |start: f32| (seen.clock_s() - start >= ramp) != (seen.clock_s() >= start + ramp);
    let apart = (seen.goes_on() || completes) && seen.before.ramp_start_s.is_some_and(sum);
    vec![
        ("lift ramp by difference and by sum differ", apart),
        ("lift ramp one float short goes on", short && seen.goes_on()),
        ("lift ramp exactly at its end completes", exact && completes),
        ("lift ramp one float past its end completes", past && completes),
    ]
}

fn back_timeout(seen: &Seen<Step>) -> Vec<Item> {
    let [short, exact, past] = at(seen.clock_s(), seen.before.back_timeout_s());
    let ends = seen.updated_to(FlightMode::Copter) && seen.line.moved.handoff;
    vec![
        ("clock one float short of the timeout back goes on", short && seen.goes_on()),
        ("clock exactly the timeout back goes on", exact && seen.goes_on()),
        ("clock one float past the timeout back gives Copter", past && ends),
    ]
}

fn back_ramp(seen: &Seen<Step>) -> Vec<Item> {
    let [short, exact, past] = at(seen.clock_s(), seen.before.field(6));
    let on = seen.goes_on() && seen.before.abandonment == 0;
    let share = seen.line.moved.output.unwrap_or(-1.0);
    vec![
        ("back ramp one float short of its end", short && on && share < 1.0),
        ("back ramp exactly at its end", exact && on && share == 1.0),
        ("back ramp one float past its end", past && on && share == 1.0),
    ]
}

impl Seen<'_, Step> {
    fn starts_handoff(&self) -> bool {
        let enters_plane = self.before.mode != self.after.mode && self.after.mode == FlightMode::Plane;
        self.line.moved.handoff || enters_plane
    }

    /// The handoff's time before the step and its duration.
    fn handoff(&self) -> (f32, f32) {
        if self.starts_handoff() {
            (0.0, self.before.field(14))
        } else {
            (self.before.handoff_elapsed_s, self.before.handoff_s)
        }
    }

    fn handoff_active(&self) -> bool {
        let (elapsed, duration) = self.handoff();
        elapsed < duration
    }
}

fn handoffs(seen: &Seen<Step>) -> Vec<Item> {
    let (elapsed, duration) = seen.handoff();
    let (starts, active) = (seen.starts_handoff(), seen.handoff_active());
    let [short, exact, past] = at(elapsed + seen.call.dt(), duration);
    let back_to_plane = starts && seen.before.mode == FlightMode::ToCopter && seen.after.mode == FlightMode::Plane;
    vec![
        ("handoff goes on", active && !starts),
        ("handoff one float short of its duration", active && short),
        ("handoff exactly its duration", active && exact),
        ("handoff one float past its duration", active && past),
        (
            "handoff ends in its first step",
            active && starts && elapsed + seen.call.dt() >= duration,
        ),
        ("handoff of 0 s starts", starts && duration == 0.0),
        ("handoff replaces one that runs", starts && seen.before.handoff_active()),
        ("handoff starts on return to Plane, without flag", back_to_plane),
        ("handoff starts from a thrust above 0", starts && active && seen.before.thrust > 0.0),
        (
            "handoff runs with another handoff_s set",
            active && !starts && duration != seen.before.field(14),
        ),
    ]
}

/// The deceleration along the ground track, as the Rust works it out.
fn deceleration(step: &Step) -> (f32, f32) {
    let state = step.state();
    let velocity = state.velocity_mps.xy();
    let speed = velocity.norm();
    if speed == 0.0 {
        (speed, 0.0)
    } else {
        (speed, -state.acceleration_mps2.xy().dot(&velocity) / speed)
    }
}

fn pitches(seen: &Seen<Step>) -> Vec<Item> {
    let (speed, deceleration) = deceleration(seen.call);
    let applied = seen.after.mode == FlightMode::ToCopter;
    let entered = applied && seen.before.mode != FlightMode::ToCopter;
    let first = if entered { 0.0 } else { seen.before.pitch_rad };
    let change = seen.before.field(10) * (seen.before.field(9) - deceleration) * seen.call.dt();
    let (raw, pitch, moves) = (first + change, seen.line.pitch_rad, applied && deceleration.is_finite());
    let held = applied && pitch == first && first > 0.0 && first < 0.3;
    let copter = seen.before.mode == FlightMode::Copter && seen.after.mode == FlightMode::Copter;
    vec![
        ("pitch held at 0", moves && raw < 0.0 && pitch == 0.0),
        ("pitch held at 0.3", moves && raw > 0.3 && pitch == 0.3),
        ("pitch between 0 and 0.3", moves && pitch > 0.0 && pitch < 0.3),
        ("pitch falls, above 0", moves && pitch > 0.0 && pitch < first),
        ("pitch held, deceleration NaN", held && deceleration.is_nan()),
        ("pitch held, deceleration infinite", held && deceleration == f32::INFINITY),
        ("pitch held, deceleration minus infinite", held && deceleration == f32::NEG_INFINITY),
        ("pitch at ground speed 0", applied && speed == 0.0),
        ("pitch at an infinite ground speed", applied && speed == f32::INFINITY),
        ("pitch NaN by gain 0", moves && pitch.is_nan() && seen.before.field(10) == 0.0),
        ("pitch with gain 0 stays", moves && pitch == first && seen.before.field(10) == 0.0),
        ("pitch grows in the step that enters ToCopter", entered && pitch > 0.0),
        ("pitch kept in Copter", copter && pitch > 0.0),
        ("pitch kept in ToPlane", seen.after.mode == FlightMode::ToPlane && pitch > 0.0),
    ]
}
