//! Items of the rows of document 01, section 4, with the roll cut of section 6: what a call does in each mode.

use super::{Counts, Item, Seen, no_line, no_step, numbers, place};
use crate::machine::{REASONS, Step, transitioning};
use crate::settings::{Settings, fields};
use crate::track::{Track, forward_speed, nose_up, valid_airspeed};
use stable_flight::{FlightMode, Vec3};
use std::f32::consts::PI;

const NEGATIVE_ZERO: u32 = 0x8000_0000;

impl Seen<'_, Step> {
    pub fn asked(&self) -> bool {
        self.call.plane_requested
    }

    pub fn cut_by_roll(&self) -> bool {
        self.before.cut_by_roll(self.call)
    }

    pub fn updated_to(&self, mode: FlightMode) -> bool {
        !self.cut_by_roll() && self.after.mode == mode && self.before.mode != mode
    }

    pub fn goes_on(&self) -> bool {
        !self.cut_by_roll() && self.after.mode == self.before.mode
    }

    /// The clock after the step's own time.
    pub fn clock_s(&self) -> f32 {
        self.before.clock_s + self.call.dt()
    }

    fn height_m(&self) -> f32 {
        self.call.numbers[1] - self.before.home_z_m
    }

    fn report(&self) -> u8 {
        self.line.moved.report
    }

    fn abandoned(&self) -> bool {
        self.before.abandonment != 0
    }

    /// Time on the lift ramp, once begun.
    pub fn ramp_s(&self) -> Option<f32> {
        self.before.ramp_start_s.map(|start| self.clock_s() - start)
    }

    /// Whether the transition of the present mode would be done.
    fn done(&self) -> bool {
        let (before, step) = (self.before, self.call);
        match (before.mode, before.is_tailsitter()) {
            (FlightMode::ToPlane, true) => nose_up(step) <= before.field(16) && self.fast_or_unknown(),
            (FlightMode::ToPlane, false) => self.ramp_s().is_some_and(|time| time >= before.field(2)),
            (_, true) => nose_up(step) >= before.field(17),
            (_, false) => self.speed().is_some_and(|speed| speed < before.field(7)),
        }
    }

    fn fast_or_unknown(&self) -> bool {
        valid_airspeed(self.call).is_none_or(|speed| speed >= self.before.min_airspeed_mps())
    }

    fn speed(&self) -> Option<f32> {
        let forward = forward_speed(self.call);
        if forward.is_finite() {
            Some(forward)
        } else {
            valid_airspeed(self.call)
        }
    }

    fn reading_not_valid(&self) -> bool {
        self.call.airspeed_present && valid_airspeed(self.call).is_none()
    }
}

/// Whether none of the four attitude numbers is 0.
fn any_attitude(step: &Step) -> bool {
    step.numbers[7..11].iter().all(|x| *x != 0.0)
}

/// The items of accepted steps in the present mode.
fn step_items(seen: &Seen<Step>) -> Vec<Item> {
    let tailsitter = seen.before.is_tailsitter();
    match seen.before.mode {
        FlightMode::Copter => [copter(seen), heights(seen), heights_not_finite(seen)].concat(),
        FlightMode::ToPlane if tailsitter => [to_plane(seen), nose_down(seen), roll(seen)].concat(),
        FlightMode::ToPlane => [to_plane(seen), lift_ramp(seen), roll(seen)].concat(),
        FlightMode::Plane => plane(seen),
        _ if tailsitter => [to_copter(seen), nose_back_up(seen), sink_guard(seen), roll(seen), roll_back(seen)].concat(),
        _ => [to_copter(seen), slowed(seen), slowed_by_airspeed(seen), roll(seen), roll_back(seen)].concat(),
    }
}

fn clears(mode: &str, number: u8) -> String {
    format!("{mode}: Copter request clears abandonment {number}")
}

fn refused_by(mode: &str, number: u8) -> String {
    format!("{mode}: Plane request refused by abandonment {number}")
}

pub fn name(counts: &mut Counts, track: &Track) {
    let (step, line) = (no_step(), no_line(track));
    let (before, after, line) = (track, track, &line);
    let seen = Seen {
        before,
        after,
        call: &step,
        line,
    };
    let mode = place(track.airframe, track.mode);
    counts.name_all(&mode, &step_items(&seen));
    if track.mode == FlightMode::Copter {
        for (number, _) in REASONS {
            counts.name(clears(&mode, number));
            counts.name(refused_by(&mode, number));
        }
    }
    counts.name_all(&mode, &accepted_edges(track, &step));
    counts.name_all(&mode, &refused_step(track, &step, 0));
    counts.name(format!("{mode}: settings refused"));
    let call = &[0.0; 17];
    counts.name_all(&mode, &settings(&Seen { before, after, call, line }));
    for (number, _) in REASONS {
        counts.name(format!("{mode}: cut with {number}"));
    }
    let call = &11;
    counts.name_all(&mode, &cut(&Seen { before, after, call, line }));
    let call = &0.0;
    counts.name_all(&mode, &prime(&Seen { before, after, call, line }));
}

/// Each field as the first bad one of a settings call.
pub fn name_fields(counts: &mut Counts, track: &Track) {
    for field in 1..=fields(track.airframe) {
        counts.name(refused_field(track, field as u8));
    }
}

pub fn count_step(counts: &mut Counts, seen: &Seen<Step>) {
    let mode = place(seen.before.airframe, seen.before.mode);
    counts.reach_all(&mode, &step_items(seen));
    counts.reach_all(&mode, &accepted_edges(seen.before, seen.call));
    let abandonment = seen.before.abandonment;
    if seen.before.mode == FlightMode::Copter && abandonment != 0 {
        let item = if seen.asked() { refused_by } else { clears };
        counts.reach(&item(&mode, abandonment));
    }
}

fn copter(seen: &Seen<Step>) -> Vec<Item> {
    let (asked, abandoned, primed) = (seen.asked(), seen.abandoned(), seen.before.primed);
    let refused = asked && !abandoned && seen.report() == 13;
    let enters = seen.updated_to(FlightMode::ToPlane);
    let mut items = vec![
        ("Copter request, nothing abandoned", !asked && !abandoned),
        ("Copter request before any prime", !asked && !primed),
        ("Plane request refused 13 before any prime", refused && !primed),
        ("Plane request refused 13 after a prime", refused && primed),
        ("Plane request enters ToPlane", enters),
        (
            "bank past the limit does nothing",
            seen.call.bank_rad().abs() > seen.before.roll_limit_rad(),
        ),
    ];
    if seen.before.is_tailsitter() {
        let nose = nose_up(seen.call);
        items.push(("enters ToPlane, nose-up not finite", enters && !nose.is_finite()));
        items.push(("enters ToPlane, nose-up finite", enters && nose.is_finite()));
    }
    items
}

fn heights(seen: &Seen<Step>) -> Vec<Item> {
    let (height, least, floor) = (seen.height_m(), seen.before.min_height_m(), seen.before.plane_min_height_m());
    let (upper, lower) = (least > floor, floor > least);
    let enters = seen.updated_to(FlightMode::ToPlane);
    let refused = seen.asked() && !seen.abandoned() && seen.report() == 13;
    let rounds = f64::from(seen.call.numbers[1]) - f64::from(seen.before.home_z_m) != f64::from(height);
    let at_larger = enters && height == least.max(floor);
    let (below_least, below_floor) = (refused && height == least.next_down(), refused && height == floor.next_down());
    vec![
        ("height exactly min_height_m, the larger, enters", at_larger && upper),
        ("height exactly plane_min_height_m, the larger, enters", at_larger && lower),
        ("height one float below min_height_m, the larger, refused", below_least && upper),
        (
            "height one float below plane_min_height_m, the larger, refused",
            below_floor && lower,
        ),
        ("height exactly the larger minimum by a difference that rounds", at_larger && rounds),
        ("height between the minimums refused", refused && height >= least.min(floor)),
    ]
}

fn heights_not_finite(seen: &Seen<Step>) -> Vec<Item> {
    let (height, report) = (seen.height_m(), seen.report());
    let refused = seen.asked() && !seen.abandoned() && report == 13;
    let abandoned_nan = seen.asked() && seen.abandoned() && height.is_nan();
    let kept = report == seen.before.abandonment;
    vec![
        (
            "height NaN after a prime refused 13",
            refused && seen.before.primed && height.is_nan(),
        ),
        ("height infinite refused 13", refused && height == f32::INFINITY),
        ("height minus infinite refused 13", refused && height == f32::NEG_INFINITY),
        ("abandoned with 14, height NaN reports 14", abandoned_nan && report == 14),
        ("abandoned, height NaN reports the abandonment", abandoned_nan && kept),
    ]
}

fn to_plane(seen: &Seen<Step>) -> Vec<Item> {
    let back = seen.updated_to(FlightMode::Copter) && !seen.asked();
    let completes = seen.updated_to(FlightMode::Plane);
    let late = seen.clock_s() > seen.before.timeout_s();
    vec![
        ("Copter request gives Copter", back),
        ("Copter request in a step that would complete", back && seen.done()),
        ("Copter request in a step that would time out", back && !seen.done() && late),
        ("completes, with handoff", completes && seen.line.moved.handoff),
        ("completes with the clock past the timeout", completes && late),
        ("times out", seen.updated_to(FlightMode::Copter) && seen.report() == 14),
        ("goes on", seen.goes_on()),
    ]
}

fn nose_down(seen: &Seen<Step>) -> Vec<Item> {
    let (nose, cosine, least) = (nose_up(seen.call), seen.before.field(16), seen.before.min_airspeed_mps());
    let (on, completes) = (seen.goes_on(), seen.updated_to(FlightMode::Plane));
    let speed = valid_airspeed(seen.call);
    let (tilt, end) = (seen.line.moved.output.unwrap_or(-1.0), seen.before.field(3));
    let slow = on && nose <= cosine;
    vec![
        ("goes on, nose-up above the forward cosine", on && nose > cosine),
        (
            "goes on, nose-up one float above the forward cosine",
            on && nose == cosine.next_up(),
        ),
        ("completes, nose-up exactly the forward cosine", completes && nose == cosine),
        (
            "completes, nose-up exactly the forward cosine, any attitude",
            completes && nose == cosine && any_attitude(seen.call),
        ),
        ("goes on, nose-up NaN", on && nose.is_nan()),
        ("goes on, nose-up infinite", on && nose == f32::INFINITY),
        ("completes, nose-up minus infinite", completes && nose == f32::NEG_INFINITY),
        ("goes on, nose down and airspeed below the minimum", slow),
        (
            "goes on, nose down and airspeed one float below the minimum",
            slow && speed == Some(least.next_down()),
        ),
        (
            "completes, airspeed exactly the minimum",
            completes && least > 0.0 && speed == Some(least),
        ),
        ("completes, airspeed infinite", completes && speed == Some(f32::INFINITY)),
        ("completes without airspeed", completes && !seen.call.airspeed_present),
        ("completes, airspeed reading not valid", completes && seen.reading_not_valid()),
        ("tilt on its ramp", on && tilt < end),
        ("tilt at forward_max_tilt_rad", on && tilt == end),
        ("tilt held at a start above forward_max_tilt_rad", on && tilt > end),
    ]
}

fn lift_ramp(seen: &Seen<Step>) -> Vec<Item> {
    let (begun, least) = (seen.before.ramp_start_s.is_some(), seen.before.min_airspeed_mps());
    let begins = !begun && seen.after.ramp_start_s.is_some() && seen.goes_on();
    let waits = !begun && !begins && seen.goes_on();
    let (speed, late) = (valid_airspeed(seen.call), seen.clock_s() > seen.before.timeout_s());
    let times_out = seen.updated_to(FlightMode::Copter) && seen.report() == 14;
    let share = seen.line.moved.output.unwrap_or(-1.0);
    let on = begun && seen.goes_on();
    vec![
        ("waits, no airspeed", waits && !seen.call.airspeed_present),
        ("waits, airspeed reading not valid", waits && seen.reading_not_valid()),
        ("waits, airspeed below the minimum", waits && speed.is_some()),
        (
            "waits, airspeed one float below the minimum",
            waits && speed == Some(least.next_down()),
        ),
        ("ramp begins", begins),
        ("ramp begins, airspeed exactly the minimum", begins && speed == Some(least)),
        ("ramp begins, airspeed infinite", begins && speed == Some(f32::INFINITY)),
        (
            "times out with airspeed enough",
            times_out && speed.is_some_and(|speed| speed >= least),
        ),
        ("ramp goes on", on),
        ("ramp goes on with no valid airspeed", on && speed.is_none()),
        ("ramp goes on past the timeout", on && late),
        ("share between 0 and 1", on && share > 0.0 && share < 1.0),
    ]
}

fn plane(seen: &Seen<Step>) -> Vec<Item> {
    let (height, floor, bank) = (seen.height_m(), seen.before.plane_min_height_m(), seen.call.bank_rad());
    let enters = seen.updated_to(FlightMode::ToCopter);
    let (trips, on) = (enters && seen.asked(), seen.goes_on());
    let mut items = vec![
        ("goes on", on),
        ("Copter request enters ToCopter", enters && !seen.asked()),
        (
            "Copter request below the floor enters ToCopter without abandonment",
            enters && !seen.asked() && height < floor,
        ),
        ("floor enters ToCopter and abandons with 16", trips && seen.report() == 16),
        ("height exactly the floor goes on", on && floor > 0.0 && height == floor),
        ("height one float below the floor trips it", trips && height == floor.next_down()),
        ("height NaN goes on, floor set", on && floor > 0.0 && height.is_nan()),
        ("height infinite goes on, floor set", on && floor > 0.0 && height == f32::INFINITY),
        ("height minus infinite trips the floor", trips && height == f32::NEG_INFINITY),
        ("height below 0 goes on, floor 0", on && floor == 0.0 && height < 0.0),
        ("bank past the limit does nothing", bank.abs() > seen.before.roll_limit_rad()),
    ];
    if seen.before.is_tailsitter() {
        let output = seen.line.moved.output.map(f32::to_bits);
        items.push(("enters ToCopter, nose-up not finite", enters && !nose_up(seen.call).is_finite()));
        items.push(("enters ToCopter with tilt -0", enters && output == Some(NEGATIVE_ZERO)));
    } else {
        items.push(("enters ToCopter with a pitch from before", enters && seen.before.pitch_rad > 0.0));
    }
    items
}

fn to_copter(seen: &Seen<Step>) -> Vec<Item> {
    let (asked, abandoned, on) = (seen.asked(), seen.abandoned(), seen.goes_on());
    let (returns, ends) = (seen.updated_to(FlightMode::Plane), seen.updated_to(FlightMode::Copter));
    let late = seen.clock_s() > seen.before.back_timeout_s();
    let (done, timed_out) = (ends && seen.done() && !late, ends && !seen.done() && late);
    let reported = asked && abandoned && seen.report() == 16;
    let kept = !asked && abandoned && seen.report() == 0 && seen.after.abandonment == 16;
    vec![
        ("Plane request gives Plane, no handoff flag", returns && !seen.line.moved.handoff),
        ("Plane request gives Plane in a step that would be done", returns && seen.done()),
        ("Plane request gives Plane in a step past the timeout", returns && late),
        ("done gives Copter, with handoff", done && seen.line.moved.handoff),
        ("timeout gives Copter, with handoff", timed_out && seen.line.moved.handoff),
        ("done and past the timeout at once", ends && seen.done() && late),
        ("done, abandoned, Plane request reports 16", done && reported),
        ("done, abandoned, Copter request reports 0 and keeps it", done && kept),
        ("timeout, abandoned, Plane request reports 16", timed_out && reported),
        ("timeout, abandoned, Copter request reports 0 and keeps it", timed_out && kept),
        ("goes on, nothing abandoned", on && !abandoned),
        ("goes on, abandoned, Plane request reports 16", on && reported),
        ("goes on, abandoned, Copter request reports 0 and keeps it", on && kept),
    ]
}

fn nose_back_up(seen: &Seen<Step>) -> Vec<Item> {
    let (nose, cosine, on) = (nose_up(seen.call), seen.before.field(17), seen.goes_on());
    let ends = seen.updated_to(FlightMode::Copter);
    let exact = ends && nose == cosine;
    let tilt = seen.line.moved.output.unwrap_or(-1.0);
    vec![
        ("done, nose-up exactly the back cosine", exact),
        (
            "done, nose-up exactly the back cosine, any attitude",
            exact && any_attitude(seen.call),
        ),
        ("goes on, nose-up one float below the back cosine", on && nose == cosine.next_down()),
        ("goes on, nose-up NaN", on && nose.is_nan()),
        ("goes on, nose-up minus infinite", on && nose == f32::NEG_INFINITY),
        ("done, nose-up infinite", ends && nose == f32::INFINITY),
        ("tilt above 0", on && tilt > 0.0),
        ("tilt at 0", on && tilt == 0.0),
    ]
}

fn sink_guard(seen: &Seen<Step>) -> Vec<Item> {
    let (climb, limit, back) = (seen.call.numbers[4], seen.before.field(12), seen.before.field(11));
    let (on, thrust) = (seen.goes_on(), seen.line.thrust);
    let set = on && limit > 0.0;
    let infinite = set && climb == f32::NEG_INFINITY && seen.before.field(13) == 0.0 && back > 0.0;
    let off = on && limit == 0.0 && climb < 0.0;
    let exact = set && climb == -limit;
    vec![
        ("sink guard adds thrust", on && thrust > back && thrust < 1.0),
        ("sink guard gives thrust 1", on && thrust == 1.0 && back < 1.0),
        ("sink exactly the limit, guard does not act", exact),
        (
            "sink exactly the limit, back_thrust -0 stays -0",
            exact && thrust.to_bits() == NEGATIVE_ZERO,
        ),
        ("sink one float past the limit", set && climb == (-limit).next_down()),
        ("sink with the limit 0, guard does not act", off && thrust == back),
        ("infinite sink with gain 0 gives thrust 0", infinite && thrust == 0.0),
        ("climb NaN, guard does not act", set && climb.is_nan() && thrust == back),
    ]
}

fn slowed(seen: &Seen<Step>) -> Vec<Item> {
    let (speed, back, on) = (forward_speed(seen.call), seen.before.field(7), seen.goes_on());
    let ends = seen.updated_to(FlightMode::Copter);
    let share = seen.line.moved.output.unwrap_or(-1.0);
    vec![
        ("done by forward speed", ends && speed < back && speed.is_finite()),
        (
            "done, forward speed one float below back_speed_mps",
            ends && speed == back.next_down(),
        ),
        ("goes on, forward speed exactly back_speed_mps", on && speed == back),
        (
            "goes on, forward speed exactly back_speed_mps, any attitude",
            on && speed == back && any_attitude(seen.call),
        ),
        (
            "forward speed depends on the order of its sum",
            !seen.cut_by_roll() && order_matters(seen.call, back),
        ),
        ("share between 0 and 1", on && share > 0.0 && share < 1.0),
        ("share 1 by the ramp", on && share == 1.0 && !seen.abandoned()),
        ("share 1 by abandonment", on && share == 1.0 && seen.abandoned()),
    ]
}

/// Whether the parts of the forward speed, added in another order, are on the other side of the bound.
fn order_matters(step: &Step, back_mps: f32) -> bool {
    let state = step.state();
    let (nose, v) = (state.attitude * Vec3::x(), state.velocity_mps);
    let other = nose.x * v.x + (nose.y * v.y - nose.z * v.z);
    (forward_speed(step) < back_mps) != (other < back_mps)
}

fn slowed_by_airspeed(seen: &Seen<Step>) -> Vec<Item> {
    let (speed, back, on) = (valid_airspeed(seen.call), seen.before.field(7), seen.goes_on());
    let unknown = !forward_speed(seen.call).is_finite();
    let ends = seen.updated_to(FlightMode::Copter) && unknown && seen.clock_s() <= seen.before.back_timeout_s();
    vec![
        ("forward speed unknown, done by airspeed", ends),
        (
            "forward speed unknown, done, airspeed one float below back_speed_mps",
            ends && speed == Some(back.next_down()),
        ),
        (
            "forward speed unknown, goes on, airspeed exactly back_speed_mps",
            on && unknown && speed == Some(back),
        ),
        (
            "forward speed unknown, goes on, no airspeed",
            on && unknown && !seen.call.airspeed_present,
        ),
        (
            "forward speed unknown, goes on, airspeed reading not valid",
            on && unknown && seen.reading_not_valid(),
        ),
    ]
}

fn roll(seen: &Seen<Step>) -> Vec<Item> {
    let (bank, limit, cut) = (seen.call.bank_rad(), seen.before.roll_limit_rad(), seen.cut_by_roll());
    vec![
        ("roll cut", cut),
        ("roll cut by a negative bank", cut && bank < 0.0),
        ("roll cut, bank one float past the limit", cut && bank == limit.next_up()),
        ("roll cut, bank one float past the limit, negative", cut && bank == -limit.next_up()),
        ("roll cut, bank infinite", cut && bank == f32::INFINITY),
        ("roll cut, bank minus infinite", cut && bank == f32::NEG_INFINITY),
        ("roll cut in a step that would complete", cut && seen.done()),
        ("roll cut in a step with a Copter request", cut && !seen.asked()),
        ("bank exactly the limit does not cut", !cut && bank == limit),
        ("bank exactly minus the limit does not cut", !cut && bank == -limit),
        ("bank NaN does not cut", !cut && bank.is_nan()),
    ]
}

fn roll_back(seen: &Seen<Step>) -> Vec<Item> {
    let stands = seen.cut_by_roll() && seen.before.report == 16 && seen.report() == 16;
    vec![
        ("roll cut leaves the standing report 16", stands),
        (
            "roll cut with a Copter request leaves the standing report 16",
            stands && !seen.asked(),
        ),
    ]
}

/// Numbers at the edges of refusals 1 and 2 that are accepted.
fn accepted_edges(before: &Track, step: &Step) -> Vec<Item> {
    let (dt, tilt) = (step.dt(), step.entry_tilt_rad());
    let bad_tilt = !(0.0..=PI).contains(&tilt);
    let mut items = vec![
        ("dt 2^-149 accepted", dt == f32::from_bits(1)),
        ("dt largest accepted", dt == f32::MAX),
    ];
    if before.is_tailsitter() {
        items.push(("bad entry tilt accepted, nose-up not finite", bad_tilt));
        items.push(("entry tilt exactly π accepted", tilt == PI));
    } else {
        items.push(("entry tilt out of range accepted", bad_tilt));
    }
    items
}

fn refused_step(before: &Track, step: &Step, refusal: u8) -> Vec<Item> {
    let (dt, tilt, banked) = (step.dt(), step.entry_tilt_rad(), before.cut_by_roll(step));
    let bad_tilt = !(0.0..=PI).contains(&tilt) && nose_up(step).is_finite();
    let mut items = vec![
        ("step refused 1", refusal == 1),
        ("step refused 1, dt 0", refusal == 1 && dt == 0.0),
    ];
    if transitioning(before.mode) {
        items.push(("step refused 1, bank past the limit", refusal == 1 && banked));
    }
    if before.is_tailsitter() {
        items.push(("step refused 1, entry tilt bad too", refusal == 1 && bad_tilt));
        items.push(("step refused 2", refusal == 2));
        items.push(("step refused 2, entry tilt one float past π", refusal == 2 && tilt == PI.next_up()));
        items.push((
            "step refused 2, entry tilt one float below 0",
            refusal == 2 && tilt == -f32::from_bits(1),
        ));
    }
    if before.is_tailsitter() && transitioning(before.mode) {
        items.push(("step refused 2, bank past the limit", refusal == 2 && banked));
    }
    items
}

pub fn count_refused_step(counts: &mut Counts, before: &Track, step: &Step, refusal: u8) {
    counts.reach_all(&place(before.airframe, before.mode), &refused_step(before, step, refusal));
}

fn refused_field(track: &Track, field: u8) -> String {
    format!("{} settings call refused 3: field {field}", super::airframe_word(track.airframe))
}

pub fn count_refused_settings(counts: &mut Counts, before: &Track, s: &Settings, field: u8) {
    counts.reach(&format!("{}: settings refused", place(before.airframe, before.mode)));
    counts.reach(&refused_field(before, field));
    numbers::count_settings(counts, before.airframe, s, field);
}

fn settings(seen: &Seen<Settings>) -> Vec<Item> {
    let (before, after) = (seen.before, seen.after);
    let stands = before.report != 0 && seen.line.moved.report == before.report;
    let late_back = before.clock_s > after.back_timeout_s();
    let more = match before.mode {
        FlightMode::Copter => vec![
            ("settings accepted before any prime", !before.primed),
            ("settings accepted with a standing report", stands),
            ("settings accepted with a handoff running", before.handoff_active()),
        ],
        FlightMode::ToPlane => settings_to_plane(seen),
        FlightMode::Plane => vec![("settings accepted with a handoff running", before.handoff_active())],
        _ => vec![
            ("settings accepted, new timeout below the clock", late_back),
            ("settings accepted with the standing report 16", stands),
        ],
    };
    [vec![("settings accepted", true)], more].concat()
}

fn settings_to_plane(seen: &Seen<Settings>) -> Vec<Item> {
    let begun = seen.before.ramp_start_s.is_some();
    let late = seen.before.clock_s > seen.after.timeout_s();
    let all = [
        ("settings accepted, new timeout below the clock", late),
        ("settings accepted with the ramp begun", begun),
        (
            "settings accepted, share clamped to 0",
            begun && seen.line.moved.output == Some(0.0),
        ),
        (
            "settings accepted, new field 11 below the thrust",
            seen.line.thrust > seen.after.field(11),
        ),
    ];
    let count = if seen.before.is_tailsitter() { 1 } else { all.len() };
    all[..count].to_vec()
}

pub fn count_settings(counts: &mut Counts, seen: &Seen<Settings>) {
    counts.reach_all(&place(seen.before.airframe, seen.before.mode), &settings(seen));
    numbers::count_settings(counts, seen.before.airframe, seen.call, 0);
}

fn cut(seen: &Seen<u8>) -> Vec<Item> {
    let before = seen.before;
    let stands = before.report != 0 && seen.line.moved.report == before.report;
    match before.mode {
        FlightMode::Copter => vec![
            ("cut before any prime", !before.primed),
            ("cut leaves a standing report", stands),
            (
                "cut leaves an abandonment",
                before.abandonment != 0 && before.abandonment != *seen.call,
            ),
        ],
        FlightMode::ToPlane => vec![
            ("cut abandons with the reason", seen.line.moved.report == *seen.call),
            ("cut leaves a thrust above 0", seen.line.thrust > 0.0),
        ],
        FlightMode::Plane => vec![("cut with a handoff running does nothing", before.handoff_active())],
        _ => vec![
            ("cut gives Copter with handoff", seen.line.moved.handoff),
            ("cut leaves the standing report 16", stands),
            ("cut leaves the report 0", before.report == 0 && seen.line.moved.report == 0),
            ("cut leaves the abandonment 16", before.abandonment == 16),
        ],
    }
}

pub fn count_cut(counts: &mut Counts, seen: &Seen<u8>) {
    let mode = place(seen.before.airframe, seen.before.mode);
    counts.reach(&format!("{mode}: cut with {}", seen.call));
    counts.reach_all(&mode, &cut(seen));
}

fn prime(seen: &Seen<f32>) -> Vec<Item> {
    let before = seen.before;
    let mut items = vec![("prime", true)];
    if !transitioning(before.mode) {
        items.push(("prime with a handoff running", before.handoff_active()));
    }
    match before.mode {
        FlightMode::Copter => {
            items.push(("prime, the first", !before.primed));
            items.push(("prime clears a standing report", before.report != 0));
            items.push(("prime clears an abandonment", before.abandonment != 0));
        }
        FlightMode::ToCopter => {
            items.push(("prime clears the standing report 16", before.report != 0));
            items.push(("prime with thrust above 0", before.thrust > 0.0));
            if !before.is_tailsitter() {
                items.push(("prime with pitch above 0", before.pitch_rad > 0.0));
            }
        }
        FlightMode::ToPlane if !before.is_tailsitter() => {
            items.push(("prime with the ramp begun", before.ramp_start_s.is_some()));
            items.push(("prime with thrust above 0", before.thrust > 0.0));
        }
        _ => {}
    }
    items
}

pub fn count_prime(counts: &mut Counts, seen: &Seen<f32>) {
    let mode = place(seen.before.airframe, seen.before.mode);
    debug_assert_eq!(seen.after.mode, FlightMode::Copter);
    counts.reach_all(&mode, &prime(seen));
    numbers::count_prime(counts, seen.before.airframe, *seen.call);
}
