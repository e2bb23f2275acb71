//! What a list of cards reaches of document 01 and of document 02, 2.2: every item is named up front, so that a missing one shows.

mod bounds;
mod cards;
mod numbers;
mod rows;
mod run_up;

use crate::card::{self, MOST_RECORDS};
use crate::joined::{Call, Joined, Line};
use crate::machine::{AIRFRAMES, Airframe, MODES, Moved, REASONS, Refusal, Step};
use crate::settings::defaults;
use crate::track::Track;
use stable_flight::FlightMode;
use std::collections::HashMap;
use std::fmt::Write;

/// An item, and whether a call reaches it.
type Item = (&'static str, bool);

/// The counts of the items, in the order in which they are named.
#[derive(Default)]
struct Counts {
    names: Vec<String>,
    counts: HashMap<String, u64>,
}

impl Counts {
    fn name(&mut self, name: String) {
        if self.counts.insert(name.clone(), 0).is_none() {
            self.names.push(name);
        }
    }

    /// Counts an item. One that nobody named is let go.
    fn reach(&mut self, name: &str) {
        if let Some(count) = self.counts.get_mut(name) {
            *count += 1;
        }
    }

    fn name_all(&mut self, prefix: &str, items: &[Item]) {
        for (item, _) in items {
            self.name(format!("{prefix}: {item}"));
        }
    }

    fn reach_all(&mut self, prefix: &str, items: &[Item]) {
        for (item, _) in items.iter().filter(|(_, reached)| *reached) {
            self.reach(&format!("{prefix}: {item}"));
        }
    }
}

/// An accepted call with the machine before and after it.
struct Seen<'a, T> {
    before: &'a Track,
    after: &'a Track,
    call: &'a T,
    line: &'a Line,
}

pub fn airframe_word(airframe: Airframe) -> &'static str {
    match airframe {
        Airframe::Tailsitter => "tailsitter",
        Airframe::Quadplane => "quadplane",
    }
}

/// "tailsitter in ToPlane".
fn place(airframe: Airframe, mode: FlightMode) -> String {
    format!("{} in {mode:?}", airframe_word(airframe))
}

/// What a list of cards reaches: one line for each item, then how many of them are reached.
pub fn report(list: &[u8]) -> String {
    let mut counts = required();
    let cards = card::cards(list);
    let calls = cards.iter().map(|card| run(&mut counts, card)).sum();
    written(&counts, cards.len(), calls)
}

fn written(counts: &Counts, cards: usize, calls: usize) -> String {
    let mut text = String::new();
    let mut reached = 0;
    for name in &counts.names {
        let count = counts.counts[name];
        reached += u64::from(count > 0);
        writeln!(text, "{count:8}  {name}").unwrap();
    }
    writeln!(text, "Refusal 7 cannot come from a card: the runner lends {MOST_RECORDS} marks.").unwrap();
    let named = counts.names.len();
    writeln!(text, "{reached} of {named} items reached, {cards} cards, {calls} calls").unwrap();
    text
}

/// Runs a card and counts what it reaches. Answers how many calls it holds.
fn run(counts: &mut Counts, bytes: &[u8]) -> usize {
    cards::count(counts, bytes);
    let Ok(checked) = card::check(bytes, &mut [0; MOST_RECORDS]) else {
        return 0;
    };
    let joined = card::machine(bytes, checked.airframe);
    numbers::count_settings(counts, checked.airframe, joined.settings(), 0);
    let mut track = Track::new(joined);
    for (_, call) in card::calls(bytes, &checked.chain) {
        let before = track.clone();
        let answer = track.call(&call);
        count_call(counts, &before, &track, &call, answer);
    }
    checked.chain.len()
}

fn count_call(counts: &mut Counts, before: &Track, after: &Track, call: &Call, answer: Result<Line, Refusal>) {
    match (call, &answer) {
        (Call::Step(step), Ok(line)) => {
            let call = step;
            let seen = Seen { before, after, call, line };
            rows::count_step(counts, &seen);
            bounds::count_step(counts, &seen);
            run_up::count_step(counts, &seen);
            numbers::count_step(counts, before, step, 0);
        }
        (Call::Step(step), Err(Refusal::Number(refusal))) => {
            rows::count_refused_step(counts, before, step, *refusal);
            numbers::count_step(counts, before, step, *refusal);
        }
        (Call::Settings(s), Err(Refusal::Setting(field))) => rows::count_refused_settings(counts, before, s, *field),
        (Call::Settings(s), Ok(line)) => {
            let call = s;
            rows::count_settings(counts, &Seen { before, after, call, line });
        }
        (Call::Cut(call), Ok(line)) => rows::count_cut(counts, &Seen { before, after, call, line }),
        (Call::Prime(call), Ok(line)) => rows::count_prime(counts, &Seen { before, after, call, line }),
        _ => panic!("an answer that document 01 does not have"),
    }
    if let Ok(line) = answer {
        counts.reach(&format!("{}: report {}", airframe_word(before.airframe), line.moved.report));
    }
}

/// Every item, with count 0.
fn required() -> Counts {
    let mut counts = Counts::default();
    cards::name(&mut counts);
    for airframe in AIRFRAMES {
        let word = airframe_word(airframe);
        let reasons = REASONS.map(|(number, _)| number);
        for report in [0].into_iter().chain(reasons) {
            counts.name(format!("{word}: report {report}"));
        }
        let mut track = Track::new(Joined::new(airframe, &defaults(airframe)).expect("the defaults"));
        for mode in MODES {
            track.mode = mode;
            rows::name(&mut counts, &track);
            bounds::name(&mut counts, &track);
        }
        bounds::name_thrust(&mut counts, &track);
        run_up::name(&mut counts, &track);
        rows::name_fields(&mut counts, &track);
        numbers::name(&mut counts, airframe);
    }
    counts
}

/// A step, an answer, to name items with.
fn no_step() -> Step {
    Step::new(0, [0.0; 15])
}

fn no_line(track: &Track) -> Line {
    let moved = Moved {
        mode: track.mode,
        output: None,
        handoff: false,
        report: 0,
    };
    Line {
        moved,
        thrust: 0.0,
        pitch_rad: 0.0,
    }
}
