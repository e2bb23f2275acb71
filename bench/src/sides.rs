//! The sides that are timed. Each takes the same flat numbers, 15 for each step and an option, and answers the sum, modulo 2^32, of all
//! numbers of its answers, so that every one of them is worked out.

use crate::cards::List;
use crate::plain;
use reference::card::{bits, header_kind, mode_letter};
use reference::joined::{self, Call, Line};
use reference::machine::{Airframe, Refusal, Step};
use reference::settings::Settings;

/// A list of steps as it is handed to each side.
pub struct Flat {
    airframe: Airframe,
    settings: Settings,
    numbers: Vec<f32>,
    options: Vec<u8>,
}

pub type Side = fn(&Flat) -> u32;

pub const RATTLE: Side = rattle;
pub const PLAIN: Side = plain_rust;
pub const REFERENCE: Side = reference_rust;

impl Flat {
    pub fn new(list: &List) -> Flat {
        Flat {
            airframe: list.airframe,
            settings: list.settings,
            numbers: list.steps.iter().flat_map(|step| step.numbers).collect(),
            options: list.steps.iter().map(Step::option).collect(),
        }
    }

    fn steps(&self) -> impl Iterator<Item = Step> {
        let numbers = self.numbers.as_chunks().0;
        self.options
            .iter()
            .zip(numbers)
            .map(|(option, numbers)| Step::new(*option, *numbers))
    }

    /// The sum of what `answer` gives for the steps.
    #[inline(always)]
    fn sum(&self, answer: impl FnMut(Step) -> u32) -> u32 {
        self.steps().map(answer).fold(0, u32::wrapping_add)
    }
}

unsafe extern "C" {
    /// `bench_steps` of crates/bench: a slice is a pointer and a length.
    fn bench_steps(
        kind: u8,
        settings: *const Settings,
        numbers: *const f32,
        numbers_length: usize,
        options: *const u8,
        options_length: usize,
    ) -> u32;
}

#[inline(never)]
fn rattle(flat: &Flat) -> u32 {
    let kind = header_kind(flat.airframe);
    let (numbers, options) = (&flat.numbers, &flat.options);
    // The pointers and lengths are those of slices that live through the call.
    unsafe {
        bench_steps(
            kind,
            &flat.settings,
            numbers.as_ptr(),
            numbers.len(),
            options.as_ptr(),
            options.len(),
        )
    }
}

fn sum_of(line: &Line) -> u32 {
    let moved = &line.moved;
    let numbers = [
        mode_letter(moved.mode) as u32,
        moved.output.map_or(0, bits),
        u32::from(moved.handoff),
        u32::from(moved.report),
        bits(line.thrust),
        bits(line.pitch_rad),
    ];
    numbers.into_iter().fold(0, u32::wrapping_add)
}

fn input_of(step: &Step) -> plain::StepInput {
    plain::StepInput {
        dt: step.dt(),
        requested: step.requested(),
        state: step.state(),
        entry_tilt_rad: step.entry_tilt_rad(),
        bank_rad: step.bank_rad(),
        demand: step.demand(),
    }
}

#[inline(never)]
fn plain_rust(flat: &Flat) -> u32 {
    let mut joined = plain::Joined::new(flat.airframe, &flat.settings);
    flat.sum(|step| match joined.step(&input_of(&step)) {
        Ok(line) => sum_of(&line),
        Err(refusal) => refusal,
    })
}

#[inline(never)]
fn reference_rust(flat: &Flat) -> u32 {
    let mut joined = joined::Joined::new(flat.airframe, &flat.settings).expect("good settings");
    joined.call(&Call::Prime(0.0)).expect("a prime");
    flat.sum(|step| match joined.call(&Call::Step(step)) {
        Ok(line) => sum_of(&line),
        Err(Refusal::Number(refusal)) => u32::from(refusal),
        Err(Refusal::Setting(_)) => unreachable!("a step has no settings"),
    })
}
