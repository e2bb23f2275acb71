//! Items of single numbers: every class in every place of a step, a prime and the settings, and the ends of each setting's range.

use super::{Counts, airframe_word};
use crate::flights::{ends, past_ends};
use crate::machine::{Airframe, Step};
use crate::random::{CLASSES, Class, class_of};
use crate::settings::{Settings, bad_field, fields};
use crate::track::Track;

fn step_item(airframe: Airframe, number: usize, class: Class, refusal: u8) -> String {
    let answer = if refusal == 0 { "accepted" } else { "refused" };
    format!("{} step number {number} {class:?}: {answer}", airframe_word(airframe))
}

fn setting_item(airframe: Airframe, field: usize, what: &str, accepted: bool) -> String {
    let answer = if accepted { "accepted" } else { "refused" };
    format!("{} setting {field} {what}: {answer}", airframe_word(airframe))
}

fn prime_item(airframe: Airframe, class: Class) -> String {
    format!("{} prime z {class:?}", airframe_word(airframe))
}

pub fn name(counts: &mut Counts, airframe: Airframe) {
    for number in 1..=15 {
        for class in CLASSES {
            name_step(counts, airframe, number, class);
        }
    }
    for class in CLASSES {
        counts.name(prime_item(airframe, class));
    }
    for field in 1..=fields(airframe) {
        name_setting(counts, airframe, field);
    }
}

fn name_step(counts: &mut Counts, airframe: Airframe, number: usize, class: Class) {
    let dt = number == 1;
    let tilt = number == 13 && airframe == Airframe::Tailsitter;
    if !dt || matches!(class, Class::Subnormal | Class::Huge) {
        counts.name(step_item(airframe, number, class, 0));
    }
    if dt || tilt && class != Class::MinusZero {
        counts.name(step_item(airframe, number, class, 1));
    }
}

/// The numbers of a step: all of an accepted one, the refused one of another.
pub fn count_step(counts: &mut Counts, before: &Track, step: &Step, refusal: u8) {
    let places = match refusal {
        0 => 1..=15,
        1 => 1..=1,
        _ => 13..=13,
    };
    for number in places {
        if let Some(class) = class_of(step.numbers[number - 1]) {
            counts.reach(&step_item(before.airframe, number, class, refusal));
        }
    }
}

pub fn count_prime(counts: &mut Counts, airframe: Airframe, z_m: f32) {
    if let Some(class) = class_of(z_m) {
        counts.reach(&prime_item(airframe, class));
    }
}

fn name_setting(counts: &mut Counts, airframe: Airframe, field: usize) {
    let ((least, largest), open) = (ends(airframe, field), past_ends(airframe, field).0 == 0.0);
    let taken = |class: Class| match class {
        Class::MinusZero => !open,
        Class::Subnormal => true,
        Class::Huge => largest == f32::MAX,
        _ => false,
    };
    for class in CLASSES {
        let word = format!("{class:?}");
        if taken(class) {
            counts.name(setting_item(airframe, field, &word, true));
        }
        if class != Class::MinusZero || !taken(class) {
            counts.name(setting_item(airframe, field, &word, false));
        }
    }
    debug_assert!(least < largest);
    counts.name(setting_item(airframe, field, "least", true));
    counts.name(setting_item(airframe, field, "largest", true));
    counts.name(setting_item(airframe, field, "below its least", false));
    counts.name(setting_item(airframe, field, "one float past its largest", false));
}

/// The settings of a header or of a call, with the field that is refused or 0.
pub fn count_settings(counts: &mut Counts, airframe: Airframe, s: &Settings, refused: u8) {
    debug_assert_eq!(bad_field(airframe, s), refused);
    for field in 1..=fields(airframe) {
        if refused == 0 || refused as usize == field {
            count_setting(counts, airframe, field, s[field - 1], refused == 0);
        }
    }
}

fn count_setting(counts: &mut Counts, airframe: Airframe, field: usize, x: f32, accepted: bool) {
    let ((least, largest), (below, above)) = (ends(airframe, field), past_ends(airframe, field));
    if let Some(class) = class_of(x) {
        counts.reach(&setting_item(airframe, field, &format!("{class:?}"), accepted));
    }
    let marks = [
        ("least", least),
        ("largest", largest),
        ("below its least", below),
        ("one float past its largest", above),
    ];
    for (what, mark) in marks {
        if x == mark {
            counts.reach(&setting_item(airframe, field, what, accepted));
        }
    }
}
