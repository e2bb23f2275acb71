//! Cards of document 02, 2.2, in which the pusher runs up. Their settings are the example's, .25 in each second up to 1, but for the fields
//! that are named. The lines are worked out from the paper.

use super::{Named, banked, copter, fast, plane, quadplane};
use crate::random::SMALLEST;

/// 1 + 2^-23.
const ABOVE_1: f32 = f32::from_bits(0x3F80_0001);
/// 2^-25 (1 - 2^-23).
const BELOW_2_TO_MINUS_25: f32 = f32::from_bits(0x32FF_FFFE);

pub fn cards() -> Vec<Named> {
    vec![
        from_zero(),
        any_demand(),
        other_field_11(),
        calls_between(),
        standing_handoff(),
        completion(),
        back_to_copter(),
        infinite_rise(),
        no_rise(),
        zeros(),
        rounded_product(),
        rounded_sum(),
    ]
}

fn from_zero() -> Named {
    Named {
        name: "request 2.2, from 0 to field 11, whatever thrust was kept",
        card: quadplane(&[])
            .fly(&[copter(1.0, 0.75), plane(1.0, 1.0), plane(1.0, 1.0), plane(2.0, 0.0)])
            .fly(&[plane(2.0, 0.0), plane(1.0, 0.0)])
            .card(),
        lines: vec![
            (2, "2 C 3F800000 0 0 3F400000 00000000"),
            (3, "3 F 3F800000 0 0 00000000 00000000"),
            (4, "4 F 3F800000 0 0 3E800000 00000000"),
            (5, "5 F 3F800000 0 0 3F400000 00000000"),
            (6, "6 F 3F800000 0 0 3F800000 00000000"),
            (7, "7 F 3F800000 0 0 3F800000 00000000"),
        ],
    }
}

fn any_demand() -> Named {
    let demands = [f32::NAN, f32::INFINITY, f32::NEG_INFINITY, f32::NAN];
    Named {
        name: "request 2.2, the demand is not looked at",
        card: quadplane(&[]).fly(&demands.map(|demand| plane(1.0, demand))).card(),
        lines: vec![
            (2, "2 F 3F800000 0 0 00000000 00000000"),
            (3, "3 F 3F800000 0 0 3E800000 00000000"),
            (4, "4 F 3F800000 0 0 3F000000 00000000"),
            (5, "5 F 3F800000 0 0 3F400000 00000000"),
        ],
    }
}

fn other_field_11() -> Named {
    Named {
        name: "request 2.2, down at once to a lowered field 11, up by field 12 to a raised one",
        card: quadplane(&[])
            .fly(&[plane(1.0, 0.5), plane(2.0, 0.5)])
            .set(&[(11, 0.125)])
            .fly(&[plane(1.0, 0.5)])
            .set(&[])
            .fly(&[plane(1.0, 0.5)])
            .card(),
        lines: vec![
            (4, "4 F 3F800000 0 0 3F000000 00000000"),
            (5, "5 F 3F800000 0 0 3E000000 00000000"),
            (6, "6 F 3F800000 0 0 3E000000 00000000"),
            (7, "7 F 3F800000 0 0 3EC00000 00000000"),
        ],
    }
}

fn calls_between() -> Named {
    Named {
        name: "request 2.2, refused calls and a cut leave the kept thrust",
        card: quadplane(&[])
            .fly(&[plane(1.0, 0.5), plane(1.0, 0.5), plane(0.0, 0.5)])
            .set(&[(12, 0.0)])
            .fly(&[plane(1.0, 0.5)])
            .cut(12)
            .fly(&[copter(1.0, 0.125)])
            .card(),
        lines: vec![
            (3, "3 F 3F800000 0 0 3E800000 00000000"),
            (4, "4 refused 1"),
            (5, "5 refused 3 12"),
            (6, "6 F 3F800000 0 0 3F000000 00000000"),
            (7, "7 C 3F800000 0 12 3F000000 00000000"),
            (8, "8 C 3F800000 0 0 3E000000 00000000"),
        ],
    }
}

/// The handoff goes from .25 to .75: .375 after 1 s, .5 after 2 s, .625 after 3 s.
fn standing_handoff() -> Named {
    Named {
        name: "request 2.2, a running handoff stands in ToPlane and goes on after it",
        card: quadplane(&[(14, 4.0)])
            .fly(&[plane(1.0, 0.5), fast(plane(1.0, 0.5)), plane(4.0, 0.25), copter(1.0, 0.25)])
            .fly(&[copter(1.0, 0.75), plane(1.0, 1.0), plane(1.0, 1.0), copter(1.0, 0.75)])
            .fly(&[plane(1.0, 1.0), banked(1.0, plane(1.0, 0.75))])
            .card(),
        lines: vec![
            (5, "5 B 00000000 0 0 3E800000 00000000"),
            (6, "6 C 3F800000 1 0 3EC00000 00000000"),
            (7, "7 F 3F800000 0 0 00000000 00000000"),
            (8, "8 F 3F800000 0 0 3E800000 00000000"),
            (9, "9 C 3F800000 0 0 3F000000 00000000"),
            (10, "10 F 3F800000 0 0 00000000 00000000"),
            (11, "11 C 3F800000 0 15 3F200000 00000000"),
        ],
    }
}

/// The handoff goes from .75 to .25: .5 after 2 s.
fn completion() -> Named {
    Named {
        name: "request 2.2, completion starts a handoff from the thrust that was run up",
        card: quadplane(&[(14, 4.0)])
            .fly(&[plane(1.0, 0.5), fast(plane(1.0, 0.5)), plane(2.0, 0.5)])
            .fly(&[plane(2.0, 0.25), plane(2.0, 0.25)])
            .card(),
        lines: vec![
            (4, "4 F 3F000000 0 0 3F400000 00000000"),
            (5, "5 P 00000000 1 0 3F000000 00000000"),
            (6, "6 P 00000000 0 0 3E800000 00000000"),
        ],
    }
}

/// By a roll cut, past the timeout, and by a request.
fn back_to_copter() -> Named {
    Named {
        name: "request 2.2, back to Copter: the demand, and no handoff starts",
        card: quadplane(&[(14, 4.0)])
            .fly(&[plane(1.0, 0.5), plane(2.0, 0.5), banked(1.0, plane(1.0, 0.125)), copter(1.0, 0.5)])
            .fly(&[plane(1.0, 0.5), plane(15.0, 0.5), plane(1.0, 0.375), copter(1.0, 0.5)])
            .fly(&[plane(1.0, 0.5), plane(1.0, 0.5), copter(1.0, 0.625)])
            .card(),
        lines: vec![
            (3, "3 F 3F800000 0 0 3F000000 00000000"),
            (4, "4 C 3F800000 0 15 3E000000 00000000"),
            (7, "7 F 3F800000 0 0 3F800000 00000000"),
            (8, "8 C 3F800000 0 14 3EC00000 00000000"),
            (11, "11 F 3F800000 0 0 3E800000 00000000"),
            (12, "12 C 3F800000 0 0 3F200000 00000000"),
        ],
    }
}

fn infinite_rise() -> Named {
    Named {
        name: "request 2.2, field 12 times dt is infinite",
        card: quadplane(&[(11, 0.75), (12, 3e38)])
            .fly(&[plane(1.0, 0.5), plane(2.0, 0.5), plane(2.0, 0.5)])
            .card(),
        lines: vec![
            (2, "2 F 3F800000 0 0 00000000 00000000"),
            (3, "3 F 3F800000 0 0 3F400000 00000000"),
            (4, "4 F 3F800000 0 0 3F400000 00000000"),
        ],
    }
}

/// 2^-149 times .5 rounds to 0, the even neighbour, and times .75 to 2^-149.
fn no_rise() -> Named {
    Named {
        name: "request 2.2, field 12 times dt rounds to 0",
        card: quadplane(&[(12, SMALLEST)])
            .fly(&[plane(1.0, 0.5), plane(0.5, 0.5), plane(0.75, 0.5)])
            .set(&[])
            .fly(&[plane(1.0, 0.5)])
            .set(&[(12, SMALLEST)])
            .fly(&[plane(0.5, 0.5)])
            .card(),
        lines: vec![
            (3, "3 F 3F800000 0 0 00000000 00000000"),
            (4, "4 F 3F800000 0 0 00000001 00000000"),
            (6, "6 F 3F800000 0 0 3E800000 00000000"),
            (8, "8 F 3F800000 0 0 3E800000 00000000"),
        ],
    }
}

/// On line 5 the sum is -0 + 0, so +0. It and field 11 are zeros: field 11 is named first.
fn zeros() -> Named {
    Named {
        name: "request 2.2, field 11 of -0 and of 0",
        card: quadplane(&[(11, -0.0)])
            .fly(&[plane(1.0, 0.5), plane(1.0, 0.5)])
            .set(&[(11, -0.0), (12, SMALLEST)])
            .fly(&[plane(0.5, 0.5)])
            .set(&[(11, 0.0)])
            .fly(&[plane(1.0, 0.5)])
            .card(),
        lines: vec![
            (2, "2 F 3F800000 0 0 00000000 00000000"),
            (3, "3 F 3F800000 0 0 80000000 00000000"),
            (5, "5 F 3F800000 0 0 80000000 00000000"),
            (6, "6 F 3F800000 0 0 80000000 00000000"),
            (7, "7 F 3F800000 0 0 00000000 00000000"),
        ],
    }
}

/// On line 4 the product is 2^-25 (1 - 2^-46), rounded 2^-25: half a unit of 3F000001, whose even neighbour is above. Not rounded it is
/// less than half a unit.
fn rounded_product() -> Named {
    Named {
        name: "request 2.2, the product is rounded before the sum",
        card: quadplane(&[(12, ABOVE_1)])
            .fly(&[plane(1.0, 0.5), plane(0.5, 0.5), plane(BELOW_2_TO_MINUS_25, 0.5)])
            .card(),
        lines: vec![(3, "3 F 3F800000 0 0 3F000001 00000000"), (4, "4 F 3F800000 0 0 3F000002 00000000")],
    }
}

/// The sums are .625 and 1.25 units of 2^-24, then .75 and 1.25 units. Field 12 times .75 s is .75 and 1.5 units, rounded 3F400002.
fn rounded_sum() -> Named {
    Named {
        name: "request 2.2, the sum is rounded in each step",
        card: quadplane(&[(12, ABOVE_1)])
            .fly(&[plane(1.0, 0.5), plane(0.5, 0.5), plane(0.125, 0.5), plane(0.125, 0.5)])
            .card(),
        lines: vec![
            (3, "3 F 3F800000 0 0 3F000001 00000000"),
            (4, "4 F 3F800000 0 0 3F200001 00000000"),
            (5, "5 F 3F800000 0 0 3F400001 00000000"),
        ],
    }
}
