//! Stand-in for libm: each function hands out the number that the caller supplied (document 01, section 1), if it is asked for the
//! argument that this number belongs to, and else NaN. A function that was supplied nothing panics.

use std::cell::{Cell, RefCell};
use std::thread::LocalKey;

/// A number supplied for an argument.
#[derive(Clone, Copy)]
pub struct For {
    pub argument: f32,
    pub number: f32,
}

thread_local! {
    static COSINES: RefCell<Vec<For>> = RefCell::default();
    static TILT: Cell<Option<For>> = const { Cell::new(None) };
    static TANGENT: Cell<Option<For>> = const { Cell::new(None) };
}

/// Runs `call` with the done cosines at hand, the forward one first.
pub fn with_cosines<T>(forward: For, back: For, call: impl FnOnce() -> T) -> T {
    COSINES.set(vec![back, forward]);
    let answer = call();
    COSINES.take();
    answer
}

/// Runs `call` with the entry tilt at hand.
pub fn with_tilt<T>(tilt: For, call: impl FnOnce() -> T) -> T {
    with_one(&TILT, tilt, call)
}

/// Runs `call` with the tangent for the split at hand.
pub fn with_tangent<T>(tangent: For, call: impl FnOnce() -> T) -> T {
    with_one(&TANGENT, tangent, call)
}

fn with_one<T>(at_hand: &'static LocalKey<Cell<Option<For>>>, supplied: For, call: impl FnOnce() -> T) -> T {
    at_hand.set(Some(supplied));
    let answer = call();
    at_hand.take();
    answer
}

fn hand_out(supplied: Option<For>, asked: f32) -> f32 {
    let supplied = supplied.expect("a number that nobody supplied");
    if supplied.argument.to_bits() == asked.to_bits() {
        supplied.number
    } else {
        f32::NAN
    }
}

/// A done cosine.
pub fn cosf(angle_rad: f32) -> f32 {
    hand_out(COSINES.with_borrow_mut(Vec::pop), angle_rad)
}

/// The entry tilt.
pub fn acosf(cosine: f32) -> f32 {
    hand_out(TILT.get(), cosine)
}

/// The tangent for the split.
pub fn tanf(angle_rad: f32) -> f32 {
    hand_out(TANGENT.get(), angle_rad)
}
