//! Takes the Rust of stable-flight into this crate. What is kept or cut of each file, and the lines put in front of it, are listed here
//! and nowhere else; the text itself stands as it is.
//! STABLE_FLIGHT_SRC names the folder with `crates/stable-flight/src`, an absolute path; by default ../shared/docs/src
//! beside the repository.

use std::path::{Path, PathBuf};
use std::{env, fs};

/// A file of the Rust and what becomes of it. `added` stands in front: lines of our own that bind what is left to the stand-ins.
struct Taken {
    file: &'static str,
    added: &'static str,
    kept: Kept,
}

enum Kept {
    /// The whole file without these items, each named by the start of its first line.
    AllBut(&'static [&'static str]),
    /// These items alone, each named by the start of its first line, without the methods that follow it in the list.
    Only(&'static [(&'static str, &'static [&'static str])]),
}

const TAKEN: &[Taken] = &[
    Taken {
        file: "guidance/vtol.rs",
        added: "pub mod open;",
        kept: Kept::AllBut(&[
            "mod off_nose;",
            "mod params;",
            "mod tailsitter;",
            "pub use off_nose::{",
            "pub use quadplane::{",
            "pub use tailsitter::{",
        ]),
    },
    Taken {
        file: "guidance/vtol/lift.rs",
        added: "pub(super) mod open;",
        kept: Kept::AllBut(&["mod params;"]),
    },
    Taken {
        file: "guidance/vtol/forward.rs",
        added: "",
        kept: Kept::AllBut(&["mod params;"]),
    },
    Taken {
        file: "guidance/vtol/quadplane/deceleration.rs",
        added: "",
        kept: Kept::AllBut(&[]),
    },
    Taken {
        file: "guidance/vtol/quadplane.rs",
        added: "use crate::math::{DEG, saturate_symmetric};\nuse crate::{Setpoint, VehicleState};\npub(super) mod open;",
        kept: Kept::Only(&[
            ("mod deceleration;", &[]),
            ("const RAMP_PITCH_MARGIN_RAD", &[]),
            ("const LEVEL_BELOW_MPS", &[]),
            ("fn forward_pitch_limit_rad(", &[]),
            ("fn forward_pitch_rad(", &[]),
        ]),
    },
    Taken {
        file: "math.rs",
        added: "use core::f32::consts::PI;\nuse nalgebra::UnitQuaternion;",
        kept: Kept::Only(&[
            ("pub(crate) fn assert_dt(", &[]),
            ("pub(crate) fn saturate_symmetric(", &[]),
            ("pub(crate) fn clamp_symmetric(", &[]),
            ("pub(crate) fn limit_or_zero(", &[]),
            ("pub(crate) fn nose_up_cosine(", &[]),
            ("pub(crate) const DEG", &[]),
            ("pub(crate) fn saturate_throttle(", &[]),
            ("pub(crate) fn guard_sink(", &[]),
        ]),
    },
    Taken {
        file: "controllers/mod.rs",
        added: "",
        kept: Kept::Only(&[
            ("use core::fmt;", &[]),
            ("pub struct InvalidConfig {", &[]),
            ("impl InvalidConfig {", &["    pub(crate) fn in_section("]),
            ("impl fmt::Display for InvalidConfig {", &[]),
            ("impl core::error::Error for InvalidConfig", &[]),
            ("pub(crate) fn check_limit(", &[]),
            ("pub(crate) fn check_positive(", &[]),
            ("pub(crate) fn check(", &[]),
        ]),
    },
    Taken {
        file: "lib.rs",
        added: "pub mod controllers;\npub mod guidance {\n    pub mod vtol;\n}\nmod math;\npub mod open;",
        kept: Kept::Only(&[
            ("use nalgebra::UnitQuaternion;", &[]),
            ("pub type Vec2", &[]),
            ("pub type Vec3", &[]),
            ("pub enum FlightRegime {", &[]),
            ("pub enum FlightMode {", &[]),
            ("pub enum ModeRefusal {", &[]),
            ("pub struct FlightModeReport {", &[]),
            ("pub enum ControlInput {", &[]),
            ("pub struct AttitudeCommand {", &[]),
            ("pub struct RateCommand {", &[]),
            ("pub struct WaypointCommand {", &[]),
            ("pub struct AbsoluteAttitudeCommand {", &[]),
            ("pub struct AbsoluteRateCommand {", &[]),
            ("pub struct LandCommand {", &[]),
            ("pub struct VehicleState {", &[]),
            ("impl VehicleState {", &["    pub fn rotate_body("]),
            ("pub enum Setpoint {", &[]),
            ("pub struct BodyRateSetpoint {", &[]),
            ("pub struct PlaneSetpoint {", &[]),
            ("pub struct BlendSetpoint {", &[]),
            ("pub struct AttitudeSetpoint {", &[]),
            ("pub struct RateSetpoint {", &[]),
            ("pub trait Configurable {", &[]),
        ]),
    },
];

/// Modules of our own that hand private items out to the reference: `open.rs` of each.
const OPENED: &[(&str, &str)] = &[
    ("open/lib.rs", "open.rs"),
    ("open/vtol.rs", "guidance/vtol/open.rs"),
    ("open/lift.rs", "guidance/vtol/lift/open.rs"),
    ("open/quadplane.rs", "guidance/vtol/quadplane/open.rs"),
];

fn main() {
    let here = PathBuf::from(env::var("CARGO_MANIFEST_DIR").unwrap());
    let out = PathBuf::from(env::var("OUT_DIR").unwrap());
    println!("cargo::rerun-if-env-changed=STABLE_FLIGHT_SRC");
    println!("cargo::rerun-if-changed=build.rs");
    let root = match env::var_os("STABLE_FLIGHT_SRC") {
        Some(named) => PathBuf::from(named),
        None => here.join("../../../shared/docs/src"),
    };
    let from = root.join("crates/stable-flight/src");
    for taken in TAKEN {
        let text = read(&from.join(taken.file));
        write(&out.join(taken.file), &kept(taken, &text));
    }
    for (ours, to) in OPENED {
        write(&out.join(to), &read(&here.join(ours)));
    }
}

fn read(path: &Path) -> String {
    println!("cargo::rerun-if-changed={}", path.display());
    fs::read_to_string(path).unwrap_or_else(|error| {
        println!("cargo::error={}: {error}", path.display());
        println!("cargo::error=STABLE_FLIGHT_SRC has to name, by an absolute path, the folder of the Rust's sources, with crates/stable-flight/src in it");
        std::process::exit(1)
    })
}

fn write(path: &Path, text: &str) {
    fs::create_dir_all(path.parent().unwrap()).unwrap();
    fs::write(path, text).unwrap();
}

/// What is kept of a file. Our lines stand after its head of `//!` lines, which has to stay first.
fn kept(taken: &Taken, text: &str) -> String {
    let lines: Vec<&str> = text.lines().collect();
    let (head, kept): (Vec<&str>, Vec<&str>) = match taken.kept {
        Kept::AllBut(cut) => {
            let left = without(&lines, cut);
            left.into_iter().partition(|line| line.starts_with("//!"))
        }
        Kept::Only(items) => (
            Vec::new(),
            items
                .iter()
                .flat_map(|(start, cut)| without(&lines[item(&lines, start)], cut))
                .collect(),
        ),
    };
    let mut all = head;
    all.push(taken.added);
    all.extend(kept);
    all.join("\n") + "\n"
}

/// The lines without these items.
fn without<'a>(lines: &[&'a str], cut: &[&str]) -> Vec<&'a str> {
    let mut left = lines.to_vec();
    for start in cut {
        let range = item(&left, start);
        left.drain(range);
    }
    left
}

/// The one item whose first line starts so, with its comments and attributes: to the line that closes it at its own indentation.
fn item(lines: &[&str], start: &str) -> std::ops::Range<usize> {
    let found: Vec<usize> = (0..lines.len()).filter(|&i| lines[i].starts_with(start)).collect();
    let &[first] = &found[..] else {
        panic!("{} items start with '{start}'", found.len());
    };
    let indent = &start[..start.len() - start.trim_start().len()];
    let closes = |line: &str| {
        line.strip_prefix(indent)
            .is_some_and(|rest| rest.starts_with('}') || !rest.starts_with(' ') && rest.ends_with([';', '}']))
    };
    let last = (first..lines.len()).find(|&i| closes(lines[i])).expect("an item that ends");
    let above = lines[..first].iter().rev();
    let comments = above
        .take_while(|line| line.trim_start().starts_with("///") || line.trim_start().starts_with("#["))
        .count();
    first - comments..last + 1
}
