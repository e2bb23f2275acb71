//! The Rust reference: the joined machine, the card's check, transcript and writer and the list of calls, over the unchanged text of stable-flight.

pub mod call_list;
pub mod calls;
pub mod card;
pub mod compare;
pub mod coverage;
pub mod entry;
pub mod flights;
pub mod joined;
pub mod machine;
pub mod marks;
pub mod named;
pub mod random;
pub mod settings;
pub mod track;
pub mod write;
pub mod write_list;
