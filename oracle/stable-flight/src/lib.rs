// The Rust of stable-flight, as build.rs takes it.
#![allow(dead_code)]
include!(concat!(env!("OUT_DIR"), "/lib.rs"));
