//! Random cards through a runner and random lists of calls through a writer, each held against the reference's answer.

use crate::{card, flights, write, write_list};
use std::fs;
use std::io::Write;
use std::process::{Command, ExitCode, Stdio};

/// Where what differs is kept, from the folder that the command is called in.
const KEPT: &str = "target/differ";

/// What goes through a program: what it is called, how number `index` of a seed is made, the reference's answer, and where two answers differ.
struct Work {
    name: &'static str,
    make: fn(u64, u64) -> Vec<u8>,
    answer: fn(&[u8]) -> Vec<u8>,
    difference: fn(&[u8], &[u8]) -> String,
}

const CARDS: Work = Work {
    name: "card",
    make: flights::card,
    answer: |card| card::transcript(card).into_bytes(),
    difference: first_line,
};

const LISTS: Work = Work {
    name: "list",
    make: write_list::list,
    answer: write::answers,
    difference: first_byte,
};

/// Random cards through a runner.
pub fn cards(count: u64, seed: u64, runner: &[&str]) -> ExitCode {
    all(&CARDS, count, seed, runner)
}

/// Random lists of calls through a program that writes their cards.
pub fn lists(count: u64, seed: u64, program: &[&str]) -> ExitCode {
    all(&LISTS, count, seed, program)
}

/// Runs number 0 to `count` of the seed, shows the first difference of each that differs, keeps those, and ends with the count.
fn all(work: &Work, count: u64, seed: u64, program: &[&str]) -> ExitCode {
    let (name, mut differ) = (work.name, 0);
    for index in 0..count {
        let bytes = (work.make)(seed, index);
        let expected = (work.answer)(&bytes);
        let written = match run(program, &bytes) {
            Ok(written) => written,
            Err(error) => {
                eprintln!("{}: {error}", program[0]);
                return ExitCode::from(2);
            }
        };
        if expected != written {
            differ += 1;
            let difference = (work.difference)(&expected, &written);
            println!(
                "{name} {index} of seed {seed}, {difference}\n  kept in {}",
                keep(work.name, seed, index, &bytes)
            );
        }
    }
    println!("{count} {name}s, {differ} differ");
    ExitCode::from(u8::from(differ > 0))
}

/// What a program writes, and how it ended if that is not well. It may stop reading early: a card that is too long is refused by its length.
fn run(program: &[&str], bytes: &[u8]) -> std::io::Result<Vec<u8>> {
    let mut child = Command::new(program[0])
        .args(&program[1..])
        .stdin(Stdio::piped())
        .stdout(Stdio::piped())
        .spawn()?;
    let mut input = child.stdin.take().expect("a pipe");
    let given = bytes.to_vec();
    let writer = std::thread::spawn(move || drop(input.write_all(&given)));
    let output = child.wait_with_output()?;
    writer.join().expect("a thread that ends");
    let mut written = output.stdout;
    if !output.status.success() {
        written.extend(format!("({})", output.status).into_bytes());
    }
    Ok(written)
}

/// The first line in which two transcripts differ.
fn first_line(expected: &[u8], written: &[u8]) -> String {
    let (expected, written) = (String::from_utf8_lossy(expected), String::from_utf8_lossy(written));
    let mut lines = (expected.split('\n').map(Some).chain([None])).zip(written.split('\n').map(Some).chain([None]));
    let number = 1 + lines.position(|(a, b)| a != b).expect("transcripts that differ");
    let line = |text: &str| text.split('\n').nth(number - 1).unwrap_or("(nothing)").to_string();
    format!("line {number}:\n  Rust   {}\n  runner {}", line(&expected), line(&written))
}

/// The first byte in which two answers differ, with the line before it.
fn first_byte(expected: &[u8], written: &[u8]) -> String {
    let same = expected.iter().zip(written).take_while(|(a, b)| a == b).count();
    let line = |text: &[u8]| String::from_utf8_lossy(text.split(|b| *b == b'\n').next().unwrap_or(&[])).into_owned();
    let byte = |text: &[u8]| text.get(same).map_or("nothing".to_string(), |b| format!("{b:02x}"));
    format!(
        "byte {same} of the answer:\n  Rust    {}, {}\n  program {}, {}",
        line(expected),
        byte(expected),
        line(written),
        byte(written)
    )
}

fn keep(name: &str, seed: u64, index: u64, bytes: &[u8]) -> String {
    let path = format!("{KEPT}/{seed}-{index}.{name}");
    fs::create_dir_all(KEPT)
        .and_then(|()| fs::write(&path, bytes))
        .expect("a folder that can be written");
    path
}
