//! The commands of the reference; the scripts beside the workspace call them.

use reference::{call_list, calls, card, compare, coverage, entry, flights, marks, named, write, write_list};
use std::io::{self, Read, Write};
use std::process::ExitCode;

const USAGE: &str = "usage: reference COMMAND
  transcript          the transcript of the card on standard input
  transcripts         those of a list of cards on standard input
  named-cards         the list of the cards with a name
  make-cards SEED N   a list of N cards of a seed
  coverage            what a list of cards on standard input reaches
  calls               the answers to a list of calls on standard input
  make-calls SEED     a list of calls
  count-calls         how many calls of each kind a list on standard input has
  entry               the answers to a list of calls of the joined machine on standard input
  make-entry SEED N   such a list, of N cards of a seed and of those with a name
  marks               the answers to a list of checks on standard input
  make-marks SEED     a list of checks
  writes              the answers of the writer to lists of calls on standard input
  make-writes SEED N  N such lists of a seed
  compare-writes N SEED PROGRAM..   N such lists through the program, each held against the writer's answer
  compare N SEED RUNNER..   N cards through the runner, each held against the transcript
";

fn main() -> ExitCode {
    let arguments: Vec<String> = std::env::args().skip(1).collect();
    let words: Vec<&str> = arguments.iter().map(String::as_str).collect();
    match words[..] {
        ["transcript"] => put(card::transcript(&read()).as_bytes()),
        ["transcripts"] => put(transcripts(&read()).as_bytes()),
        ["named-cards"] => put(&card::list(named::all().into_iter().map(|named| named.card))),
        ["make-cards", seed, count] => put(&card::list(flights::first(number(seed), number(count)))),
        ["coverage"] => put(coverage::report(&read()).as_bytes()),
        ["calls"] => put(calls::answers(&read()).as_bytes()),
        ["make-calls", seed] => put(&call_list::make(number(seed))),
        ["count-calls"] => put(call_list::counts(&read()).as_bytes()),
        ["entry"] => put(entry::answers(&read()).as_bytes()),
        ["make-entry", seed, count] => put(&entry::make(number(seed), number(count))),
        ["marks"] => put(marks::answers(&read()).as_bytes()),
        ["make-marks", seed] => put(&marks::make(number(seed))),
        ["writes"] => put(&write::answers(&read())),
        ["make-writes", seed, count] => put(&write_list::make(number(seed), number(count))),
        ["compare-writes", count, seed, ref program @ ..] if !program.is_empty() => compare::lists(number(count), number(seed), program),
        ["compare", count, seed, ref runner @ ..] if !runner.is_empty() => compare::cards(number(count), number(seed), runner),
        _ => {
            eprint!("{USAGE}");
            ExitCode::from(2)
        }
    }
}

fn read() -> Vec<u8> {
    let mut bytes = Vec::new();
    io::stdin().read_to_end(&mut bytes).expect("standard input that can be read");
    bytes
}

fn put(bytes: &[u8]) -> ExitCode {
    match io::stdout().write_all(bytes) {
        Ok(()) => ExitCode::SUCCESS,
        Err(_) => ExitCode::FAILURE,
    }
}

fn number(word: &str) -> u64 {
    word.parse().unwrap_or_else(|_| {
        eprintln!("'{word}' is not a whole number from 0 to 2^64 - 1");
        std::process::exit(2)
    })
}

/// The transcripts of a list of cards, one after the other.
fn transcripts(list: &[u8]) -> String {
    card::cards(list).iter().map(|bytes| card::transcript(bytes)).collect()
}
