//! A list of calls that tells a wrong program from a right one: every helper and both machines at their edges.

mod flight;
mod flights;
mod numbers;
mod pitch;
mod quadplane;
mod ranges;
mod tailsitter;
mod thrust;

use crate::card::{RECORD_BYTES, Record};
use crate::machine::Airframe;
use crate::random::{CLASSES, Class, Random, SMALLEST};
use std::collections::BTreeMap;
use std::fmt::Write;

/// Numbers inside, at the ends of and outside 0 to 1; the end 1 is left to `around`.
const UNIT_EDGES: [f32; 7] = [0.0, -0.0, SMALLEST, -SMALLEST, 0.5, -1.0, 2.0];

const BAD_DT: [f32; 6] = [0.0, -0.0, f32::NAN, f32::INFINITY, f32::NEG_INFINITY, -SMALLEST];

/// Records in a row, and the random numbers that they are made from.
struct List {
    bytes: Vec<u8>,
    random: Random,
}

/// The list of a seed. Calls on different kept things are mixed; those on the same thing stay in their order.
pub fn make(seed: u64) -> Vec<u8> {
    let parts: [fn(&mut List); 8] = [
        numbers::add,
        ranges::add,
        thrust::add_handoff,
        thrust::add_deceleration,
        pitch::add_split,
        pitch::add_hold,
        |list| flights::add(list, Airframe::Tailsitter),
        |list| flights::add(list, Airframe::Quadplane),
    ];
    let mut random = Random::new(seed);
    let lists: Vec<Vec<u8>> = parts
        .iter()
        .map(|part| {
            let mut list = List::new(random.draw());
            part(&mut list);
            list.bytes
        })
        .collect();
    mixed(&mut random, &lists)
}

/// The lists in one, each in its order.
fn mixed(random: &mut Random, lists: &[Vec<u8>]) -> Vec<u8> {
    let mut whole = Vec::new();
    let mut rest: Vec<&[u8]> = lists.iter().map(|list| &list[..]).collect();
    loop {
        let left: usize = rest.iter().map(|list| list.len()).sum();
        if left == 0 {
            return whole;
        }
        let mut at = random.below(left);
        let chosen = rest.iter().position(|list| {
            let here = at < list.len();
            at = at.saturating_sub(list.len());
            here
        });
        let list = &mut rest[chosen.expect("a list that is not empty")];
        let (record, after) = list.split_at(RECORD_BYTES);
        whole.extend(record);
        *list = after;
    }
}

/// The number of records of each kind, one line a kind.
pub fn counts(list: &[u8]) -> String {
    let mut counts: BTreeMap<u8, usize> = BTreeMap::new();
    for bytes in list.chunks_exact(RECORD_BYTES) {
        *counts.entry(Record(bytes).kind()).or_default() += 1;
    }
    let mut text = String::new();
    for (kind, count) in counts {
        writeln!(text, "{kind} {count}").unwrap();
    }
    text
}

/// Each of `count` places with each class, `turns` times.
fn places(count: usize, turns: usize) -> Vec<(usize, Class, usize)> {
    let mut all = Vec::new();
    for place in 0..count {
        for turn in 0..turns {
            all.extend(CLASSES.map(|class| (place, class, turn)));
        }
    }
    all
}

/// A number and its two neighbours.
fn around(x: f32) -> [f32; 3] {
    [x.next_down(), x, x.next_up()]
}

impl List {
    fn new(seed: u64) -> List {
        List {
            bytes: Vec::new(),
            random: Random::new(seed),
        }
    }

    /// Adds a record. The numbers after the named ones are to be ignored: they are ordinary.
    fn add(&mut self, kind: u8, option: u8, numbers: &[f32]) {
        self.bytes.extend([kind, option, 0, 0]);
        for i in 0..19 {
            let unused = self.random.between(-9.0, 9.0);
            self.bytes.extend(numbers.get(i).unwrap_or(&unused).to_le_bytes());
        }
    }

    /// Each number at each class twice, the others ordinary; in the second turn another one may be at an edge.
    fn sweep(&mut self, kind: u8, option: u8, ordinary: impl Fn(&mut Random) -> Vec<f32>) {
        let count = ordinary(&mut self.random).len();
        for (place, class, turn) in places(count, 2) {
            let mut numbers = ordinary(&mut self.random);
            if turn == 1 {
                let other = self.random.below(count);
                numbers[other] = self.random.edge();
            }
            numbers[place] = self.random.of_class(class);
            self.add(kind, option, &numbers);
        }
    }

    /// Twelve records with a class in every place: each number has each class twice.
    fn classes_everywhere(&mut self, kind: u8, option: u8, count: usize) {
        for turn in 0..12 {
            let numbers: Vec<f32> = (0..count).map(|i| self.random.of_class(CLASSES[(i + turn) % 6])).collect();
            self.add(kind, option, &numbers);
        }
    }

    /// `count` records with these numbers.
    fn many(&mut self, count: usize, kind: u8, numbers: impl Fn(&mut Random) -> Vec<f32>) {
        for _ in 0..count {
            let numbers = numbers(&mut self.random);
            self.add(kind, 0, &numbers);
        }
    }
}

/// A number of either sign from 2^low to below 2^(high + 1), with all its digits.
fn spread(random: &mut Random, low: i32, high: i32) -> f32 {
    let exponent = low + random.below((high - low + 1) as usize) as i32;
    let bits = random.draw() as u32;
    f32::from_bits((bits & 0x807F_FFFF) | ((exponent + 127) as u32) << 23)
}

/// `count` such numbers.
fn spreads(random: &mut Random, count: usize, low: i32, high: i32) -> Vec<f32> {
    (0..count).map(|_| spread(random, low, high)).collect()
}

/// `count` numbers picked from a few.
fn picks(random: &mut Random, count: usize, from: &[f32]) -> Vec<f32> {
    (0..count).map(|_| random.pick(from)).collect()
}

/// `count` numbers between two others.
fn betweens(random: &mut Random, count: usize, low: f32, high: f32) -> Vec<f32> {
    (0..count).map(|_| random.between(low, high)).collect()
}

/// A quaternion whose length is about 1.
fn unit_quaternion(random: &mut Random) -> Vec<f32> {
    let numbers = betweens(random, 4, -1.0, 1.0);
    let length = nalgebra::root(numbers.iter().map(|x| x * x).sum::<f32>()).max(0.01);
    numbers.iter().map(|x| x / length).collect()
}

#[cfg(test)]
mod tests {
    use super::{RECORD_BYTES, Record, make};
    use crate::calls::answers;
    use crate::random::{CLASSES, Class, class_of};

    /// How many numbers a kind reads, from number 1.
    fn read(kind: u8) -> usize {
        match kind {
            1 | 10 | 11 | 13 | 30 | 31 => 1,
            2 | 8 | 9 | 12 | 22 | 32 | 40 | 41 | 52 | 62 => 2,
            7 => 3,
            3 | 5 | 33 | 42 => 4,
            4 | 6 | 35 => 7,
            43 => 9,
            45 => 10,
            53 | 63 => 13,
            20 | 50 | 51 => 17,
            21 | 60 | 61 => 15,
            _ => 0,
        }
    }

    #[test]
    fn each_record_has_a_line() {
        for seed in 0..20 {
            let list = make(seed);
            let records = list.len() / RECORD_BYTES;
            let helpers = list.chunks_exact(RECORD_BYTES).filter(|bytes| (1..=45).contains(&bytes[0])).count();
            assert!((6000..=7500).contains(&records), "{records}");
            assert!(helpers >= 5000, "{helpers}");
            assert_eq!(answers(&list).lines().count(), records);
            assert_eq!(make(seed), list);
        }
    }

    /// Whether the list has to hold the class there: a prime reads number 2 alone, a bound is never NaN.
    fn wanted(kind: u8, place: usize, class: Class) -> bool {
        match kind {
            52 | 62 => place == 2,
            7 => place == 1 || class != Class::NotANumber,
            _ => place <= read(kind),
        }
    }

    fn all_places() -> Vec<(u8, usize, Class)> {
        let numbers = (1..=64).flat_map(|kind| (1..=read(kind)).map(move |place| (kind, place)));
        let all = numbers.flat_map(|(kind, place)| CLASSES.map(|class| (kind, place, class)));
        all.filter(|(kind, place, class)| wanted(*kind, *place, *class)).collect()
    }

    #[test]
    fn each_number_has_each_class_twice() {
        for seed in 0..20 {
            let list = make(seed);
            for (kind, place, class) in all_places() {
                let records = list.chunks_exact(RECORD_BYTES).map(Record);
                let has = |r: &Record| r.kind() == kind && class_of(r.number(place)) == Some(class);
                assert!(
                    records.filter(has).count() >= 2,
                    "kind {kind}, number {place}, {class:?}, seed {seed}"
                );
            }
        }
    }
}
