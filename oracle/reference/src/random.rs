//! Random numbers from a seed, and the numbers at the edges of binary32.

/// The least number above 0.
pub const SMALLEST: f32 = f32::from_bits(1);

/// SplitMix64: the same seed gives the same numbers on every machine.
#[derive(Debug, Clone)]
pub struct Random {
    state: u64,
}

/// The classes of numbers that a list has to hold in every place.
#[derive(Debug, Clone, Copy, PartialEq, Eq, PartialOrd, Ord)]
pub enum Class {
    NotANumber,
    Infinite,
    MinusInfinite,
    MinusZero,
    Subnormal,
    Huge,
}

pub const CLASSES: [Class; 6] = [
    Class::NotANumber,
    Class::Infinite,
    Class::MinusInfinite,
    Class::MinusZero,
    Class::Subnormal,
    Class::Huge,
];

/// The class of a number; most numbers have none.
pub fn class_of(x: f32) -> Option<Class> {
    if x.is_nan() {
        Some(Class::NotANumber)
    } else if x == f32::INFINITY {
        Some(Class::Infinite)
    } else if x == f32::NEG_INFINITY {
        Some(Class::MinusInfinite)
    } else if x == 0.0 && x.is_sign_negative() {
        Some(Class::MinusZero)
    } else if x.is_subnormal() {
        Some(Class::Subnormal)
    } else if x.abs() >= 1e30 {
        Some(Class::Huge)
    } else {
        None
    }
}

impl Random {
    pub fn new(seed: u64) -> Random {
        Random { state: seed }
    }

    pub fn draw(&mut self) -> u64 {
        self.state = self.state.wrapping_add(0x9E37_79B9_7F4A_7C15);
        let mut z = self.state;
        z = (z ^ (z >> 30)).wrapping_mul(0xBF58_476D_1CE4_E5B9);
        z = (z ^ (z >> 27)).wrapping_mul(0x94D0_49BB_1331_11EB);
        z ^ (z >> 31)
    }

    /// A whole number below `n`.
    pub fn below(&mut self, n: usize) -> usize {
        (self.draw() % n as u64) as usize
    }

    /// True once in `n` times.
    pub fn once_in(&mut self, n: usize) -> bool {
        self.below(n) == 0
    }

    pub fn pick<T: Copy>(&mut self, from: &[T]) -> T {
        from[self.below(from.len())]
    }

    /// A number between two others.
    pub fn between(&mut self, low: f32, high: f32) -> f32 {
        let share = (self.draw() >> 40) as f32 / (1u64 << 24) as f32;
        low + (high - low) * share
    }

    /// Any 32 bits.
    pub fn any(&mut self) -> f32 {
        f32::from_bits(self.draw() as u32)
    }

    /// A number of a class.
    pub fn of_class(&mut self, class: Class) -> f32 {
        match class {
            Class::NotANumber => self.pick(&[f32::NAN, -f32::NAN, f32::from_bits(0x7F80_0001)]),
            Class::Infinite => f32::INFINITY,
            Class::MinusInfinite => f32::NEG_INFINITY,
            Class::MinusZero => -0.0,
            Class::Subnormal => {
                let bits = self.pick(&[1, 2, 0x40_0000, 0x7F_FFFF]);
                f32::from_bits(bits | self.pick(&[0, 0x8000_0000]))
            }
            Class::Huge => self.pick(&[f32::MAX, -f32::MAX, 1e30, -1e30, 1e38, 3e38]),
        }
    }

    /// A number at an edge: of any class, or 0, or near 1.
    pub fn edge(&mut self) -> f32 {
        if self.once_in(3) {
            self.pick(&[
                0.0,
                1.0,
                -1.0,
                f32::MIN_POSITIVE,
                1.0f32.next_up(),
                1.0f32.next_down(),
                1e-20,
                -1e20,
            ])
        } else {
            let class = self.pick(&CLASSES);
            self.of_class(class)
        }
    }

    /// The number itself, or one of its neighbours.
    pub fn near(&mut self, x: f32) -> f32 {
        self.pick(&[x, x.next_up(), x.next_down()])
    }
}
