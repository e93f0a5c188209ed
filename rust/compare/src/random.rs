//! A small generator (splitmix64): the same seed gives the same calls on every machine.

use crate::kind::Real;

/// A number that the caller of a test may set: HEWNSPANDREL_CALLS or HEWNSPANDREL_SEED.
pub fn setting(name: &str, otherwise: u64) -> u64 {
    std::env::var(name).map_or(otherwise, |v| v.parse().unwrap_or_else(|_| panic!("{name} is no number: {v}")))
}

pub struct Random(u64);

impl Random {
    pub fn new(seed: u64) -> Self {
        Random(seed)
    }

    pub fn word(&mut self) -> u64 {
        self.0 = self.0.wrapping_add(0x9E37_79B9_7F4A_7C15);
        let mut z = self.0;
        z = (z ^ (z >> 30)).wrapping_mul(0xBF58_476D_1CE4_E5B9);
        z = (z ^ (z >> 27)).wrapping_mul(0x94D0_49BB_1331_11EB);
        z ^ (z >> 31)
    }

    /// A number below n, which is not zero.
    pub fn below(&mut self, n: usize) -> usize {
        ((self.word() as u128 * n as u128) >> 64) as usize
    }

    /// A number from `from` to `to`, both among them.
    pub fn between(&mut self, from: usize, to: usize) -> usize {
        from + self.below(to - from + 1)
    }

    /// True once in n times.
    pub fn once_in(&mut self, n: usize) -> bool {
        self.below(n) == 0
    }

    pub fn one_of<T: Copy>(&mut self, all: &[T]) -> T {
        all[self.below(all.len())]
    }

    /// Minus x or x. The least isize has no minus and stays.
    pub fn signed(&mut self, x: isize) -> isize {
        if self.once_in(2) { x.wrapping_neg() } else { x }
    }
}

/// What the numbers of one slice are like.
#[derive(Clone, Copy, Debug, PartialEq)]
pub enum Flavour {
    /// Whole numbers from -8 to 8: sums are exact.
    Whole,
    /// Full fractions near one: every sum rounds.
    Near,
    /// Any exponent: overflow and underflow.
    Wide,
    /// Subnormals and the least normals.
    Small,
    /// Near ones with one special number in sixteen.
    Strewn,
    /// Any bits.
    Bits,
}

const FLAVOURS: [Flavour; 12] = [
    Flavour::Whole, Flavour::Whole, Flavour::Near, Flavour::Near, Flavour::Near, Flavour::Near,
    Flavour::Wide, Flavour::Small, Flavour::Strewn, Flavour::Strewn, Flavour::Strewn, Flavour::Bits,
];

impl Random {
    pub fn flavour(&mut self) -> Flavour {
        self.one_of(&FLAVOURS)
    }

    /// A number with this biased exponent, any sign and any fraction.
    fn with_exponent<R: Real>(&mut self, exponent: u64) -> R {
        let bits = self.word();
        let fraction = bits & ((1 << R::FRACTION) - 1);
        let sign = bits >> 63 << (R::FRACTION + R::EXPONENT);
        R::of_bits(sign | exponent << R::FRACTION | fraction)
    }

    pub fn number<R: Real>(&mut self, flavour: Flavour) -> R {
        let top = (1u64 << R::EXPONENT) - 1;
        match flavour {
            Flavour::Whole => R::of(self.below(17) as f64 - 8.0),
            Flavour::Near => {
                let exponent = top / 2 - 2 + self.below(5) as u64;
                self.with_exponent(exponent)
            }
            Flavour::Wide => {
                let exponent = self.below(top as usize) as u64;
                self.with_exponent(exponent)
            }
            Flavour::Small => {
                let exponent = self.below(3) as u64;
                self.with_exponent(exponent)
            }
            Flavour::Strewn if self.once_in(16) => self.special(),
            Flavour::Strewn => self.number(Flavour::Near),
            Flavour::Bits => R::of_bits(self.word()),
        }
    }

    /// A zero, an infinity, a NaN (quiet or signalling), or a number at an end of the range.
    pub fn special<R: Real>(&mut self) -> R {
        let sign = self.word() >> 63 << (R::FRACTION + R::EXPONENT);
        let top = ((1u64 << R::EXPONENT) - 1) << R::FRACTION;
        let quiet = 1u64 << (R::FRACTION - 1);
        let bits = match self.below(8) {
            0 | 1 => 0,
            2 => top,
            3 => top | quiet | self.word() & (quiet - 1),
            4 => top | (1 + self.word() % (quiet - 1)),
            5 => top - 1,
            6 => 1,
            _ => 1u64 << R::FRACTION,
        };
        R::of_bits(sign | bits)
    }

    /// Alpha or beta: one of those that the rules treat apart, or any number.
    pub fn factor<R: Real>(&mut self) -> R {
        match self.below(12) {
            0 | 1 => R::of(0.0),
            2 => R::of(-0.0),
            3 | 4 => R::of(1.0),
            5 => R::of(-1.0),
            6 => self.special(),
            7 => R::of(2.0),
            _ => self.number(Flavour::Near),
        }
    }
}
