//! The four kinds, so that one test serves all: each kind's numbers, our call and the oracle's, rules 2, 3, 4 and 6.

use hewnspandrel::{Operand, Refusal};
use matrixmultiply::CGemmOption::Standard;
use std::fmt::Debug;
use std::ops::{Add, Mul, Neg, Sub};

/// f32 or f64, with its bits.
pub trait Real:
    Copy + Debug + PartialEq + Add<Output = Self> + Sub<Output = Self> + Mul<Output = Self> + Neg<Output = Self>
{
    /// Bits of the fraction and of the exponent.
    const FRACTION: u32;
    const EXPONENT: u32;
    fn bits(self) -> u64;
    fn of_bits(bits: u64) -> Self;
    fn of(x: f64) -> Self;
    fn is_nan(self) -> bool;
    /// The same bits, or both NaN.
    fn matches(self, other: Self) -> bool {
        self.bits() == other.bits() || self.is_nan() && other.is_nan()
    }
}

macro_rules! real {
    ($real:ty, $bits:ty, $fraction:expr, $exponent:expr) => {
        impl Real for $real {
            const FRACTION: u32 = $fraction;
            const EXPONENT: u32 = $exponent;
            fn bits(self) -> u64 {
                self.to_bits() as u64
            }
            fn of_bits(bits: u64) -> Self {
                <$real>::from_bits(bits as $bits)
            }
            fn of(x: f64) -> Self {
                x as $real
            }
            fn is_nan(self) -> bool {
                <$real>::is_nan(self)
            }
        }
    };
}
real!(f32, u32, 23, 8);
real!(f64, u64, 52, 11);

/// An element of any kind. The real kinds use the first part only.
pub type Element<R> = [R; 2];

/// All of a call but its slices.
#[derive(Clone, Copy, Debug)]
pub struct Call<R> {
    pub m: usize,
    pub k: usize,
    pub n: usize,
    pub alpha: Element<R>,
    pub beta: Element<R>,
    pub la: Operand,
    pub lb: Operand,
    pub lc: Operand,
}

pub trait Kind {
    type R: Real;
    const NAME: &'static str;
    /// 0 to 3, as the stored sample numbers the kinds.
    const NUMBER: u64;
    /// Reals in an element.
    const WIDTH: usize;
    const ROW_CHUNK: usize;
    const DEPTH_CHUNK: usize = 256;
    const COLUMN_CHUNK: usize;
    const TILE_ROWS: usize;
    const TILE_COLUMNS: usize;

    /// Our call, and its answer's number.
    fn ours(call: &Call<Self::R>, a: &[Self::R], b: &[Self::R], c: &mut [Self::R], pack: &mut [Self::R]) -> u32;
    fn need(m: usize, k: usize, n: usize) -> Result<usize, Refusal>;

    /// The oracle's call.
    ///
    /// # Safety
    /// Every place that the call looks at is inside its slice, and no two places of C are the same element.
    unsafe fn oracle(call: &Call<Self::R>, a: &[Self::R], b: &[Self::R], c: &mut [Self::R]);

    /// Rules 2 and 3.
    fn step(sum: Element<Self::R>, a: Element<Self::R>, b: Element<Self::R>) -> Element<Self::R>;
    /// Rule 4's product.
    fn mul(x: Element<Self::R>, y: Element<Self::R>) -> Element<Self::R>;
    /// Rule 6.
    fn is_zero(x: Element<Self::R>) -> bool;
}

fn number(answer: Result<(), Refusal>) -> u32 {
    answer.map_or_else(Refusal::number, |()| 0)
}

pub struct S;
pub struct D;
pub struct C;
pub struct Z;

macro_rules! kind {
    (
        $name:ident, $need:ident, $real:ty, $number:expr, $width:expr, $chunks:expr, $tile:expr, $element:ty,
        [$($flag:expr),*], $pass:expr
    ) => {
        const NAME: &'static str = stringify!($name);
        const NUMBER: u64 = $number;
        const WIDTH: usize = $width;
        const ROW_CHUNK: usize = $chunks.0;
        const COLUMN_CHUNK: usize = $chunks.1;
        const TILE_ROWS: usize = $tile.0;
        const TILE_COLUMNS: usize = $tile.1;
        type R = $real;

        fn ours(call: &Call<$real>, a: &[$real], b: &[$real], c: &mut [$real], pack: &mut [$real]) -> u32 {
            let Call { m, k, n, alpha, beta, la, lb, lc } = *call;
            number(hewnspandrel::$name(m, k, n, $pass(alpha), a, la, b, lb, $pass(beta), c, lc, pack))
        }

        fn need(m: usize, k: usize, n: usize) -> Result<usize, Refusal> {
            hewnspandrel::$need(m, k, n)
        }

        unsafe fn oracle(call: &Call<$real>, a: &[$real], b: &[$real], c: &mut [$real]) {
            let Call { m, k, n, alpha, beta, la, lb, lc } = *call;
            // a base may be anything where its operand is not looked at
            let a = (a.as_ptr() as *const $element).wrapping_add(la.base);
            let b = (b.as_ptr() as *const $element).wrapping_add(lb.base);
            let c = (c.as_mut_ptr() as *mut $element).wrapping_add(lc.base);
            matrixmultiply::$name(
                $($flag,)* m, k, n, $pass(alpha), a, la.rs, la.cs, b, lb.rs, lb.cs, $pass(beta), c, lc.rs, lc.cs,
            )
        }
    };
}

macro_rules! real_kind {
    ($kind:ty, $name:ident, $need:ident, $real:ty, $number:expr, $tile:expr) => {
        impl Kind for $kind {
            kind!($name, $need, $real, $number, 1, (64, 1024), $tile, $real, [], (|x: [$real; 2]| x[0]));

            fn step(sum: [$real; 2], a: [$real; 2], b: [$real; 2]) -> [$real; 2] {
                let product = a[0] * b[0];
                [sum[0] + product, 0.0]
            }
            fn mul(x: [$real; 2], y: [$real; 2]) -> [$real; 2] {
                [x[0] * y[0], 0.0]
            }
            fn is_zero(x: [$real; 2]) -> bool {
                x[0] == 0.0
            }
        }
    };
}

macro_rules! complex_kind {
    ($kind:ty, $name:ident, $need:ident, $real:ty, $number:expr) => {
        impl Kind for $kind {
            kind!(
                $name, $need, $real, $number, 2, (32, 512), (4, 2), [$real; 2],
                [Standard, Standard], (|x: [$real; 2]| x)
            );

            fn step([mut re, mut im]: [$real; 2], [p, q]: [$real; 2], [r, s]: [$real; 2]) -> [$real; 2] {
                re += p * r;
                im += p * s;
                re += (-q) * s;
                im += q * r;
                [re, im]
            }
            fn mul([a, b]: [$real; 2], [c, d]: [$real; 2]) -> [$real; 2] {
                [a * c - b * d, b * c + a * d]
            }
            fn is_zero(x: [$real; 2]) -> bool {
                x[0] == 0.0 && x[1] == 0.0
            }
        }
    };
}

real_kind!(S, sgemm, sgemm_need, f32, 0, (8, 4));
real_kind!(D, dgemm, dgemm_need, f64, 1, (4, 4));
complex_kind!(C, cgemm, cgemm_need, f32, 2);
complex_kind!(Z, zgemm, zgemm_need, f64, 3);
