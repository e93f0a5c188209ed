//! A shape's call with its slices, and the clock.

use compare::kind::{Call, Real};
use compare::plain::Plain;
use compare::random::{Flavour, Random};
use compare::statement::need;
use hewnspandrel::Operand;
use std::hint::black_box;
use std::time::Instant;

pub struct Case<K: Plain> {
    pub call: Call<K::R>,
    pub a: Vec<K::R>,
    pub b: Vec<K::R>,
    pub c: Vec<K::R>,
    pub pack: Vec<K::R>,
}

/// Row by row without gaps; or A and C with twice that and B column by column with a gap.
fn layouts(k: usize, n: usize, strided: bool) -> [Operand; 3] {
    let o = |rs: usize, cs: usize| Operand { base: 0, rs: rs as isize, cs: cs as isize };
    if strided { [o(2 * k, 2), o(1, k + 3), o(2 * n, 2)] } else { [o(k, 1), o(n, 1), o(n, 1)] }
}

impl<K: Plain> Case<K> {
    pub fn new([m, k, n]: [usize; 3], strided: bool) -> Self {
        let [la, lb, lc] = layouts(k, n, strided);
        let mut random = Random::new(5);
        let mut numbers = |o: Operand, rows: usize, columns: usize| -> Vec<K::R> {
            let reach = (rows - 1) * o.rs as usize + (columns - 1) * o.cs as usize + 1;
            (0..reach * K::WIDTH).map(|_| random.number(Flavour::Near)).collect()
        };
        let (a, b, c) = (numbers(la, m, k), numbers(lb, k, n), numbers(lc, m, n));
        let pack = vec![K::R::of(0.0); need::<K>(m, k, n) * K::WIDTH];
        let alpha = [K::R::of(1.0), K::R::of(0.0)];
        Case { call: Call { m, k, n, alpha, beta: [K::R::of(0.0); 2], la, lb, lc }, a, b, c, pack }
    }

    /// Nanoseconds a call of ours, one sample, after a call that warms the caches.
    pub fn sample(&mut self) -> f64 {
        let Case { call, a, b, c, pack } = self;
        let mut ours = |times: usize| time(times, || assert_eq!(K::ours(black_box(call), a, b, black_box(&mut c[..]), pack), 0));
        let warm = ours(1);
        ours(calls(warm))
    }
}

/// Nanoseconds a call of f, over so many calls.
pub fn time(times: usize, mut f: impl FnMut()) -> f64 {
    let start = Instant::now();
    for _ in 0..times {
        f();
    }
    start.elapsed().as_nanos() as f64 / times as f64
}

/// How many calls a sample has, by the nanoseconds of the first: ten milliseconds, if that is one call or more.
pub fn calls(warm: f64) -> usize {
    (1e7 / warm).clamp(1.0, 1e5) as usize
}
