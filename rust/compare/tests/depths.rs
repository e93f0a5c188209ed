//! Depths that end anywhere in a turn of the real kernels' loop, which takes four steps, in one chunk and past it; and sums whose order
//! shows: what such a loop would give if it were written wrong has other bits.

use compare::check::check;
use compare::kind::{Call, Kind, Real, C, D, S, Z};
use compare::made::Made;
use compare::random::{Flavour, Random};
use compare::statement::need;
use hewnspandrel::Operand;

fn every_depth<K: Kind>() {
    let mut random = Random::new(12 + K::NUMBER);
    for k in (0..=33).chain(252..=261).chain(508..=517) {
        for m in [1, K::TILE_ROWS, K::TILE_ROWS + 1] {
            for n in [1, K::TILE_COLUMNS, K::TILE_COLUMNS + 1] {
                check(&Made::<K>::accepted(&mut random, m, k, n), 0, &format!("{} of {m} by {k} by {n}", K::NAME));
            }
        }
    }
}

#[test]
fn turns_and_remainders() {
    every_depth::<S>();
    every_depth::<D>();
    every_depth::<C>();
    every_depth::<Z>();
}

fn plus<R: Real>(sum: R, products: &[R]) -> R {
    products.iter().fold(sum, |sum, &x| sum + x)
}

/// Rule 2: one sum from +0, in rising depth.
fn in_order<R: Real>(products: &[R]) -> R {
    plus(R::of(0.0), products)
}

/// The products of the turns, and those that remain.
fn turns<R>(products: &[R]) -> (&[R], &[R]) {
    products.split_at(products.len() / 4 * 4)
}

fn four_sums<R: Real>(products: &[R]) -> R {
    let (turns, rest) = turns(products);
    let sums = [0, 1, 2, 3].map(|step| turns.iter().skip(step).step_by(4).fold(R::of(0.0), |sum, &x| sum + x));
    plus(in_order(&sums), rest)
}

fn pairs_first<R: Real>(products: &[R]) -> R {
    let (turns, rest) = turns(products);
    plus(turns.chunks(2).fold(R::of(0.0), |sum, pair| sum + in_order(pair)), rest)
}

fn remainder_first<R: Real>(products: &[R]) -> R {
    let (turns, rest) = turns(products);
    plus(in_order(rest), turns)
}

fn remainder_dropped<R: Real>(products: &[R]) -> R {
    in_order(turns(products).0)
}

fn fourth_step_twice<R: Real>(products: &[R]) -> R {
    let (turns, rest) = turns(products);
    plus(turns.chunks(4).fold(R::of(0.0), |sum, turn| plus(sum, &[turn[0], turn[1], turn[3], turn[3]])), rest)
}

/// C is in order in all elements of a tile, and a wrong order shows in some, from the depth on where it is another.
fn orders<K: Kind>(k: usize) {
    let (m, n) = (K::TILE_ROWS, K::TILE_COLUMNS);
    let mut random = Random::new(k as u64);
    let mut numbers = |count: usize| -> Vec<K::R> { (0..count).map(|_| random.number(Flavour::Near)).collect() };
    let (a, b, mut c) = (numbers(m * k), numbers(k * n), numbers(m * n));
    let rows = |columns: usize| Operand { base: 0, rs: columns as isize, cs: 1 };
    let (zero, one) = (K::R::of(0.0), K::R::of(1.0));
    let call = Call { m, k, n, alpha: [one, zero], beta: [zero; 2], la: rows(k), lb: rows(n), lc: rows(n) };
    assert_eq!(K::ours(&call, &a, &b, &mut c, &mut vec![zero; need::<K>(m, k, n)]), 0);

    let products = |at: usize| -> Vec<K::R> { (0..k).map(|p| a[at / n * k + p] * b[p * n + at % n]).collect() };
    let differ = |order: fn(&[K::R]) -> K::R| (0..m * n).filter(|&at| c[at].bits() != order(&products(at)).bits()).count();
    assert_eq!(differ(in_order), 0, "{} at the depth {k}", K::NAME);
    let wrong: [(&str, bool, fn(&[K::R]) -> K::R); 5] = [
        ("four sums", k >= 8, four_sums),
        ("pairs first", true, pairs_first),
        ("the remainder first", k % 4 != 0, remainder_first),
        ("the remainder dropped", k % 4 != 0, remainder_dropped),
        ("the fourth step twice", true, fourth_step_twice),
    ];
    for (name, shows, order) in wrong {
        assert_eq!(differ(order) > 0, shows, "{} at the depth {k}: {name}", K::NAME);
    }
}

#[test]
fn sums_in_order() {
    for k in (4..=20).chain(253..=256) {
        orders::<S>(k);
        orders::<D>(k);
    }
}
