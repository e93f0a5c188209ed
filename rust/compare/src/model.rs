//! How one element of C is made: rules 1 to 7 of crates/rules/specs/Element.antt, step by step.

use crate::kind::{Call, Element, Kind, Real};
use hewnspandrel::Operand;

/// The element that becomes of `old`; a and b give row i of A and column j of B by depth.
pub fn element<K: Kind>(
    k: usize,
    alpha: Element<K::R>,
    a: impl Fn(usize) -> Element<K::R>,
    b: impl Fn(usize) -> Element<K::R>,
    beta: Element<K::R>,
    old: Element<K::R>,
) -> Element<K::R> {
    let (zero, one) = ([K::R::of(0.0); 2], [K::R::of(1.0), K::R::of(0.0)]);
    if k == 0 {
        return if K::is_zero(beta) { zero } else { K::mul(old, beta) }; // rule 7
    }
    let mut c = old;
    for start in (0..k).step_by(256) {
        let mut sum = zero; // rule 1
        for p in start..k.min(start + 256) {
            sum = K::step(sum, a(p), b(p)); // rules 2 and 3
        }
        let part = K::mul(alpha, sum); // rule 4
        let multiplier = if start == 0 { beta } else { one }; // rule 5
        c = if start == 0 && K::is_zero(beta) {
            part
        } else {
            let kept = K::mul(c, multiplier);
            [kept[0] + part[0], kept[1] + part[1]]
        };
    }
    c
}

/// The first real of place (i,j). The place is inside its slice.
pub fn at<K: Kind>(o: Operand, i: usize, j: usize) -> usize {
    K::WIDTH * (o.base as isize + i as isize * o.rs + j as isize * o.cs) as usize
}

/// The element of place (i,j).
pub fn read<K: Kind>(slice: &[K::R], o: Operand, i: usize, j: usize) -> Element<K::R> {
    let at = at::<K>(o, i, j);
    [slice[at], if K::WIDTH == 2 { slice[at + 1] } else { K::R::of(0.0) }]
}

/// C after an accepted call.
pub fn after<K: Kind>(call: &Call<K::R>, a: &[K::R], b: &[K::R], c: &[K::R]) -> Vec<K::R> {
    let mut result = c.to_vec();
    for i in 0..call.m {
        for j in 0..call.n {
            let row = |p| read::<K>(a, call.la, i, p);
            let column = |p| read::<K>(b, call.lb, p, j);
            let old = read::<K>(c, call.lc, i, j);
            let new = element::<K>(call.k, call.alpha, row, column, call.beta, old);
            let at = at::<K>(call.lc, i, j);
            result[at..at + K::WIDTH].copy_from_slice(&new[..K::WIDTH]);
        }
    }
    result
}
