//! Rows or columns of A, B or C that lie 2^31 elements apart, the furthest that is not refused: whole calls and pieces, held
//! against the oracle, in memory that the machine lends zeroed and that is hardly touched.

use compare::kind::{Call, Kind, Real, C, D, S, Z};
use compare::made::FAR;
use compare::pieces::piece;
use compare::random::{Flavour, Random};
use compare::statement::{answer, need};
use hewnspandrel::Operand;
use std::alloc::{alloc_zeroed, Layout};

/// Two rows of two elements, so far apart. A slice of four elements more than that just holds them: each row is the last two
/// of the four at an end.
fn rows_apart(stride: isize) -> Operand {
    Operand { base: 2 + stride.min(0).unsigned_abs(), rs: stride, cs: 1 }
}

/// The reals of the four elements at each end of each slice.
fn ends<K: Kind>(slices: &mut [Vec<K::R>; 3]) -> impl Iterator<Item = &mut K::R> {
    slices.iter_mut().flat_map(|slice| {
        let (first, others) = slice.split_at_mut(4 * K::WIDTH);
        let last = others.len() - 4 * K::WIDTH;
        first.iter_mut().chain(&mut others[last..])
    })
}

fn bits<K: Kind>(slices: &mut [Vec<K::R>; 3]) -> Vec<u64> {
    ends::<K>(slices).map(|x| x.bits()).collect()
}

/// Accepted, and by the whole call and by pieces of one element C becomes the oracle's. A and B stay.
fn check_done<K: Kind>(call: &Call<K::R>, slices: &mut [Vec<K::R>; 3], pack: &mut [K::R]) {
    let before = bits::<K>(slices);
    let [a, b, c] = slices;
    assert_eq!(answer::<K>(call, [a.len(), b.len(), c.len(), pack.len()]), 0, "the statement, {} {call:?}", K::NAME);
    // SAFETY: accepted by the statement, so all places are inside and C's are apart.
    unsafe { K::oracle(call, a, b, c) };
    let theirs = bits::<K>(slices);
    for parts in [&[0, 2][..], &[0, 1, 2]] {
        ends::<K>(slices).zip(&before).for_each(|(x, &old)| *x = K::R::of_bits(old));
        let [a, b, c] = slices;
        for (rows, columns) in parts.windows(2).flat_map(|rows| parts.windows(2).map(move |columns| (rows, columns))) {
            let piece = piece(call, rows, columns, &[0, 2]);
            assert_eq!(K::ours(&piece, a, b, c, pack), 0, "{} {piece:?} of {call:?}", K::NAME);
        }
        assert_eq!(bits::<K>(slices), theirs, "{} {parts:?} of {call:?}", K::NAME);
    }
}

/// Refused with this number, and nothing was stored.
fn check_refused<K: Kind>(call: &Call<K::R>, slices: &mut [Vec<K::R>; 3], pack: &mut [K::R], expected: u32) {
    let before = bits::<K>(slices);
    let [a, b, c] = slices;
    let stated = answer::<K>(call, [a.len(), b.len(), c.len(), pack.len()]);
    assert_eq!((stated, K::ours(call, a, b, c, pack)), (expected, expected), "{} {call:?}", K::NAME);
    assert_eq!(bits::<K>(slices), before, "{} {call:?}", K::NAME);
}

/// A 2 by 2 by 2 call of random numbers, where A, B or C (0, 1 or 2) has this operand. One element further on it is outside.
fn one_call<K: Kind>(random: &mut Random, which: usize, operand: Operand, slices: &mut [Vec<K::R>; 3]) {
    ends::<K>(slices).for_each(|x| *x = random.number(Flavour::Near));
    let mut pack = vec![K::R::of(0.0); need::<K>(2, 2, 2) * K::WIDTH];
    let mut factor = || [random.number(Flavour::Near), random.number(Flavour::Near)];
    let (alpha, beta, near) = (factor(), factor(), rows_apart(4));
    let mut call = Call { m: 2, k: 2, n: 2, alpha, beta, la: near, lb: near, lc: near };
    *operand_of(&mut call, which) = operand;
    check_done::<K>(&call, slices, &mut pack);
    operand_of(&mut call, which).base += 1;
    check_refused::<K>(&call, slices, &mut pack, [5, 6, 3][which]);
}

fn operand_of<R>(call: &mut Call<R>, which: usize) -> &mut Operand {
    [&mut call.la, &mut call.lb, &mut call.lc].into_iter().nth(which).unwrap()
}

/// Zeros, or nothing where the machine does not lend as many. They take room only where they are written to.
fn zeros<R: Real>(count: usize) -> Option<Vec<R>> {
    let layout = Layout::array::<R>(count).unwrap();
    // SAFETY: the count is not zero.
    let memory = unsafe { alloc_zeroed(layout) } as *mut R;
    // SAFETY: just allocated as a vector of this capacity is, and zeroed reals are reals.
    (!memory.is_null()).then(|| unsafe { Vec::from_raw_parts(memory, count, count) })
}

/// Each of the six strides, forward and back. The far slice goes from matrix to matrix.
fn far_apart<K: Kind>() {
    let reals = (FAR.unsigned_abs() + 4) * K::WIDTH;
    let Some(far) = zeros::<K::R>(reals) else {
        println!("{}: the machine lends no {} bytes, not run", K::NAME, reals * size_of::<K::R>());
        return;
    };
    let mut random = Random::new(8);
    let near = vec![K::R::of(0.0); 8 * K::WIDTH];
    let mut slices = [far, near.clone(), near];
    for which in 0..3 {
        for rows in [FAR, -FAR].map(rows_apart) {
            one_call::<K>(&mut random, which, rows, &mut slices);
            one_call::<K>(&mut random, which, rows.transposed(), &mut slices);
        }
        slices.rotate_right(1);
    }
}

#[test]
fn two_to_the_31_apart() {
    far_apart::<S>();
    far_apart::<D>();
    far_apart::<C>();
    far_apart::<Z>();
}
