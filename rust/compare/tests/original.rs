//! matrixmultiply's own tests, made anew for our crate: products with the identity, alpha and beta, strides of many kinds
//! with everything else left alone, and what its documentation says.

use compare::kind::{Call, Kind, Real, C, D, S, Z};
use compare::statement::need;
use hewnspandrel::Operand;

/// A number as an element's reals; the imaginary part, where there is one, is the negated number.
fn element<K: Kind>(x: f64) -> Vec<K::R> {
    [K::R::of(x), K::R::of(-x)][..K::WIDTH].to_vec()
}

fn elements<K: Kind>(numbers: impl Iterator<Item = usize>) -> Vec<K::R> {
    numbers.flat_map(|x| element::<K>(x as f64)).collect()
}

fn factor<K: Kind>(x: f64) -> [K::R; 2] {
    [K::R::of(x), K::R::of(0.0)]
}

fn row_major(columns: usize) -> Operand {
    Operand { base: 0, rs: columns as isize, cs: 1 }
}

/// Runs a call that is accepted.
#[allow(clippy::too_many_arguments)]
fn gemm<K: Kind>(
    [m, k, n]: [usize; 3], alpha: f64, a: &[K::R], la: Operand, b: &[K::R], lb: Operand, beta: f64, c: &mut [K::R], lc: Operand,
) {
    let call = Call { m, k, n, alpha: factor::<K>(alpha), beta: factor::<K>(beta), la, lb, lc };
    let mut pack = vec![K::R::of(f64::NAN); need::<K>(m, k, n) * K::WIDTH];
    assert_eq!(K::ours(&call, a, b, c, &mut pack), 0, "{} {call:?}", K::NAME);
}

fn identity<K: Kind>(side: usize) -> Vec<K::R> {
    let mut id = vec![K::R::of(0.0); side * side * K::WIDTH];
    for i in 0..side {
        id[(i + i * side) * K::WIDTH] = K::R::of(1.0);
    }
    id
}

/// A times the identity, and the identity times B, over a C full of NaN.
fn with_identity<K: Kind>(m: usize, n: usize) {
    let a = elements::<K>(0..m * n);
    let mut c = vec![K::R::of(f64::NAN); m * n * K::WIDTH];
    gemm::<K>([m, n, n], 1.0, &a, row_major(n), &identity::<K>(n), row_major(n), 0.0, &mut c, row_major(n));
    assert_eq!(c, a, "{} times identity, {m} by {n}", K::NAME);
    c.fill(K::R::of(f64::NAN));
    gemm::<K>([m, m, n], 1.0, &identity::<K>(m), row_major(m), &a, row_major(n), 0.0, &mut c, row_major(n));
    assert_eq!(c, a, "{} identity times, {m} by {n}", K::NAME);
}

/// 3 A B in one call, and A B + 2 (A B) in two. The numbers are whole and stay exact.
fn scaled<K: Kind>(m: usize, k: usize, n: usize) {
    let (a, b) = (elements::<K>((0..m * k).map(|i| i % 7)), elements::<K>((0..k * n).map(|i| i % 5)));
    let (la, lb, lc) = (row_major(k), row_major(n), row_major(n));
    let mut once = vec![K::R::of(1.0); m * n * K::WIDTH];
    gemm::<K>([m, k, n], 3.0, &a, la, &b, lb, 0.0, &mut once, lc);
    let mut twice = vec![K::R::of(f64::NAN); m * n * K::WIDTH];
    gemm::<K>([m, k, n], 1.0, &a, la, &b, lb, 0.0, &mut twice, lc);
    gemm::<K>([m, k, n], 1.0, &a, la, &b, lb, 2.0, &mut twice, lc);
    assert_eq!(once, twice, "{} {m} {k} {n}", K::NAME);
}

#[derive(Clone, Copy, Debug)]
enum Layout {
    Rows,
    Columns,
}

/// Strides of a rows by columns matrix whose rows and columns lie `spread` apart.
fn strides(layout: Layout, rows: usize, columns: usize, spread: [usize; 2]) -> Operand {
    let (rs, cs) = match layout {
        Layout::Rows => (columns * spread[0] * spread[1], spread[1]),
        Layout::Columns => (spread[0], rows * spread[0] * spread[1]),
    };
    Operand { base: 0, rs: rs as isize, cs: cs as isize }
}

/// C1 = A B, C1 += 2 A B and C2 = 3 A B in layouts of their own; what lies between the places of C stays NaN.
fn strided<K: Kind>([m, k, n]: [usize; 3], layouts: [Layout; 4], spreads: [[usize; 2]; 4]) {
    let room = |rows: usize, columns: usize, s: [usize; 2]| rows * columns * s[0] * s[1];
    let a = elements::<K>((0..room(m, k, spreads[0])).map(|i| i % 11));
    let b = elements::<K>((0..room(k, n, spreads[1])).map(|i| i % 13));
    let (la, lb) = (strides(layouts[0], m, k, spreads[0]), strides(layouts[1], k, n, spreads[1]));
    let (l1, l2) = (strides(layouts[2], m, n, spreads[2]), strides(layouts[3], m, n, spreads[3]));
    let mut c1 = vec![K::R::of(f64::NAN); room(m, n, spreads[2]) * K::WIDTH];
    let mut c2 = vec![K::R::of(f64::NAN); room(m, n, spreads[3]) * K::WIDTH];
    gemm::<K>([m, k, n], 1.0, &a, la, &b, lb, 0.0, &mut c1, l1);
    gemm::<K>([m, k, n], 2.0, &a, la, &b, lb, 1.0, &mut c1, l1);
    gemm::<K>([m, k, n], 3.0, &a, la, &b, lb, 0.0, &mut c2, l2);
    for i in 0..m {
        for j in 0..n {
            let read = |c: &[K::R], l| compare::model::read::<K>(c, l, i, j);
            assert_eq!(read(&c1, l1), read(&c2, l2), "{} {m} {k} {n} at {i} {j}, {layouts:?} {spreads:?}", K::NAME);
        }
    }
    let taken = compare::made::taken::<K>(l1, m, n, c1.len());
    assert!(c1.iter().zip(taken).all(|(x, taken)| taken != x.is_nan()), "{} {m} {k} {n}: a gap was written to", K::NAME);
}

fn all_strides<K: Kind>(sizes: [usize; 3]) {
    let spreads = [[1, 2], [2, 2], [2, 3], [1, 1], [2, 2], [4, 1], [3, 4]];
    let mut next = spreads.iter().copied().cycle();
    for choice in 0..16 {
        let layouts = [0, 1, 2, 3].map(|bit| if choice >> bit & 1 == 0 { Layout::Rows } else { Layout::Columns });
        strided::<K>(sizes, layouts, [0; 4].map(|_| next.next().unwrap()));
    }
}

fn all<K: Kind>() {
    for (m, n) in [(4, 4), (8, 8), (32, 32), (128, 128), (17, 128), (35, 1), (1, 35), (63, 64), (65, 66), (5, 260)] {
        with_identity::<K>(m, n);
    }
    for i in 0..12 {
        for j in 0..12 {
            with_identity::<K>(i, j);
        }
    }
    for [m, k, n] in [[0, 4, 4], [4, 0, 4], [4, 4, 0], [4, 4, 4], [19, 20, 16], [150, 140, 128], [3, 600, 3]] {
        scaled::<K>(m, k, n);
    }
    for side in (0..12).chain([21, 35, 63, 70]) {
        all_strides::<K>([side; 3]);
    }
    all_strides::<K>([8, 12, 16]);
    all_strides::<K>([8, 0, 10]);
}

#[test]
fn sgemm() {
    all::<S>();
}

#[test]
fn dgemm() {
    all::<D>();
}

#[test]
fn cgemm() {
    all::<C>();
}

#[test]
fn zgemm() {
    all::<Z>();
}

/// The documentation's "Matrix Representation": row major, column major, negative and zero strides are one matrix each.
fn representations<K: Kind>() {
    let (m, k, n) = (3, 4, 2);
    let rows = elements::<K>([1, 2, 3, 4, 5, 6, 7, 8, 9, 10, 11, 12].into_iter());
    let columns = elements::<K>([1, 5, 9, 2, 6, 10, 3, 7, 11, 4, 8, 12].into_iter());
    let backwards = elements::<K>([12, 11, 10, 9, 8, 7, 6, 5, 4, 3, 2, 1].into_iter());
    let b = elements::<K>(1..9);
    let product = |a: &[K::R], la: Operand| {
        let mut c = vec![K::R::of(f64::NAN); m * n * K::WIDTH];
        gemm::<K>([m, k, n], 1.0, a, la, &b, row_major(n), 0.0, &mut c, row_major(n));
        c
    };
    let expected = product(&rows, row_major(k));
    assert_eq!(product(&columns, Operand { base: 0, rs: 1, cs: m as isize }), expected, "{}", K::NAME);
    assert_eq!(product(&backwards, Operand { base: 11, rs: -4, cs: -1 }), expected, "{}", K::NAME);
    // a zero stride repeats one row
    let repeated = elements::<K>([1, 2, 3, 4, 1, 2, 3, 4, 1, 2, 3, 4].into_iter());
    assert_eq!(product(&rows, Operand { base: 0, rs: 0, cs: 1 }), product(&repeated, row_major(k)), "{}", K::NAME);
}

#[test]
fn matrix_representation() {
    representations::<S>();
    representations::<D>();
    representations::<C>();
    representations::<Z>();
}
