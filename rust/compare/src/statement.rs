//! The seven refusals and the need, as docs/GUIDE.md has them: stated over places and not by corners or divisors.

use crate::kind::{Call, Kind};
use hewnspandrel::Operand;

/// Places up to this number are looked at one by one.
const FEW: usize = 4096;

/// Place (i,j), a whole number that cannot wrap.
fn place(o: Operand, i: usize, j: usize) -> i128 {
    o.base as i128 + i as i128 * o.rs as i128 + j as i128 * o.cs as i128
}

fn places(o: Operand, rows: usize, columns: usize) -> impl Iterator<Item = i128> {
    (0..rows).flat_map(move |i| (0..columns).map(move |j| place(o, i, j)))
}

/// Some place is negative or not below the number of elements.
pub fn some_outside(o: Operand, rows: usize, columns: usize, elements: usize) -> bool {
    let outside = |p: i128| p < 0 || p >= elements as i128;
    if rows * columns <= FEW {
        return places(o, rows, columns).any(outside);
    }
    // the least and the greatest place are found row by row and column by column, since a place is a sum
    let down: Vec<i128> = (0..rows).map(|i| i as i128 * o.rs as i128).collect();
    let across: Vec<i128> = (0..columns).map(|j| j as i128 * o.cs as i128).collect();
    let least = down.iter().min().unwrap() + across.iter().min().unwrap();
    let greatest = down.iter().max().unwrap() + across.iter().max().unwrap();
    outside(o.base as i128 + least) || outside(o.base as i128 + greatest)
}

/// Two different places are the same element.
pub fn two_meet(o: Operand, rows: usize, columns: usize) -> bool {
    if rows * columns <= FEW {
        let mut all: Vec<i128> = places(o, rows, columns).collect();
        all.sort_unstable();
        return all.windows(2).any(|pair| pair[0] == pair[1]);
    }
    // places i rows and j columns apart meet where i rs + j cs is zero; of each two, one is not above the other
    let (rs, cs) = (o.rs as i128, o.cs as i128);
    (0..rows as i128).any(|i| match cs {
        0 => i * rs == 0 && (i > 0 || columns > 1),
        _ => i > 0 && i * rs % cs == 0 && (i * rs / cs).abs() < columns as i128,
    })
}

/// The need in elements, for sizes that are not refused.
pub fn need<K: Kind>(m: usize, k: usize, n: usize) -> usize {
    let up = |x: usize, side: usize| (x..).find(|y| y % side == 0).unwrap();
    if m == 0 || k == 0 || n == 0 {
        return 0;
    }
    k.min(K::DEPTH_CHUNK) * (up(m.min(K::ROW_CHUNK), K::TILE_ROWS) + up(n.min(K::COLUMN_CHUNK), K::TILE_COLUMNS))
}

/// Lengths of A's, B's and C's slice and of the pack buffer, in reals.
pub type Lengths = [usize; 4];

/// Whether each of the seven conditions holds by itself, 1 to 7 (entry 0 is not used). Sizes are at most 65,537 here.
pub fn conditions<K: Kind>(call: &Call<K::R>, lengths: Lengths) -> [bool; 8] {
    let Call { m, k, n, la, lb, lc, .. } = *call;
    let [a, b, c, pack] = lengths.map(|reals| reals / K::WIDTH);
    [
        false,
        too_large(m, k, n),
        too_far(call),
        some_outside(lc, m, n, c),
        two_meet(lc, m, n),
        some_outside(la, m, k, a),
        some_outside(lb, k, n, b),
        pack < need::<K>(m, k, n),
    ]
}

fn too_large(m: usize, k: usize, n: usize) -> bool {
    [m, k, n].iter().any(|&size| size > 65_536)
}

/// Some stride is too far. It is judged only where the axis that it steps along has two or more entries.
fn too_far<R>(call: &Call<R>) -> bool {
    let Call { m, k, n, la, lb, lc, .. } = *call;
    let strides_and_entries = [(la.rs, m), (la.cs, k), (lb.rs, k), (lb.cs, n), (lc.rs, m), (lc.cs, n)];
    strides_and_entries.iter().any(|&(stride, entries)| entries >= 2 && (stride as i128).abs() > 2_147_483_648)
}

/// The number that a call is answered with.
pub fn answer<K: Kind>(call: &Call<K::R>, lengths: Lengths) -> u32 {
    let Call { m, k, n, la, lb, lc, .. } = *call;
    let [a, b, c, pack] = lengths.map(|reals| reals / K::WIDTH);
    if too_large(m, k, n) {
        return 1;
    }
    if too_far(call) {
        return 2;
    }
    if m == 0 || n == 0 {
        return 0;
    }
    if some_outside(lc, m, n, c) {
        return 3;
    }
    if two_meet(lc, m, n) {
        return 4;
    }
    if k == 0 {
        return 0;
    }
    if some_outside(la, m, k, a) {
        return 5;
    }
    if some_outside(lb, k, n, b) {
        return 6;
    }
    if pack < need::<K>(m, k, n) {
        return 7;
    }
    0
}
