//! The same multiplication as a plain Rust program would have it: the crate's chunks, tiles and order of sums, slices with
//! bounds checks, no raw pointers, no refusals. The benchmark holds ours against it.

use crate::kind::{Call, Kind, Real, C, D, S, Z};
use hewnspandrel::Operand;

/// What becomes of old C in a depth chunk.
#[derive(Clone, Copy)]
enum Fate<E> {
    Overwrite,
    Times(E),
}

/// A kind with its plain multiplication.
pub trait Plain: Kind {
    fn plain(call: &Call<Self::R>, a: &[Self::R], b: &[Self::R], c: &mut [Self::R], pack: &mut [Self::R]);
}

impl Plain for S {
    fn plain(call: &Call<f32>, a: &[f32], b: &[f32], c: &mut [f32], pack: &mut [f32]) {
        real_loop::<S, 8, 4>(call, a, b, c, pack)
    }
}

impl Plain for D {
    fn plain(call: &Call<f64>, a: &[f64], b: &[f64], c: &mut [f64], pack: &mut [f64]) {
        real_loop::<D, 4, 4>(call, a, b, c, pack)
    }
}

impl Plain for C {
    fn plain(call: &Call<f32>, a: &[f32], b: &[f32], c: &mut [f32], pack: &mut [f32]) {
        complex_loop::<C, 4, 2>(call, a, b, c, pack)
    }
}

impl Plain for Z {
    fn plain(call: &Call<f64>, a: &[f64], b: &[f64], c: &mut [f64], pack: &mut [f64]) {
        complex_loop::<Z, 4, 2>(call, a, b, c, pack)
    }
}

fn place(o: Operand, i: usize, j: usize) -> usize {
    (o.base as isize + i as isize * o.rs + j as isize * o.cs) as usize
}

fn based_at(o: Operand, i: usize, j: usize) -> Operand {
    Operand { base: place(o, i, j), ..o }
}

fn transposed(o: Operand) -> Operand {
    Operand { rs: o.cs, cs: o.rs, ..o }
}

fn real_loop<K: Kind, const MR: usize, const NR: usize>(
    call: &Call<K::R>, a: &[K::R], b: &[K::R], c: &mut [K::R], pack: &mut [K::R],
) {
    let Call { m, k, n, la, lb, lc, .. } = *call;
    let (alpha, beta) = (call.alpha[0], call.beta[0]);
    let a_size = k.min(K::DEPTH_CHUNK) * m.min(K::ROW_CHUNK).next_multiple_of(MR);
    let (a_pack, b_pack) = pack.split_at_mut(a_size);
    for j in (0..n).step_by(K::COLUMN_CHUNK) {
        let nc = K::COLUMN_CHUNK.min(n - j);
        for p in (0..k).step_by(K::DEPTH_CHUNK) {
            let kc = K::DEPTH_CHUNK.min(k - p);
            pack_real::<K::R, NR>(kc, nc, b_pack, b, transposed(based_at(lb, p, j)));
            let fate = match p {
                0 if K::is_zero(call.beta) => Fate::Overwrite,
                0 => Fate::Times(beta),
                _ => Fate::Times(K::R::of(1.0)),
            };
            for i in (0..m).step_by(K::ROW_CHUNK) {
                let mc = K::ROW_CHUNK.min(m - i);
                pack_real::<K::R, MR>(kc, mc, a_pack, a, based_at(la, i, p));
                real_packed::<K::R, MR, NR>(nc, kc, mc, alpha, a_pack, b_pack, fate, c, based_at(lc, i, j));
            }
        }
    }
}

/// Panels of `W` rows; the last is filled up with zeros.
fn pack_real<R: Real, const W: usize>(kc: usize, mc: usize, pack: &mut [R], a: &[R], o: Operand) {
    let mut to = 0;
    for row in (0..mc).step_by(W) {
        let rows = W.min(mc - row);
        for p in 0..kc {
            if rows == W && o.rs == 1 {
                let from = place(o, row, p);
                pack[to..to + W].copy_from_slice(&a[from..from + W]);
            } else {
                for i in 0..W {
                    pack[to + i] = if i < rows { a[place(o, row + i, p)] } else { R::of(0.0) };
                }
            }
            to += W;
        }
    }
}

#[allow(clippy::too_many_arguments)]
fn real_packed<R: Real, const MR: usize, const NR: usize>(
    nc: usize, kc: usize, mc: usize, alpha: R, a: &[R], b: &[R], fate: Fate<R>, c: &mut [R], lc: Operand,
) {
    for j in (0..nc).step_by(NR) {
        for i in (0..mc).step_by(MR) {
            let tile = real_tile::<R, MR, NR>(&a[i * kc..(i + MR) * kc], &b[j * kc..(j + NR) * kc]);
            put_real(alpha, &tile, fate, c, based_at(lc, i, j), MR.min(mc - i), NR.min(nc - j));
        }
    }
}

fn real_tile<R: Real, const MR: usize, const NR: usize>(a: &[R], b: &[R]) -> [[R; NR]; MR] {
    let mut ab = [[R::of(0.0); NR]; MR];
    for (a, b) in a.chunks_exact(MR).zip(b.chunks_exact(NR)) {
        for i in 0..MR {
            for j in 0..NR {
                ab[i][j] = ab[i][j] + a[i] * b[j];
            }
        }
    }
    ab
}

// not inlined: the tile is then summed in registers, which makes this the faster program; the complex kinds gain nothing by it
#[inline(never)]
fn put_real<R: Real, const MR: usize, const NR: usize>(
    alpha: R, tile: &[[R; NR]; MR], fate: Fate<R>, c: &mut [R], lc: Operand, rows: usize, columns: usize,
) {
    for i in 0..rows {
        for j in 0..columns {
            let at = place(lc, i, j);
            let part = alpha * tile[i][j];
            c[at] = match fate {
                Fate::Overwrite => part,
                Fate::Times(beta) => c[at] * beta + part,
            };
        }
    }
}

fn complex_loop<K: Kind, const MR: usize, const NR: usize>(
    call: &Call<K::R>, a: &[K::R], b: &[K::R], c: &mut [K::R], pack: &mut [K::R],
) {
    let Call { m, k, n, alpha, beta, la, lb, lc } = *call;
    let a_size = 2 * k.min(K::DEPTH_CHUNK) * m.min(K::ROW_CHUNK).next_multiple_of(MR);
    let (a_pack, b_pack) = pack.split_at_mut(a_size);
    for j in (0..n).step_by(K::COLUMN_CHUNK) {
        let nc = K::COLUMN_CHUNK.min(n - j);
        for p in (0..k).step_by(K::DEPTH_CHUNK) {
            let kc = K::DEPTH_CHUNK.min(k - p);
            pack_complex::<K::R, NR>(kc, nc, b_pack, b, transposed(based_at(lb, p, j)));
            let fate = match p {
                0 if K::is_zero(beta) => Fate::Overwrite,
                0 => Fate::Times(beta),
                _ => Fate::Times([K::R::of(1.0), K::R::of(0.0)]),
            };
            for i in (0..m).step_by(K::ROW_CHUNK) {
                let mc = K::ROW_CHUNK.min(m - i);
                pack_complex::<K::R, MR>(kc, mc, a_pack, a, based_at(la, i, p));
                complex_packed::<K, MR, NR>(nc, kc, mc, alpha, a_pack, b_pack, fate, c, based_at(lc, i, j));
            }
        }
    }
}

/// Panels of `W` rows, for each depth step the reals and then the imaginaries.
fn pack_complex<R: Real, const W: usize>(kc: usize, mc: usize, pack: &mut [R], a: &[R], o: Operand) {
    let mut to = 0;
    for row in (0..mc).step_by(W) {
        let rows = W.min(mc - row);
        for p in 0..kc {
            for half in 0..2 {
                for i in 0..W {
                    pack[to + i] = if i < rows { a[2 * place(o, row + i, p) + half] } else { R::of(0.0) };
                }
                to += W;
            }
        }
    }
}

#[allow(clippy::too_many_arguments)]
fn complex_packed<K: Kind, const MR: usize, const NR: usize>(
    nc: usize, kc: usize, mc: usize, alpha: [K::R; 2], a: &[K::R], b: &[K::R], fate: Fate<[K::R; 2]>, c: &mut [K::R], lc: Operand,
) {
    for j in (0..nc).step_by(NR) {
        for i in (0..mc).step_by(MR) {
            let tile = complex_tile::<K, MR, NR>(&a[2 * i * kc..2 * (i + MR) * kc], &b[2 * j * kc..2 * (j + NR) * kc]);
            put_complex::<K, MR, NR>(alpha, &tile, fate, c, based_at(lc, i, j), MR.min(mc - i), NR.min(nc - j));
        }
    }
}

fn complex_tile<K: Kind, const MR: usize, const NR: usize>(a: &[K::R], b: &[K::R]) -> [[[K::R; 2]; NR]; MR] {
    let mut ab = [[[K::R::of(0.0); 2]; NR]; MR];
    for (a, b) in a.chunks_exact(2 * MR).zip(b.chunks_exact(2 * NR)) {
        for i in 0..MR {
            for j in 0..NR {
                ab[i][j] = K::step(ab[i][j], [a[i], a[MR + i]], [b[j], b[NR + j]]);
            }
        }
    }
    ab
}

fn put_complex<K: Kind, const MR: usize, const NR: usize>(
    alpha: [K::R; 2], tile: &[[[K::R; 2]; NR]; MR], fate: Fate<[K::R; 2]>, c: &mut [K::R], lc: Operand, rows: usize, columns: usize,
) {
    for i in 0..rows {
        for j in 0..columns {
            let at = 2 * place(lc, i, j);
            let [mut re, mut im] = K::mul(alpha, tile[i][j]);
            if let Fate::Times(beta) = fate {
                let kept = K::mul([c[at], c[at + 1]], beta);
                (re, im) = (kept[0] + re, kept[1] + im);
            }
            (c[at], c[at + 1]) = (re, im);
        }
    }
}
