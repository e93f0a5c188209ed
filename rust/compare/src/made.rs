//! Random calls: sizes at the edges, operands of many layouts, slices between guards, and faults.

use crate::kind::{Call, Kind, Real};
use crate::random::{Flavour, Random};
use crate::statement::{need, two_meet, Lengths};
use hewnspandrel::Operand;

/// The largest stride that is not refused along two or more entries.
pub const FAR: isize = 1 << 31;

/// Strides that are refused there, and nowhere else: on either side just too far, far, and the furthest.
pub const TOO_FAR: [isize; 6] = [FAR + 1, -FAR - 1, 1 << 40, -(1 << 40), isize::MAX, isize::MIN];

/// A slice that lies inside a longer buffer. All of the buffer holds any bits at first, so that guards and gaps are full of
/// signalling NaNs too.
#[derive(Clone)]
pub struct Lent<R> {
    pub buffer: Vec<R>,
    pub from: usize,
    pub len: usize,
}

impl<R: Real> Lent<R> {
    pub fn new(random: &mut Random, len: usize) -> Self {
        let (before, behind) = (random.between(1, 6), random.between(1, 6));
        let buffer = (0..before + len + behind).map(|_| guard(random)).collect();
        Lent { buffer, from: before, len }
    }

    pub fn slice(&self) -> &[R] {
        &self.buffer[self.from..self.from + self.len]
    }

    pub fn slice_mut(&mut self) -> &mut [R] {
        &mut self.buffer[self.from..self.from + self.len]
    }
}

fn guard<R: Real>(random: &mut Random) -> R {
    if random.once_in(4) { random.special() } else { R::of_bits(random.word()) }
}

/// A call with its slices.
pub struct Made<K: Kind> {
    pub call: Call<K::R>,
    pub a: Lent<K::R>,
    pub b: Lent<K::R>,
    pub c: Lent<K::R>,
    pub pack: Lent<K::R>,
}

impl<K: Kind> Made<K> {
    /// An accepted call of these sizes.
    pub fn accepted(random: &mut Random, m: usize, k: usize, n: usize) -> Self {
        let (la, a) = matrix::<K>(random, m, k, false);
        let (lb, b) = matrix::<K>(random, k, n, false);
        let (lc, c) = matrix::<K>(random, m, n, true);
        let alpha = [random.factor(), random.factor()];
        let beta = factor_or_zero(random);
        let spare = if random.once_in(2) { 0 } else { random.below(20) };
        let pack = Lent::new(random, need::<K>(m, k, n) * K::WIDTH + spare);
        Made { call: Call { m, k, n, alpha, beta, la, lb, lc }, a, b, c, pack }
    }

    pub fn lengths(&self) -> Lengths {
        [self.a.len, self.b.len, self.c.len, self.pack.len]
    }

    /// Changes the call so that condition `number` may hold (mostly it does, where a size is not too small).
    pub fn fault(&mut self, random: &mut Random, number: usize) {
        let call = &mut self.call;
        match number {
            1 => {
                let size = match random.below(4) {
                    0 => usize::MAX - random.below(3),
                    1 => 65_537 + random.below(1 << 40),
                    _ => 65_537,
                };
                *any(random, [&mut call.m, &mut call.k, &mut call.n]) = size;
            }
            2 => {
                let further = FAR + 1 + random.below(1 << 20) as isize;
                let stride = if random.once_in(4) { random.signed(further) } else { random.one_of(&TOO_FAR) };
                *mostly_judged(random, call) = stride;
            }
            3 => put_outside::<K>(random, &mut call.lc, &mut self.c),
            4 => make_meet(random, &mut call.lc),
            5 => put_outside::<K>(random, &mut call.la, &mut self.a),
            6 => put_outside::<K>(random, &mut call.lb, &mut self.b),
            _ => {
                let need = need::<K>(call.m.min(65_536), call.k.min(65_536), call.n.min(65_536)) * K::WIDTH;
                self.pack.len = if random.once_in(4) { random.below(need.max(1)) } else { need.saturating_sub(1) };
            }
        }
    }
}

fn any<'a, T, const N: usize>(random: &mut Random, all: [&'a mut T; N]) -> &'a mut T {
    all.into_iter().nth(random.below(N)).unwrap()
}

/// One of the six strides: mostly one along two or more entries, where there is such an axis.
fn mostly_judged<'a, R>(random: &mut Random, call: &'a mut Call<R>) -> &'a mut isize {
    let Call { m, k, n, la, lb, lc, .. } = call;
    let all = [
        (&mut la.rs, *m), (&mut la.cs, *k), (&mut lb.rs, *k), (&mut lb.cs, *n), (&mut lc.rs, *m), (&mut lc.cs, *n),
    ];
    let (judged, others): (Vec<_>, Vec<_>) = all.into_iter().partition(|&(_, entries)| entries >= 2);
    let mut among = if judged.is_empty() || !others.is_empty() && random.once_in(8) { others } else { judged };
    among.swap_remove(random.below(among.len())).0
}

fn factor_or_zero<R: Real>(random: &mut Random) -> [R; 2] {
    match random.below(4) {
        0 => [random.one_of(&[R::of(0.0), R::of(-0.0)]), random.one_of(&[R::of(0.0), R::of(-0.0)])],
        1 => [R::of(1.0), R::of(0.0)],
        _ => [random.factor(), random.factor()],
    }
}

fn put_outside<K: Kind>(random: &mut Random, o: &mut Operand, slice: &mut Lent<K::R>) {
    let elements = slice.len / K::WIDTH;
    match random.below(6) {
        0 => o.base = usize::MAX - random.below(3),
        1 => o.base = isize::MAX as usize + random.below(3),
        2 => o.base = elements + random.below(2),
        3 => o.base = random.below(elements + 1),
        4 => slice.len = random.below(slice.len + 1),
        // the last element goes; of a complex one, its imaginary part is enough
        _ => slice.len = slice.len.saturating_sub(1 + slice.len % K::WIDTH),
    }
}

fn make_meet(random: &mut Random, o: &mut Operand) {
    match random.below(5) {
        0 => (o.rs, o.cs) = (0, 0),
        1 => o.rs = random.signed(o.cs),
        2 => o.rs = 0,
        3 => o.cs = 0,
        _ => (o.rs, o.cs) = (random.between(0, 6) as isize - 3, random.between(0, 6) as isize - 3),
    }
}

/// An operand of so many rows and columns, and a slice that just holds its places or somewhat more.
fn matrix<K: Kind>(random: &mut Random, rows: usize, columns: usize, apart: bool) -> (Operand, Lent<K::R>) {
    if rows == 0 || columns == 0 {
        let base = random.one_of(&[0, 1, 7, usize::MAX]);
        let o = Operand { base, rs: any_stride(random, rows), cs: any_stride(random, columns) };
        let len = random.below(6);
        return (o, Lent::new(random, len));
    }
    let (rs, cs) = strides(random, rows, columns, apart);
    let (down, across) = ((rows - 1) as isize * rs, (columns - 1) as isize * cs);
    let least = down.min(0) + across.min(0);
    let greatest = down.max(0) + across.max(0);
    let base = random.one_of(&[0, 0, 1, 2, 5]) - least;
    let elements = (base + greatest + 1) as usize + random.one_of(&[0, 0, 1, 3]);
    let lone = if K::WIDTH == 2 { random.below(2) } else { 0 };
    let mut slice = Lent::new(random, elements * K::WIDTH + lone);
    let flavour = random.flavour();
    for x in slice.slice_mut() {
        // gaps keep any bits, and so do all numbers of one slice in eight
        if flavour != Flavour::Bits {
            *x = random.number(flavour);
        }
    }
    let o = Operand { base: base as usize, rs, cs };
    if apart {
        fill_gaps::<K>(random, o, rows, columns, &mut slice);
    }
    (o, slice)
}

/// Any bits in the reals that are no place.
fn fill_gaps<K: Kind>(random: &mut Random, o: Operand, rows: usize, columns: usize, slice: &mut Lent<K::R>) {
    let taken = taken::<K>(o, rows, columns, slice.len);
    for (x, taken) in slice.slice_mut().iter_mut().zip(taken) {
        if !taken {
            *x = guard(random);
        }
    }
}

/// Which reals of a slice belong to a place. All places are inside.
pub fn taken<K: Kind>(o: Operand, rows: usize, columns: usize, reals: usize) -> Vec<bool> {
    let mut taken = vec![false; reals];
    for i in 0..rows {
        for j in 0..columns {
            let at = crate::model::at::<K>(o, i, j);
            taken[at..at + K::WIDTH].fill(true);
        }
    }
    taken
}

/// Any stride that is not refused along so many entries; any isize along none or one.
fn any_stride(random: &mut Random, entries: usize) -> isize {
    match random.below(if entries < 2 { 4 } else { 2 }) {
        2 => random.one_of(&TOO_FAR),
        3 => random.word() as isize,
        _ => {
            let stride = random.one_of(&[0, 1, 2, 100, 65_537, FAR - 1, FAR]);
            random.signed(stride)
        }
    }
}

/// Strides under which places are apart (where asked), of any sign; any isize where an axis has one entry.
fn strides(random: &mut Random, rows: usize, columns: usize, apart: bool) -> (isize, isize) {
    let step = random.one_of(&[1, 1, 1, 2, 3]);
    let gap = random.one_of(&[0, 0, 1, 3]);
    let (mut rs, mut cs) = match random.below(if apart { 8 } else { 11 }) {
        0..=2 => (step * (columns + gap), step),
        3..=5 => (step, step * (rows + gap)),
        6 => woven(random, rows, columns),
        7 if rows * columns <= 12 && random.once_in(8) => (random.between(3_000, 5_000), random.between(1, 900)),
        7 => (columns * step, step),
        8 => (random.below(3), random.below(3)),
        9 => (0, 0),
        _ => random.one_of(&[(1, 0), (0, 1), (1, 1)]),
    };
    if (rows == 1 || columns == 1) && random.once_in(2) {
        let mut along = |entries, stride: usize| {
            if entries == 1 { any_stride(random, entries) } else { random.signed(stride as isize) }
        };
        return (along(rows, rs), along(columns, cs));
    }
    if apart && rows * columns <= 4096 {
        let o = Operand { base: 0, rs: rs as isize, cs: cs as isize };
        if two_meet(o, rows, columns) {
            (rs, cs) = (columns, 1);
        }
    }
    if random.once_in(2) {
        return (rs as isize, cs as isize);
    }
    (random.signed(rs as isize), random.signed(cs as isize))
}

/// Rows and columns that interleave: neither stride spans the other axis, and still nothing meets (strides 3 and 2, say).
fn woven(random: &mut Random, rows: usize, columns: usize) -> (usize, usize) {
    for _ in 0..4 {
        let (rs, cs) = (random.between(1, columns + 3), random.between(1, rows + 3));
        if rows * columns <= 4096 && !two_meet(Operand { base: 0, rs: rs as isize, cs: cs as isize }, rows, columns) {
            return (rs, cs);
        }
    }
    (columns, 1)
}

/// Sizes: mostly small, tile edges and many ones among them; some with one or two at a chunk's edge; seldom three.
pub fn sizes<K: Kind>(random: &mut Random) -> [usize; 3] {
    let small = |random: &mut Random| match random.below(25) {
        0 => 0,
        1..=4 => 1,
        _ => random.between(1, 11),
    };
    let mut sizes = [small(random), small(random), small(random)];
    let work = match random.below(2000) {
        0 => 10_000_000,
        1..=100 => 60_000,
        101..=300 => 20_000,
        301..=400 => return [random.between(1, 40), random.between(1, 40), random.between(1, 40)],
        _ => return sizes,
    };
    let edged = if work > 60_000 { 3 } else { random.between(1, 2) };
    for _ in 0..edged {
        let axis = if edged == 1 { random.below(3) } else { random.one_of(&[0, 1, 1, 2]) };
        let chunk = [K::ROW_CHUNK, K::DEPTH_CHUNK, K::COLUMN_CHUNK][axis];
        let size = random.between(1, if axis == 2 { 1 } else { 3 }) * chunk - 1 + random.below(3);
        if sizes.iter().enumerate().map(|(i, &s)| if i == axis { size } else { s.max(1) }).product::<usize>() <= work {
            sizes[axis] = size;
        }
    }
    sizes
}
