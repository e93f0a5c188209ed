//! Every set of faults, and both sides of each limit but that of strides, which has strides.rs and far_apart.rs.

use compare::check::check;
use compare::kind::{Call, Kind, Real, C, D, S, Z};
use compare::made::{Lent, Made, FAR};
use compare::random::Random;
use compare::statement::{answer, need};
use hewnspandrel::Operand;

/// Every set of faults, each in a call that is accepted without it: the least number is the answer.
fn every_set_of_faults<K: Kind>() {
    for round in 0..20 {
        for set in 0..128u32 {
            let mut random = Random::new(round * 1000 + set as u64);
            let mut made = Made::<K>::accepted(&mut random, 3, 4, 2);
            // from the last on, so that none takes an earlier one back
            for fault in (1..8).rev().filter(|f| set >> (f - 1) & 1 == 1) {
                sure_fault(&mut random, &mut made, fault);
            }
            let first = (1..8).find(|f| set >> (f - 1) & 1 == 1).unwrap_or(0);
            let what = format!("{} faults {set:b} round {round}", K::NAME);
            assert_eq!(answer::<K>(&made.call, made.lengths()), first, "the statement, {what}");
            check(&made, first, &what);
        }
    }
}

/// As `fault`, but the condition holds for sure, and none before it does.
fn sure_fault<K: Kind>(random: &mut Random, made: &mut Made<K>, fault: u32) {
    let call = &mut made.call;
    match fault {
        1 | 2 => made.fault(random, fault as usize),
        3 => call.lc.base = made.c.len / K::WIDTH + random.below(3),
        4 => (call.lc.base, call.lc.rs, call.lc.cs) = random.one_of(&[(0, 0, 0), (1, 0, 1), (0, 1, 0), (2, -1, 1)]),
        5 => call.la.base = random.one_of(&[usize::MAX, isize::MAX as usize, made.a.len / K::WIDTH]),
        6 => made.b.len = 0,
        _ => made.pack.len = need::<K>(3, 4, 2) * K::WIDTH - 1,
    }
}

#[test]
fn sets_of_faults() {
    every_set_of_faults::<S>();
    every_set_of_faults::<D>();
    every_set_of_faults::<C>();
    every_set_of_faults::<Z>();
}

/// A call on slices of so many elements, all ones; A, B and C have the given operands. Checked against the statement.
fn plain_call<K: Kind>(sizes: [usize; 3], operands: [Operand; 3], elements: [usize; 4], expected: u32) {
    let [m, k, n] = sizes;
    let [la, lb, lc] = operands;
    let mut random = Random::new(7);
    let mut lend = |elements: usize| {
        let mut lent = Lent::new(&mut random, elements * K::WIDTH);
        lent.slice_mut().fill(K::R::of(1.0));
        lent
    };
    let [a, b, c, pack] = elements.map(&mut lend);
    let one = [K::R::of(1.0), K::R::of(0.0)];
    let made = Made::<K> { call: Call { m, k, n, alpha: one, beta: one, la, lb, lc }, a, b, c, pack };
    let what = format!("{} {sizes:?} {operands:?} {elements:?}", K::NAME);
    assert_eq!(answer::<K>(&made.call, made.lengths()), expected, "the statement, {what}");
    check(&made, expected, &what);
}

fn o(base: usize, rs: isize, cs: isize) -> Operand {
    Operand { base, rs, cs }
}

const STILL: Operand = Operand { base: 0, rs: 0, cs: 0 };

/// 65,536 is let through on each axis, 65,537 is not, even where another size is zero.
fn size_limits<K: Kind>() {
    for (size, expected) in [(65_536, 0), (65_537, 1), (usize::MAX, 1)] {
        let room = |m, k, n| if size == 65_536 { need::<K>(m, k, n) } else { 8 };
        plain_call::<K>([size, 1, 1], [STILL, STILL, o(0, 1, 0)], [1, 1, 65_536, room(size, 1, 1)], expected);
        plain_call::<K>([1, size, 1], [STILL, STILL, STILL], [1, 1, 1, room(1, size, 1)], expected);
        plain_call::<K>([1, 1, size], [STILL, STILL, o(65_535, 0, -1)], [1, 1, 65_536, room(1, 1, size)], expected);
        plain_call::<K>([size, 0, 0], [STILL; 3], [0; 4], expected);
        plain_call::<K>([0, size, 1], [STILL; 3], [0; 4], expected);
        plain_call::<K>([0, 0, size], [STILL; 3], [0; 4], expected);
        for sizes in [[size, 1, 1], [0, size, 1], [1, 0, size]] {
            let asked = K::need(sizes[0], sizes[1], sizes[2]).map_err(|r| r.number());
            let stated = if expected == 1 { Err(1) } else { Ok(need::<K>(sizes[0], sizes[1], sizes[2])) };
            assert_eq!(asked, stated, "{} need {sizes:?}", K::NAME);
        }
    }
}

/// Bases at the ends of the machine's numbers, where a wrapped place would be inside.
fn bases_that_would_wrap<K: Kind>() {
    for base in [usize::MAX, usize::MAX - 1, isize::MAX as usize, isize::MAX as usize + 1, 1 << 32] {
        for rs in [1, 2, -1, FAR, -FAR] {
            plain_call::<K>([3, 1, 1], [STILL, STILL, o(base, rs, 1)], [1, 1, 3, 200], 3);
            plain_call::<K>([3, 1, 1], [o(base, rs, 1), STILL, o(0, 1, 1)], [3, 1, 3, 200], 5);
            plain_call::<K>([1, 3, 1], [STILL, o(base, rs, 1), STILL], [1, 3, 1, 200], 6);
        }
    }
}

/// Slices and pack buffers of exactly what is needed, and of one element less.
fn exact_lengths<K: Kind>() {
    let (la, lb, lc) = (o(0, 3, 1), o(11, -4, -1), o(3, 4, -1));
    let room = need::<K>(2, 3, 4);
    plain_call::<K>([2, 3, 4], [la, lb, lc], [6, 12, 8, room], 0);
    plain_call::<K>([2, 3, 4], [la, lb, lc], [6, 12, 8, room - 1], 7);
    plain_call::<K>([2, 3, 4], [la, lb, lc], [6, 11, 8, room], 6);
    plain_call::<K>([2, 3, 4], [la, o(10, -4, -1), lc], [6, 12, 8, room], 6);
    plain_call::<K>([2, 3, 4], [la, lb, lc], [5, 12, 8, room], 5);
    plain_call::<K>([2, 3, 4], [la, lb, lc], [6, 12, 7, room], 3);
    plain_call::<K>([2, 3, 4], [la, lb, o(2, 4, -1)], [6, 12, 8, room], 3);
}

/// Too many places to look at one by one; the last row or column makes two of them meet.
fn many_places<K: Kind>() {
    let far = o(0, 299, 300);
    plain_call::<K>([300, 1, 300], [STILL, STILL, o(0, 1, 300)], [1, 1, 90_000, 100_000], 0);
    plain_call::<K>([301, 1, 300], [STILL, STILL, o(0, 1, 300)], [1, 1, 90_001, 100_000], 4);
    plain_call::<K>([300, 1, 300], [STILL, STILL, far], [1, 1, 181_000, 100_000], 0);
    plain_call::<K>([301, 1, 299], [STILL, STILL, far], [1, 1, 181_000, 100_000], 0);
    plain_call::<K>([301, 1, 300], [STILL, STILL, far], [1, 1, 181_000, 100_000], 4);
}

fn limits<K: Kind>() {
    size_limits::<K>();
    bases_that_would_wrap::<K>();
    exact_lengths::<K>();
    many_places::<K>();
}

#[test]
fn both_sides_of_limits() {
    limits::<S>();
    limits::<D>();
    limits::<C>();
    limits::<Z>();
}

fn needs<K: Kind>() {
    let edges = |chunk: usize, tile: usize| {
        let mut all = vec![0, 1, tile - 1, tile, tile + 1, chunk - 1, chunk, chunk + 1, 2 * chunk + 1, 65_535, 65_536, 65_537];
        all.extend(2..20);
        all
    };
    for &m in &edges(K::ROW_CHUNK, K::TILE_ROWS) {
        for &k in &edges(K::DEPTH_CHUNK, 4) {
            for &n in &edges(K::COLUMN_CHUNK, K::TILE_COLUMNS) {
                let stated = if m.max(k).max(n) > 65_536 { Err(1) } else { Ok(need::<K>(m, k, n)) };
                assert_eq!(K::need(m, k, n).map_err(|r| r.number()), stated, "{} need {m} {k} {n}", K::NAME);
            }
        }
    }
}

#[test]
fn the_need() {
    needs::<S>();
    needs::<D>();
    needs::<C>();
    needs::<Z>();
}

/// A lone last real is nobody's: an odd slice is as long as the even one before it.
fn odd<K: Kind>() {
    let o = Operand { base: 0, rs: 1, cs: 1 };
    let one = [K::R::of(1.0), K::R::of(0.0)];
    let room = 2 * need::<K>(1, 1, 1);
    let (two, mut random) = ([K::R::of(2.0); 3], Random::new(3));
    let call = Call { m: 1, k: 1, n: 1, alpha: one, beta: one, la: o, lb: o, lc: o };
    let lengths_and_answers = [
        ([2, 2, 2, room], 0),
        ([3, 3, 3, room + 1], 0),
        ([2, 2, 1, room], 3),
        ([1, 2, 2, room], 5),
        ([2, 1, 2, room], 6),
        ([2, 2, 2, room - 1], 7),
    ];
    for (lengths, expected) in lengths_and_answers {
        let [a, b, c, pack] = lengths.map(|len| Lent::new(&mut random, len));
        let mut made = Made::<K> { call, a, b, c, pack };
        for lent in [&mut made.a, &mut made.b] {
            let len = lent.len;
            lent.slice_mut().copy_from_slice(&two[..len]);
        }
        check(&made, expected, &format!("{} odd {lengths:?}", K::NAME));
    }
}

#[test]
fn odd_complex_slices() {
    odd::<C>();
    odd::<Z>();
}
