//! Refusal 2: a stride is judged only where the axis that it steps along has two or more entries.

use compare::check::check;
use compare::kind::{Call, Kind, C, D, S, Z};
use compare::made::{Made, FAR, TOO_FAR};
use compare::pieces::{check_pieces, Cuts};
use compare::random::Random;
use compare::statement::{answer, need};

/// Of the sizes m, k and n, the one that each stride steps along: rows and columns of A, of B, of C.
const AXES: [usize; 6] = [0, 1, 1, 2, 0, 2];
const DEPTH: usize = 1;

fn stride<R>(call: &mut Call<R>, which: usize) -> &mut isize {
    let Call { la, lb, lc, .. } = call;
    [&mut la.rs, &mut la.cs, &mut lb.rs, &mut lb.cs, &mut lc.rs, &mut lc.cs].into_iter().nth(which).unwrap()
}

/// So many entries along one axis; the other two sizes in their order.
fn sizes(axis: usize, entries: usize, [x, y]: [usize; 2]) -> [usize; 3] {
    match axis {
        0 => [entries, x, y],
        1 => [x, entries, y],
        _ => [x, y, entries],
    }
}

/// An accepted call of random numbers. A stride that nobody steps along is one.
fn accepted<K: Kind>(random: &mut Random, sizes: [usize; 3]) -> Made<K> {
    let [m, k, n] = sizes;
    let mut made = Made::accepted(random, m, k, n);
    for which in (0..6).filter(|&which| sizes[AXES[which]] < 2) {
        *stride(&mut made.call, which) = 1;
    }
    made
}

/// The statement and our call give this answer. Where it is 0, C is the oracle's, and otherwise nothing was stored.
fn judge<K: Kind>(made: &Made<K>, expected: u32, what: &str) {
    assert_eq!(answer::<K>(&made.call, made.lengths()), expected, "the statement, {} {what}, {:?}", K::NAME, made.call);
    check(made, expected, &format!("{} {what}", K::NAME));
}

/// Along one entry or none, any stride is accepted, whatever the other sizes are.
fn not_judged<K: Kind>() {
    let mut random = Random::new(2);
    // single, few, across the edges of tiles and of chunks, none
    let others = [[1, 1], [3, 2], [2, 3], [9, 5], [65, 300], [300, 65], [0, 1], [1, 0], [0, 2], [2, 0]];
    for (which, axis) in AXES.into_iter().enumerate() {
        for sizes in others.into_iter().flat_map(|others| [sizes(axis, 0, others), sizes(axis, 1, others)]) {
            let mut made = accepted::<K>(&mut random, sizes);
            for far in TOO_FAR {
                *stride(&mut made.call, which) = far;
                judge(&made, 0, &format!("stride {which}"));
            }
        }
    }
}

/// All six at once, where every axis has one entry or none.
fn none_judged<K: Kind>() {
    let mut random = Random::new(3);
    for bits in 0..8 {
        let mut made = accepted::<K>(&mut random, [bits & 1, bits >> 1 & 1, bits >> 2]);
        for far in TOO_FAR {
            for which in 0..6 {
                *stride(&mut made.call, which) = far;
            }
            judge(&made, 0, "all strides");
        }
    }
}

/// Along two entries 2^31 either way is let through, and leads outside the slice; more is refused, whatever the other
/// sizes are.
fn judged<K: Kind>() {
    let mut random = Random::new(4);
    for (which, axis) in AXES.into_iter().enumerate() {
        for [x, y] in (0..16).map(|bits| [bits / 4, bits % 4]) {
            let mut made = accepted::<K>(&mut random, sizes(axis, 2, [x, y]));
            let Call { m, k, n, .. } = made.call;
            let (outside, places) = [(5, m * k * n), (6, m * k * n), (3, m * n)][which / 2];
            let let_through = [FAR, -FAR].map(|far| (far, if places > 0 { outside } else { 0 }));
            for (far, expected) in TOO_FAR.map(|far| (far, 2)).into_iter().chain(let_through) {
                *stride(&mut made.call, which) = far;
                judge(&made, expected, &format!("stride {which}"));
            }
        }
    }
}

/// A stride that is not judged, and one fault beside it: the fault's number is the answer, where the call comes to it.
fn beside_a_fault<K: Kind>() {
    let mut random = Random::new(5);
    for (which, axis) in AXES.into_iter().enumerate() {
        for (far, fault) in TOO_FAR.into_iter().flat_map(|far| (1..8).map(move |fault| (far, fault))) {
            for (entries, others) in [(0, [3, 2]), (1, [3, 2]), (1, [2, 9]), (1, [4, 4])] {
                let mut made = accepted::<K>(&mut random, sizes(axis, entries, others));
                *stride(&mut made.call, which) = far;
                add_fault(&mut random, &mut made, fault, axis);
                let last = if entries > 0 { 7 } else if axis == DEPTH { 4 } else { 2 };
                judge(&made, if fault <= last { fault } else { 0 }, &format!("stride {which}, fault {fault}"));
            }
        }
    }
}

/// Makes it a call that is refused with `fault`, by what is not on this axis. The other two sizes are two or more.
fn add_fault<K: Kind>(random: &mut Random, made: &mut Made<K>, fault: u32, axis: usize) {
    let call = &mut made.call;
    let mut outside = |reals: usize| random.one_of(&[reals / K::WIDTH, isize::MAX as usize, 1 << 63, usize::MAX]);
    match fault {
        1 => *[&mut call.m, &mut call.k, &mut call.n][(axis + random.between(1, 2)) % 3] = 65_537,
        2 => {
            let judged: Vec<usize> = (0..6).filter(|&which| AXES[which] != axis).collect();
            *stride(call, random.one_of(&judged)) = random.one_of(&TOO_FAR);
        }
        3 => call.lc.base = outside(made.c.len),
        4 if axis == 0 => call.lc.cs = 0,
        4 => call.lc.rs = 0,
        5 => call.la.base = outside(made.a.len),
        6 => call.lb.base = outside(made.b.len),
        _ => made.pack.len = (need::<K>(call.m, call.k, call.n) * K::WIDTH).saturating_sub(1),
    }
}

/// Demand 3: pieces of one row and one column, depth cut after 256 steps; strides that nobody steps along are too far.
fn in_pieces<K: Kind>() {
    let mut random = Random::new(6);
    for sizes in [[2, 257, 2], [1, 300, 5], [5, 1, 4], [3, 300, 1], [1, 257, 1]] {
        for far in TOO_FAR {
            let mut made = accepted::<K>(&mut random, sizes);
            for which in (0..6).filter(|&which| sizes[AXES[which]] == 1) {
                *stride(&mut made.call, which) = far;
            }
            let [m, k, n] = sizes;
            let what = format!("{} {sizes:?}", K::NAME);
            let whole = check(&made, 0, &what);
            let depths = (0..k).step_by(256).chain([k]).collect();
            let cuts = Cuts { rows: (0..=m).collect(), columns: (0..=n).collect(), depths };
            check_pieces(&mut random, &made, &cuts, &whole, &what);
        }
    }
}

macro_rules! of_all_kinds {
    ($($test:ident $of_one:ident)*) => {
        $(
            #[test]
            fn $test() {
                $of_one::<S>();
                $of_one::<D>();
                $of_one::<C>();
                $of_one::<Z>();
            }
        )*
    };
}

of_all_kinds! {
    any_stride_along_fewer_than_two_entries not_judged
    all_six_along_fewer_than_two_entries none_judged
    both_sides_of_the_limit_along_two_entries judged
    any_stride_beside_a_fault beside_a_fault
    any_stride_in_pieces in_pieces
}
