//! Demand 3: an accepted call with no size zero, cut into pieces.

use crate::check::{check_c, check_pack};
use crate::kind::{Call, Kind, Real};
use crate::made::{Lent, Made};
use crate::random::Random;
use crate::statement::need;
use hewnspandrel::Operand;

/// Where rows, columns and depth are cut: of each axis the starts of its parts, and its end.
#[derive(Debug)]
pub struct Cuts {
    pub rows: Vec<usize>,
    pub columns: Vec<usize>,
    pub depths: Vec<usize>,
}

/// Runs the pieces, cells mixed at will, each cell's stretches rising. None is refused, and C ends as `whole`, which
/// the call itself left.
pub fn check_pieces<K: Kind>(random: &mut Random, made: &Made<K>, cuts: &Cuts, whole: &Lent<K::R>, what: &str) {
    let call = made.call;
    let (rows, columns, stretches) = (cuts.rows.len() - 1, cuts.columns.len() - 1, cuts.depths.len() - 1);
    let mut done = vec![0; rows * columns];
    let (mut c, mut pack) = (made.c.clone(), made.pack.clone());
    for _ in 0..rows * columns * stretches {
        let cell = loop {
            let cell = random.below(rows * columns);
            if done[cell] < stretches {
                break cell;
            }
        };
        let (i, j, p) = (cell / columns, cell % columns, done[cell]);
        done[cell] += 1;
        let piece = piece(&call, &cuts.rows[i..], &cuts.columns[j..], &cuts.depths[p..]);
        let answer = K::ours(&piece, made.a.slice(), made.b.slice(), c.slice_mut(), pack.slice_mut());
        assert_eq!(answer, 0, "{what}: piece {piece:?} of {call:?}");
    }
    check_c(made, &c, whole, &format!("{what}, {cuts:?}"));
    check_pack(made, &pack, need::<K>(call.m, call.k, call.n) * K::WIDTH, what);
}

/// The call for one cell and stretch, by where each begins and ends: bases moved, strides kept.
pub fn piece<R: Real>(call: &Call<R>, rows: &[usize], columns: &[usize], depths: &[usize]) -> Call<R> {
    let moved = |o: Operand, i, j| o.from_place(i, j).expect("a place of an accepted call is inside its slice");
    Call {
        m: rows[1] - rows[0],
        k: depths[1] - depths[0],
        n: columns[1] - columns[0],
        beta: if depths[0] == 0 { call.beta } else { [R::of(1.0), R::of(0.0)] },
        la: moved(call.la, rows[0], depths[0]),
        lb: moved(call.lb, depths[0], columns[0]),
        lc: moved(call.lc, rows[0], columns[0]),
        ..*call
    }
}
