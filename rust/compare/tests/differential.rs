//! Random calls of all four kinds, held against the oracle bit for bit (NaN matching NaN), against the rules written out
//! once more, and against an own statement of the refusals.
//!
//! HEWNSPANDREL_CALLS is the number of calls, HEWNSPANDREL_SEED the seed; the same two give the same calls.

use compare::check::{check, check_c};
use compare::kind::{Call, Kind, C, D, S, Z};
use compare::made::{sizes, Lent, Made, FAR};
use compare::model;
use compare::pieces::{check_pieces, Cuts};
use compare::random::{setting, Random};
use compare::statement::{answer, conditions};

/// What was met on the way, so that a run can tell that it met everything.
#[derive(Default)]
struct Met {
    answers: [usize; 8],
    pairs: [[usize; 8]; 8],
    cuts: usize,
    /// Calls of two or more pieces with a stride beyond the limit, which is not judged: rows and columns of A, of B, of C.
    far_cuts: [usize; 6],
    /// Calls of more than one row, column or depth step with a piece of one.
    singles: [usize; 3],
    modelled: usize,
}

fn calls<K: Kind>() {
    let total = setting("HEWNSPANDREL_CALLS", 10_000);
    let seed = setting("HEWNSPANDREL_SEED", 1);
    let mut met = Met::default();
    for i in 0..total.div_ceil(4) {
        let mut random = Random::new(seed << 40 ^ K::NUMBER << 36 ^ i);
        // the generator's first numbers are alike for neighbouring seeds
        random.word();
        let what = format!("{} call {i} of seed {seed}", K::NAME);
        one_call::<K>(&mut random, &what, &mut met);
    }
    let Met { answers, cuts, far_cuts, singles, modelled, .. } = met;
    println!("{}: answers 0 to 7 {answers:?}, {modelled} modelled, {cuts} cut into pieces", K::NAME);
    println!("{}: cut with far strides {far_cuts:?}, into single rows, columns, depth steps {singles:?}", K::NAME);
    if total >= 10_000 {
        assert!(answers.iter().all(|&n| n > 0), "{}: an answer never met", K::NAME);
        assert!(far_cuts.iter().all(|&n| n > 0), "{}: a stride never too far in a cut call", K::NAME);
        assert!(singles.iter().all(|&n| n > 0), "{}: a piece of one never met", K::NAME);
        for (x, y) in (1..8).flat_map(|y| (1..y).map(move |x| (x, y))) {
            assert!(met.pairs[x][y] > 0, "{}: faults {x} and {y} never together", K::NAME);
        }
    }
}

fn one_call<K: Kind>(random: &mut Random, what: &str, met: &mut Met) {
    let [m, k, n] = sizes::<K>(random);
    let mut made = Made::<K>::accepted(random, m, k, n);
    let faults = random.one_of(&[0, 0, 0, 0, 0, 1, 1, 2, 2, 3]);
    let mut order: Vec<usize> = (0..faults).map(|_| random.between(1, 7)).collect();
    // last, since the layouts of the others would change with the sizes
    order.sort_by_key(|&fault| if fault == 1 { 8 } else { fault });
    for fault in order {
        made.fault(random, fault);
    }
    let expected = answer::<K>(&made.call, made.lengths());
    met.answers[expected as usize] += 1;
    if faults > 1 {
        meet_pairs(&made, met);
    }
    let whole = check(&made, expected, what);
    if expected == 0 && (m * k * n < 1500 || random.once_in(50)) {
        check_model(&made, &whole, what);
        met.modelled += 1;
    }
    if expected == 0 && made.call.m * made.call.k * made.call.n > 0 && (k > 256 || random.once_in(4)) {
        check_cut(random, &made, &whole, what, met);
    }
}

fn meet_pairs<K: Kind>(made: &Made<K>, met: &mut Met) {
    let Call { m, k, n, .. } = made.call;
    if [m, k, n].iter().any(|size| !(1..=65_537).contains(size)) {
        return;
    }
    let hold = conditions::<K>(&made.call, made.lengths());
    for y in 1..8 {
        for x in 1..y {
            met.pairs[x][y] += (hold[x] && hold[y]) as usize;
        }
    }
}

fn check_model<K: Kind>(made: &Made<K>, whole: &Lent<K::R>, what: &str) {
    let mut model = made.c.clone();
    model.slice_mut().copy_from_slice(&model::after::<K>(&made.call, made.a.slice(), made.b.slice(), made.c.slice()));
    check_c(made, whole, &model, &format!("{what}, by the model"));
}

/// Where an axis is cut: the starts of its parts, and its end.
fn cut(random: &mut Random, length: usize, unit: usize) -> Vec<usize> {
    let mut at: Vec<usize> = (0..random.below(4)).map(|_| random.below(length.div_ceil(unit)) * unit).collect();
    at.extend([0, length]);
    at.sort();
    at.dedup();
    at
}

/// Demand 3, cut anywhere.
fn check_cut<K: Kind>(random: &mut Random, made: &Made<K>, whole: &Lent<K::R>, what: &str, met: &mut Met) {
    let Call { m, k, n, la, lb, lc, .. } = made.call;
    let cuts = Cuts { rows: cut(random, m, 1), columns: cut(random, n, 1), depths: cut(random, k, 256) };
    check_pieces(random, made, &cuts, whole, what);
    met.cuts += 1;
    let is_cut = [&cuts.rows, &cuts.columns, &cuts.depths].iter().any(|axis| axis.len() > 2);
    for (met, stride) in met.far_cuts.iter_mut().zip([la.rs, la.cs, lb.rs, lb.cs, lc.rs, lc.cs]) {
        *met += (is_cut && stride.unsigned_abs() > FAR.unsigned_abs()) as usize;
    }
    for (met, (axis, length)) in met.singles.iter_mut().zip([(&cuts.rows, m), (&cuts.columns, n), (&cuts.depths, k)]) {
        *met += (length > 1 && axis.windows(2).any(|part| part[1] - part[0] == 1)) as usize;
    }
}

#[test]
fn sgemm_calls() {
    calls::<S>();
}

#[test]
fn dgemm_calls() {
    calls::<D>();
}

#[test]
fn cgemm_calls() {
    calls::<C>();
}

#[test]
fn zgemm_calls() {
    calls::<Z>();
}
