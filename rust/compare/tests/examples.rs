//! The examples P1 to P12 of crates/rules/specs/Examples.antt, and of layouts, for all the kinds that each names, through our crate, the oracle and the model.

use compare::kind::{Call, Kind, Real, C, D, S, Z};
use compare::model;
use compare::statement::need;
use hewnspandrel::Operand;

const INFINITE: f64 = f64::INFINITY;
const NAN: f64 = f64::NAN;

/// A column of A, a column of B and one element of C, each number a pair of parts (the real kinds use the first).
struct Example {
    alpha: [f64; 2],
    a: Vec<[f64; 2]>,
    b: Vec<[f64; 2]>,
    beta: [f64; 2],
    c: [f64; 2],
    expected: [f64; 2],
}

fn real(alpha: f64, a: &[f64], b: &[f64], beta: f64, c: f64, expected: f64) -> Example {
    let pairs = |v: &[f64]| v.iter().map(|&x| [x, 0.0]).collect();
    Example { alpha: [alpha, 0.0], a: pairs(a), b: pairs(b), beta: [beta, 0.0], c: [c, 0.0], expected: [expected, 0.0] }
}

fn check<K: Kind>(name: &str, e: &Example) {
    let convert = |x: [f64; 2]| x.map(K::R::of);
    let reals = |v: &[[f64; 2]]| -> Vec<K::R> { v.iter().flat_map(|x| convert(*x)[..K::WIDTH].to_vec()).collect() };
    let (a, b, old, expected) = (reals(&e.a), reals(&e.b), reals(&[e.c]), reals(&[e.expected]));
    let k = e.a.len();
    let line = Operand { base: 0, rs: 1, cs: 1 };
    let call = Call { m: 1, k, n: 1, alpha: convert(e.alpha), beta: convert(e.beta), la: line, lb: line, lc: line };
    let matches = |c: &[K::R]| c.iter().zip(&expected).all(|(x, y)| x.matches(*y));

    let (mut c, mut pack) = (old.clone(), vec![K::R::of(0.0); need::<K>(1, k, 1) * K::WIDTH]);
    assert_eq!(K::ours(&call, &a, &b, &mut c, &mut pack), 0, "{name} {}", K::NAME);
    assert!(matches(&c), "{name} {}: {c:?}", K::NAME);
    let modelled = model::after::<K>(&call, &a, &b, &old);
    assert!(matches(&modelled), "{name} {}, the model: {modelled:?}", K::NAME);
    let mut theirs = old.clone();
    // SAFETY: k elements in A and in B, one in C.
    unsafe { K::oracle(&call, &a, &b, &mut theirs) };
    assert!(matches(&theirs), "{name} {}, the oracle: {theirs:?}", K::NAME);
}

/// k zeros but for the places named.
fn sparse(k: usize, at: &[(usize, f64)]) -> Vec<f64> {
    let mut a = vec![0.0; k];
    for &(p, x) in at {
        a[p] = x;
    }
    a
}

#[test]
fn p1_to_p5_and_p10() {
    let examples = [
        ("P1", real(2.0, &[3.0], &[5.0], 0.0, NAN, 30.0)),
        ("P2", real(2.0, &[3.0], &[5.0], -0.0, INFINITE, 30.0)),
        ("P3", real(2.0, &[3.0], &[5.0], 1.0, 1.0, 31.0)),
        ("P4", real(1.0, &[], &[], 0.0, NAN, 0.0)),
        ("P5", real(1.0, &[], &[], 2.0, 3.0, 6.0)),
        ("P10", real(0.0, &[INFINITE], &[1.0], 0.0, 0.0, NAN)),
    ];
    for (name, example) in &examples {
        check::<S>(name, example);
        check::<D>(name, example);
    }
}

#[test]
fn p6_to_p9() {
    let large = 16_777_216.0;
    check::<S>("P6", &real(1.0, &[large, 1.0, 1.0], &[1.0; 3], 0.0, 0.0, large));
    let a = sparse(258, &[(0, large), (256, 1.0), (257, 1.0)]);
    check::<S>("P7", &real(1.0, &a, &[1.0; 258], 0.0, 0.0, 16_777_218.0));
    let a = sparse(257, &[(0, large), (255, 1.0), (256, 1.0)]);
    check::<S>("P8", &real(1.0, &a, &[1.0; 257], 0.0, 0.0, large));
    check::<D>("P9", &real(1.0, &[1.0; 257], &[1.0; 257], 2.0, 3.0, 263.0));
}

#[test]
fn p11_and_p12() {
    let p11 = Example {
        alpha: [0.0, 1.0],
        a: vec![[1.0, 2.0]],
        b: vec![[3.0, 4.0]],
        beta: [0.0, 0.0],
        c: [NAN, NAN],
        expected: [-10.0, -5.0],
    };
    let p12 = Example {
        alpha: [1.0, 0.0],
        a: vec![],
        b: vec![],
        beta: [1.0, 0.0],
        c: [0.0, INFINITE],
        expected: [NAN, INFINITE],
    };
    for (name, example) in [("P11", p11), ("P12", p12)] {
        check::<C>(name, &example);
        check::<Z>(name, &example);
    }
}

/// Numbers as elements of a kind.
fn elements<K: Kind>(numbers: &[f64]) -> Vec<K::R> {
    numbers.iter().flat_map(|&x| [K::R::of(x), K::R::of(0.0)][..K::WIDTH].to_vec()).collect()
}

/// C = A B with A and B row by row and a pack buffer of the need. The answer, and C afterwards.
fn product<K: Kind>([m, k, n]: [usize; 3], a: &[f64], b: &[f64], c: &[f64], lc: Operand) -> (u32, Vec<K::R>) {
    let (la, lb) = (Operand { base: 0, rs: k as isize, cs: 1 }, Operand { base: 0, rs: n as isize, cs: 1 });
    let (zero, one) = (K::R::of(0.0), K::R::of(1.0));
    let call = Call { m, k, n, alpha: [one, zero], beta: [zero; 2], la, lb, lc };
    let mut c = elements::<K>(c);
    let mut pack = vec![zero; need::<K>(m, k, n) * K::WIDTH];
    let answer = K::ours(&call, &elements::<K>(a), &elements::<K>(b), &mut c, &mut pack);
    (answer, c)
}

fn layouts<K: Kind>() {
    let o = |base, rs, cs| Operand { base, rs, cs };
    // C backwards
    let backwards = |base| product::<K>([3, 1, 1], &[1.0, 2.0, 3.0], &[1.0], &[9.0; 3], o(base, -1, 1));
    assert_eq!(backwards(2), (0, elements::<K>(&[3.0, 2.0, 1.0])), "{}", K::NAME);
    assert_eq!(backwards(1), (3, elements::<K>(&[9.0; 3])), "{}", K::NAME);
    // strides 1 and 2, and strides 2 and -2
    let ones = |m: usize, n: usize, size: usize, lc| product::<K>([m, 1, n], &vec![1.0; m], &vec![1.0; n], &vec![7.0; size], lc);
    assert_eq!(ones(3, 2, 5, o(0, 1, 2)), (4, elements::<K>(&[7.0; 5])), "{}", K::NAME);
    assert_eq!(ones(3, 2, 4, o(0, 1, 2)), (3, elements::<K>(&[7.0; 4])), "{}", K::NAME);
    assert_eq!(ones(2, 2, 4, o(0, 1, 2)), (0, elements::<K>(&[1.0; 4])), "{}", K::NAME);
    assert_eq!(ones(2, 2, 5, o(2, 2, -2)), (4, elements::<K>(&[7.0; 5])), "{}", K::NAME);
}

#[test]
fn layouts_of_c() {
    layouts::<S>();
    layouts::<D>();
    layouts::<C>();
    layouts::<Z>();
}

#[test]
fn need_of_9_300_5() {
    let (a, b) = (vec![1.0f32; 2700], vec![1.0f32; 1500]);
    let (la, lb) = (Operand { base: 0, rs: 300, cs: 1 }, Operand { base: 0, rs: 5, cs: 1 });
    let mut c = vec![7.0f32; 45];
    let lc = Operand { base: 0, rs: 5, cs: 1 };
    let mut call = |elements: usize| {
        hewnspandrel::sgemm(9, 300, 5, 1.0, &a, la, &b, lb, 0.0, &mut c, lc, &mut vec![0.0; elements]).map_err(|r| r.number())
    };
    assert_eq!(hewnspandrel::sgemm_need(9, 300, 5), Ok(6144));
    assert_eq!(call(6143), Err(7));
    assert_eq!(call(6144), Ok(()));
    assert_eq!(c, [300.0; 45]);
}

fn largest<K: Kind>(most: usize) {
    let refused = |m, k, n| K::need(m, k, n).map_err(|r| r.number());
    assert_eq!(refused(65_536, 65_536, 65_536), Ok(most), "{}", K::NAME);
    for sizes in [[65_537, 0, 0], [0, 65_537, 0], [0, 0, 65_537]] {
        assert_eq!(refused(sizes[0], sizes[1], sizes[2]), Err(1), "{} {sizes:?}", K::NAME);
    }
    // a call of no columns is done at 65,536 and refused at 65,537
    let o = Operand { base: 0, rs: 0, cs: 0 };
    let nothing = [K::R::of(0.0); 2];
    let call = Call { m: 65_536, k: 1, n: 0, alpha: nothing, beta: nothing, la: o, lb: o, lc: o };
    assert_eq!(K::ours(&call, &[], &[], &mut [], &mut []), 0, "{}", K::NAME);
    assert_eq!(K::ours(&Call { m: 65_537, ..call }, &[], &[], &mut [], &mut []), 1, "{}", K::NAME);
}

#[test]
fn sizes_at_the_limit() {
    largest::<S>(278_528);
    largest::<D>(278_528);
    largest::<C>(139_264);
    largest::<Z>(139_264);
}
