//! The workspace: it answers as the functions do with a buffer that is long enough, and takes no more memory than it must.

use hewnspandrel::{cgemm, cgemm_need, dgemm, dgemm_need, sgemm, sgemm_need, zgemm, zgemm_need};
use hewnspandrel::{Operand, Refusal, Workspace, CGEMM_MAX_NEED, DGEMM_MAX_NEED, SGEMM_MAX_NEED, ZGEMM_MAX_NEED};

#[test]
fn the_largest_needs() {
    let most = 65_536;
    assert_eq!(sgemm_need(most, most, most), Ok(SGEMM_MAX_NEED));
    assert_eq!(dgemm_need(most, most, most), Ok(DGEMM_MAX_NEED));
    assert_eq!(cgemm_need(most, most, most), Ok(CGEMM_MAX_NEED));
    assert_eq!(zgemm_need(most, most, most), Ok(ZGEMM_MAX_NEED));
    assert_eq!([SGEMM_MAX_NEED, DGEMM_MAX_NEED, CGEMM_MAX_NEED, ZGEMM_MAX_NEED], [278_528, 278_528, 139_264, 139_264]);
}

macro_rules! as_the_function {
    ($test:ident, $call:ident, $need:ident, $real:ty, $width:expr, $max:expr, $alpha:expr, $beta:expr) => {
        /// Sizes up and down, faults among them: the answer, C and the buffer's length.
        #[test]
        fn $test() {
            let mut workspace = Workspace::<$real>::new();
            let mut longest = 0;
            let sizes = [(1, 1, 1), (9, 300, 5), (2, 3, 4), (0, 5, 5), (5, 0, 5), (5, 5, 0), (70, 260, 33), (65_537, 0, 1)];
            for ((m, k, n), fault) in sizes.into_iter().flat_map(|s| (0..7).map(move |fault| (s, fault))) {
                let values = |reals: usize| (0..reals).map(|i| (i * 7919 % 13) as $real - 6.5).collect::<Vec<_>>();
                let (mut la, lb, mut lc) = (Operand::row_major(k), Operand::column_major(k), Operand::row_major(n));
                let (a, b) = (values($width * 70 * k), values(($width * k * n).saturating_sub(usize::from(fault == 6))));
                let mut c = values($width * 70 * n);
                match fault {
                    2 => la.rs = isize::MIN,
                    3 => lc.base = usize::MAX,
                    4 => lc.rs = 0,
                    5 => la.base = a.len() / $width,
                    _ => (),
                }
                let mut expected = c.clone();
                let mut pack = vec![0.0; $width * $max];
                let answer = $call(m, k, n, $alpha, &a, la, &b, lb, $beta, &mut expected, lc, &mut pack);
                assert_eq!(workspace.$call(m, k, n, $alpha, &a, la, &b, lb, $beta, &mut c, lc), answer, "{m} {k} {n} {fault}");
                assert_eq!(c, expected, "{m} {k} {n} {fault}");
                if answer.is_ok() {
                    longest = longest.max($width * $need(m, k, n).unwrap());
                }
                assert_eq!(workspace.reals(), longest, "{m} {k} {n} {fault}");
            }
        }
    };
}

as_the_function!(sgemm_as_the_function, sgemm, sgemm_need, f32, 1, SGEMM_MAX_NEED, 0.75, 2.0);
as_the_function!(dgemm_as_the_function, dgemm, dgemm_need, f64, 1, DGEMM_MAX_NEED, 0.75, 2.0);
as_the_function!(cgemm_as_the_function, cgemm, cgemm_need, f32, 2, CGEMM_MAX_NEED, [0.75, 1.0], [2.0, -1.0]);
as_the_function!(zgemm_as_the_function, zgemm, zgemm_need, f64, 2, ZGEMM_MAX_NEED, [0.75, 1.0], [2.0, -1.0]);

/// Each refusal but the last, and none of them takes memory.
#[test]
fn a_refused_call_takes_no_memory() {
    let (mut workspace, l) = (Workspace::<f64>::new(), Operand::row_major(2));
    let far = Operand { cs: isize::MAX, ..l };
    let v = [1.0; 4];
    let mut call = |m, la, a: &[f64], b: &[f64], c: &mut [f64], lc| workspace.dgemm(m, 2, 2, 1.0, a, la, b, l, 0.0, c, lc);
    assert_eq!(call(65_537, l, &v, &v, &mut [0.0; 4], l), Err(Refusal::TooLarge));
    assert_eq!(call(2, far, &v, &v, &mut [0.0; 4], l), Err(Refusal::TooFar));
    assert_eq!(call(2, l, &v, &v, &mut [0.0; 3], l), Err(Refusal::OutsideC));
    assert_eq!(call(2, l, &v, &v, &mut [0.0; 4], Operand { rs: 1, ..l }), Err(Refusal::CollidesC));
    assert_eq!(call(2, l, &v[1..], &v, &mut [0.0; 4], l), Err(Refusal::OutsideA));
    assert_eq!(call(2, l, &v, &v[1..], &mut [0.0; 4], l), Err(Refusal::OutsideB));
    assert_eq!(call(0, l, &[], &[], &mut [], l), Ok(()));
    assert_eq!(workspace.reals(), 0);
}

#[test]
fn the_buffer_itself() {
    let mut workspace = Workspace::<f32>::with_reals(10);
    assert_eq!((workspace.reals(), workspace.pack(4).len()), (10, 4));
    workspace.pack(10)[9] = 5.0;
    // what was there may go when it grows, and stays when it does not
    assert_eq!((workspace.pack(10)[9], workspace.reals()), (5.0, 10));
    assert_eq!((workspace.pack(11).len(), workspace.pack(0).len(), workspace.reals()), (11, 0, 11));
    assert_eq!(format!("{:?}", workspace.clone()), "Workspace { reals: 11 }");
    assert_eq!(Workspace::<f64>::default().reals(), 0);
    static EMPTY: Workspace<f64> = Workspace::new();
    assert_eq!(EMPTY.reals(), 0);
}
