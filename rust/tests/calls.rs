//! What a caller sees, without the oracle: every refusal, empty slices, A and B in one slice, the need.

use hewnspandrel::{cgemm, cgemm_need, dgemm, dgemm_need, sgemm, sgemm_need, zgemm, zgemm_need, Operand, Refusal};

const ROWS: Operand = Operand { base: 0, rs: 4, cs: 1 };

/// A 4 by 4 call of ones with one thing changed; a refused call leaves C and the pack buffer.
#[allow(clippy::too_many_arguments)]
fn refused(expected: Refusal, m: usize, a: usize, b: usize, lb: Operand, c: usize, lc: Operand, pack: usize) {
    let ones = [1.0f32; 16];
    let (mut c_slice, mut pack_slice) = (vec![7.0f32; c], vec![8.0f32; pack]);
    let answer = sgemm(m, 4, 4, 1.0, &ones[..a], ROWS, &ones[..b], lb, 0.0, &mut c_slice, lc, &mut pack_slice);
    assert_eq!(answer, Err(expected));
    assert!(c_slice.iter().all(|&x| x == 7.0) && pack_slice.iter().all(|&x| x == 8.0), "{expected:?}");
}

#[test]
fn each_refusal() {
    assert_eq!(sgemm_need(4, 4, 4), Ok(48));
    refused(Refusal::TooLarge, 65_537, 16, 16, ROWS, 16, ROWS, 48);
    refused(Refusal::TooFar, 4, 16, 16, Operand { cs: isize::MIN, ..ROWS }, 16, ROWS, 48);
    refused(Refusal::OutsideC, 4, 16, 16, ROWS, 15, ROWS, 48);
    refused(Refusal::CollidesC, 4, 16, 16, ROWS, 16, Operand { rs: 3, ..ROWS }, 48);
    refused(Refusal::OutsideA, 4, 15, 16, ROWS, 16, ROWS, 48);
    refused(Refusal::OutsideB, 4, 16, 15, ROWS, 16, ROWS, 48);
    refused(Refusal::PackShort, 4, 16, 16, ROWS, 16, ROWS, 47);
}

#[test]
fn numbers_and_words() {
    let all = [
        Refusal::TooLarge,
        Refusal::TooFar,
        Refusal::OutsideC,
        Refusal::CollidesC,
        Refusal::OutsideA,
        Refusal::OutsideB,
        Refusal::PackShort,
        Refusal::FileShort,
        Refusal::WrongMark,
        Refusal::UnknownVersion,
        Refusal::WrongKind,
        Refusal::WrongLength,
        Refusal::NoRoom,
        Refusal::OutsidePanel,
    ];
    assert_eq!(all.map(Refusal::number), [1, 2, 3, 4, 5, 6, 7, 21, 22, 23, 24, 25, 26, 30]);
    let words = [
        "m, k or n is above 65,536",
        "a stride of A, B or C along an axis of two or more entries is above 2,147,483,648 in magnitude",
        "a place of C is outside C's slice",
        "two different places of C are the same element",
        "a place of A is outside A's slice",
        "a place of B is outside B's slice",
        "the pack buffer is shorter than the need",
        "the file has fewer than ten bytes",
        "the file does not begin with the mark IVP",
        "the file's version is not known",
        "the file's kind is not the one asked for",
        "the file's length is not what its rows and columns say",
        "the destination is shorter than the panel",
        "the place is outside the panel's shape or beyond its numbers",
    ];
    assert_eq!(all.map(|refusal| refusal.to_string()), words);
    let error: Box<dyn std::error::Error + Send + Sync> = Box::new(Refusal::PackShort);
    assert_eq!(error.to_string(), words[6]);
}

#[test]
fn empty_slices() {
    assert_eq!(dgemm(0, 5, 5, 1.0, &[], ROWS, &[], ROWS, 0.0, &mut [], ROWS, &mut []), Ok(()));
    assert_eq!(dgemm(1, 1, 1, 1.0, &[], ROWS, &[], ROWS, 0.0, &mut [], ROWS, &mut []), Err(Refusal::OutsideC));
    // depth zero: C becomes beta C, and A, B and the pack buffer are not looked at
    let mut c = [3.0f64];
    let nowhere = Operand { base: usize::MAX, ..ROWS };
    assert_eq!(dgemm(1, 0, 1, 1.0, &[], nowhere, &[], nowhere, 2.0, &mut c, ROWS, &mut []), Ok(()));
    assert_eq!(c, [6.0]);
}

/// A stride is judged along two or more entries only: rows, depth steps, columns.
#[test]
fn strides_nobody_steps_along() {
    let (row, column) = (Operand { rs: 1 << 40, ..ROWS }, Operand { cs: isize::MIN, ..ROWS });
    let (a, b, mut pack) = ([2.0; 6], [3.0; 6], vec![0.0; dgemm_need(2, 2, 2).unwrap()]);
    let mut call = |m, k, n, la, lb, c: &mut [f64], lc| dgemm(m, k, n, 1.0, &a, la, &b, lb, 0.0, c, lc, &mut pack);
    let mut c = [0.0; 6];
    assert_eq!(call(2, 1, 2, column, row, &mut c, Operand { rs: 2, ..ROWS }), Ok(()));
    assert_eq!(c, [6.0, 6.0, 6.0, 6.0, 0.0, 0.0]);
    assert_eq!(call(1, 2, 2, row, ROWS, &mut c, row), Ok(()));
    assert_eq!(c, [12.0, 12.0, 6.0, 6.0, 0.0, 0.0]);
    assert_eq!(call(2, 2, 1, ROWS, column, &mut c[1..], column), Ok(()));
    assert_eq!(c, [12.0, 12.0, 6.0, 6.0, 0.0, 12.0]);
    assert_eq!(call(2, 1, 1, row, ROWS, &mut c, ROWS), Err(Refusal::TooFar));
    assert_eq!(call(0, 2, 0, column, ROWS, &mut c, ROWS), Err(Refusal::TooFar));
    assert_eq!(call(1, 0, 2, row, column, &mut c, row), Err(Refusal::TooFar));
}

#[test]
fn one_slice_for_a_and_b() {
    let v = [1.0, 2.0, 3.0, 4.0];
    let l = Operand { base: 0, rs: 2, cs: 1 };
    let (mut c, mut pack) = ([0.0f64; 4], vec![0.0; dgemm_need(2, 2, 2).unwrap()]);
    dgemm(2, 2, 2, 1.0, &v, l, &v, l, 0.0, &mut c, l, &mut pack).unwrap();
    assert_eq!(c, [7.0, 10.0, 15.0, 22.0]);
}

#[test]
fn complex_arguments_arrive() {
    // 2i (1 + i)(3 - i) + (0 + i)(5 + 7i), where each part is its own
    let o = Operand { base: 0, rs: 1, cs: 1 };
    let expected = [-11.0, 13.0];
    let mut c = [5.0f32, 7.0, 9.0];
    let mut pack = vec![0.0; 2 * cgemm_need(1, 1, 1).unwrap()];
    cgemm(1, 1, 1, [0.0, 2.0], &[1.0, 1.0], o, &[3.0, -1.0], o, [0.0, 1.0], &mut c, o, &mut pack).unwrap();
    assert_eq!(c, [expected[0], expected[1], 9.0]);
    let mut z = [5.0f64, 7.0, 9.0];
    let mut pack = vec![0.0; 2 * zgemm_need(1, 1, 1).unwrap()];
    zgemm(1, 1, 1, [0.0, 2.0], &[1.0, 1.0], o, &[3.0, -1.0], o, [0.0, 1.0], &mut z, o, &mut pack).unwrap();
    assert_eq!(z, [expected[0] as f64, expected[1] as f64, 9.0]);
}
