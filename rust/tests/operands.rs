//! Operands made by name, extreme numbers among them.

use hewnspandrel::{sgemm, Operand, Refusal};

const fn o(base: usize, rs: isize, cs: isize) -> Operand {
    Operand { base, rs, cs }
}

// all of them can be constants
const ROWS: Operand = Operand::row_major(7);
const COLUMNS: Operand = Operand::column_major(7).transposed();
const PART: Option<Operand> = ROWS.from_place(2, 3);

#[test]
fn by_rows_and_by_columns() {
    assert_eq!((ROWS, COLUMNS, PART), (o(0, 7, 1), o(0, 7, 1), Some(o(17, 7, 1))));
    assert_eq!(Operand::row_major(0), o(0, 0, 1));
    assert_eq!(Operand::column_major(5), o(0, 1, 5));
    assert_eq!(o(3, -4, 5).transposed(), o(3, 5, -4));
    assert_eq!(o(3, isize::MIN, isize::MAX).transposed().transposed(), o(3, isize::MIN, isize::MAX));
}

#[test]
fn a_stride_never_wraps() {
    let most = isize::MAX;
    for size in [most as usize, most as usize + 1, usize::MAX] {
        assert_eq!(Operand::row_major(size), o(0, most, 1));
        assert_eq!(Operand::column_major(size), o(0, 1, most));
        // two rows are refused as with the size itself; of one nobody takes the step
        let la = Operand::row_major(size);
        let call = |m| sgemm(m, 1, 1, 1.0, &[1.0; 2], la, &[1.0], ROWS, 0.0, &mut [0.0; 8], ROWS, &mut [0.0; 16]);
        assert_eq!((call(2), call(1)), (Err(Refusal::TooFar), Ok(())));
    }
    assert_eq!(Operand::row_major(most as usize - 1), o(0, most - 1, 1));
}

#[test]
fn from_a_place() {
    assert_eq!(o(5, 10, -1).from_place(0, 0), Some(o(5, 10, -1)));
    assert_eq!(o(5, 10, -1).from_place(3, 5), Some(o(30, 10, -1)));
    assert_eq!(o(5, 10, -1).from_place(0, 5), Some(o(0, 10, -1)));
    assert_eq!(o(5, 10, -1).from_place(0, 6), None);
    assert_eq!(o(5, 10, -1).from_place(1, 6), Some(o(9, 10, -1)));
}

/// Both sides of each end of the machine's numbers.
#[test]
fn from_a_far_place() {
    const MOST: usize = usize::MAX;
    let base = |operand: Operand, i, j| operand.from_place(i, j).map(|part| part.base);
    assert_eq!(base(o(MOST, 0, 0), MOST, MOST), Some(MOST));
    assert_eq!(base(o(MOST, 1, 0), 1, 0), None);
    assert_eq!(base(o(MOST, 1, -1), 1, 1), Some(MOST));
    assert_eq!(base(o(MOST, 1, -1), MOST, MOST), Some(MOST));
    assert_eq!(base(o(0, 1, 1), MOST, 0), Some(MOST));
    assert_eq!(base(o(0, 1, 1), MOST, 1), None);
    assert_eq!(base(o(MOST, -1, 0), MOST, 0), Some(0));
    assert_eq!(base(o(MOST, -1, -1), MOST, 1), None);
    // 2 (2^63 - 1) is just below 2^64, 2 (2^63) just outside
    assert_eq!(base(o(1, isize::MAX, isize::MAX), 1, 1), Some(MOST));
    assert_eq!(base(o(2, isize::MAX, isize::MAX), 1, 1), None);
    assert_eq!(base(o(MOST, isize::MIN, 0), 1, 0), Some(MOST / 2));
    assert_eq!(base(o(MOST, isize::MIN, 0), 2, 0), None);
    // sums beyond 2^127
    assert_eq!(base(o(MOST, isize::MAX, isize::MAX), MOST, MOST), None);
    assert_eq!(base(o(MOST, isize::MIN, isize::MIN), MOST, MOST), None);
    assert_eq!(base(o(0, isize::MIN, isize::MIN), MOST, MOST), None);
    // products of which one takes the other back
    assert_eq!(base(o(5, isize::MAX, -isize::MAX), MOST, MOST), Some(5));
    assert_eq!(base(o(5, isize::MIN, isize::MAX), MOST, MOST), None);
    assert_eq!(base(o(MOST, isize::MIN, isize::MAX), MOST, MOST), Some(0));
}
