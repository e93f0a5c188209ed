/// Where place (0,0) of a matrix lies in its slice, and the two strides, in whole elements. Place (i,j) is the element
/// base + i rs + j cs, counted in whole numbers: nothing wraps. A stride along fewer than two entries is not stepped
/// along, and may be any `isize`.
///
/// ```
/// use hewnspandrel::Operand;
/// // a matrix of 3 columns, row by row, and the same slice read as its transpose
/// let rows = Operand::row_major(3);
/// assert_eq!(rows, Operand { base: 0, rs: 3, cs: 1 });
/// assert_eq!(rows.transposed(), Operand { base: 0, rs: 1, cs: 3 });
/// // the same matrix from its second row on
/// assert_eq!(rows.from_place(1, 0), Some(Operand { base: 3, ..rows }));
/// // each second row of it, from the last of five up
/// assert_eq!(Operand { rs: -6, ..rows.from_place(4, 0).unwrap() }, Operand { base: 12, rs: -6, cs: 1 });
/// ```
#[derive(Clone, Copy, Debug, PartialEq, Eq)]
#[repr(C)]
pub struct Operand {
    /// The element of place (0,0).
    pub base: usize,
    /// Row stride: from one row to the next.
    pub rs: isize,
    /// Column stride: from one column to the next.
    pub cs: isize,
}

impl Operand {
    /// A matrix of so many columns, row by row without gaps, from its slice's first element on.
    ///
    /// A number of columns that is no `isize` gives the row stride `isize::MAX`. With two or more rows that is refused
    /// as the number itself would be, with [`Refusal::TooFar`](crate::Refusal::TooFar). With one row nobody steps along
    /// it.
    #[must_use]
    pub const fn row_major(columns: usize) -> Operand {
        Operand { base: 0, rs: stride(columns), cs: 1 }
    }

    /// A matrix of so many rows, column by column without gaps, from its slice's first element on.
    ///
    /// A number of rows that is no `isize` gives the column stride `isize::MAX`, which is refused with two or more
    /// columns, as with [`Operand::row_major`].
    #[must_use]
    pub const fn column_major(rows: usize) -> Operand {
        Operand { base: 0, rs: 1, cs: stride(rows) }
    }

    /// The transpose: place (i,j) is this operand's place (j,i).
    #[must_use]
    pub const fn transposed(self) -> Operand {
        Operand { base: self.base, rs: self.cs, cs: self.rs }
    }

    /// The part from place (i,j) on: its place (0,0) is this operand's place (i,j). `None` where that place is negative or
    /// no `usize`; whether it lies in a slice is for the call to say.
    ///
    /// ```
    /// use hewnspandrel::Operand;
    /// let up = Operand { base: 4, rs: -2, cs: 1 };
    /// assert_eq!(up.from_place(2, 1), Some(Operand { base: 1, ..up }));
    /// assert_eq!(up.from_place(3, 1), None);
    /// ```
    #[must_use]
    #[allow(clippy::wrong_self_convention)]
    pub const fn from_place(self, i: usize, j: usize) -> Option<Operand> {
        // Each product is below 2^127 in magnitude, and so is the first sum. A second sum that is not is no usize either.
        let row = self.base as i128 + i as i128 * self.rs as i128;
        match row.checked_add(j as i128 * self.cs as i128) {
            Some(place) if 0 <= place && place <= usize::MAX as i128 => Some(Operand { base: place as usize, ..self }),
            _ => None,
        }
    }
}

/// The number as a stride, or the largest stride.
const fn stride(elements: usize) -> isize {
    if elements > isize::MAX as usize {
        isize::MAX
    } else {
        elements as isize
    }
}
