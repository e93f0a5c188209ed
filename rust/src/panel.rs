use crate::{foreign, Real, Refusal};

/// How many rows and columns a panel has.
#[derive(Clone, Copy, Debug, PartialEq, Eq, Hash)]
pub struct Shape {
    /// The number of rows.
    pub rows: u16,
    /// The number of columns.
    pub columns: u16,
}

/// What the head of a panel file says. A later version may say more.
#[derive(Clone, Copy, Debug, PartialEq, Eq, Hash)]
#[non_exhaustive]
pub struct Header {
    /// The version of the file's layout: 1.
    pub version: u16,
    /// The panel's rows and columns.
    pub shape: Shape,
}

/// Borrowed numbers with their shape, row by row: place (row, column) is the number row × columns + column, counted in whole
/// numbers. There may be fewer numbers than places, or more.
///
/// ```
/// use hewnspandrel::{Panel, Refusal, Shape};
/// let panel = Panel { numbers: &[1.0, 2.0, 3.0, 4.0, 5.0], rows: 2, columns: 3 };
/// assert_eq!(panel.shape(), Shape { rows: 2, columns: 3 });
/// assert_eq!(panel.element(1, 0), Ok(4.0));
/// // a third row; a fourth column; the sixth number
/// for (row, column) in [(2, 0), (0, 3), (1, 2)] {
///     assert_eq!(panel.element(row, column), Err(Refusal::OutsidePanel));
/// }
/// ```
#[derive(Clone, Copy, Debug, PartialEq)]
pub struct Panel<'a, T> {
    /// The elements, row by row.
    pub numbers: &'a [T],
    /// The number of rows.
    pub rows: u16,
    /// The number of columns.
    pub columns: u16,
}

impl<T: Real> Panel<'_, T> {
    /// The panel's rows and columns.
    #[must_use]
    pub const fn shape(&self) -> Shape {
        Shape { rows: self.rows, columns: self.columns }
    }

    /// The element at a place. A NaN may come with another pattern than it has among the numbers.
    ///
    /// # Errors
    ///
    /// [`Refusal::OutsidePanel`] where the place is outside the shape or beyond the numbers.
    pub fn element(&self, row: usize, column: usize) -> Result<T, Refusal> {
        foreign::same_interface();
        let Panel { numbers, rows, columns } = *self;
        // SAFETY: pointer and length are one valid slice; the proved function requires nothing else of its caller.
        let answer = unsafe { T::ELEMENT(numbers.as_ptr(), numbers.len(), rows, columns, row, column) };
        Refusal::of_answer(answer.answer).map(|()| answer.element)
    }
}

fn read<T: Real>(file: &[u8], numbers: &mut [T]) -> Result<Header, Refusal> {
    foreign::same_interface();
    // SAFETY: each pointer and length is one valid slice; numbers is `&mut`, so it does not overlap the file; the proved
    // function requires nothing else of its caller.
    let head = unsafe { T::READ(file.as_ptr(), file.len(), numbers.as_mut_ptr(), numbers.len()) };
    let shape = Shape { rows: head.rows, columns: head.columns };
    Refusal::of_answer(head.answer).map(|()| Header { version: head.version, shape })
}

/// Reads a panel file of f32. The first rows × columns of `numbers` become its elements, row by row; the others keep their
/// bits. A NaN is read as a NaN, whose pattern may be another.
///
/// The file is to be exactly as long as its rows and columns say; `file.len() / 4` numbers have room for it.
///
/// ```
/// use hewnspandrel::{read_panel_f32, Refusal, Shape};
/// // version 1, kind 1, 1 row, 2 columns; 0.5 and -2.0
/// let file = b"IVP\x01\0\x01\x01\0\x02\0\0\0\0\x3F\0\0\0\xC0";
/// let mut numbers = [9.0; 3];
/// let header = read_panel_f32(file, &mut numbers)?;
/// assert_eq!((header.version, header.shape), (1, Shape { rows: 1, columns: 2 }));
/// assert_eq!(numbers, [0.5, -2.0, 9.0]);
/// // a byte was lost
/// assert_eq!(read_panel_f32(&file[..17], &mut numbers), Err(Refusal::WrongLength));
/// # Ok::<(), hewnspandrel::Refusal>(())
/// ```
///
/// # Errors
///
/// The first [`Refusal`] that applies, from [`Refusal::FileShort`] to [`Refusal::NoRoom`]; `numbers` is as it was then.
pub fn read_panel_f32(file: &[u8], numbers: &mut [f32]) -> Result<Header, Refusal> {
    read(file, numbers)
}

/// Reads a panel file of f64. The first rows × columns of `numbers` become its elements, row by row; the others keep their
/// bits. A NaN is read as a NaN, whose pattern may be another.
///
/// The file is to be exactly as long as its rows and columns say; `file.len() / 8` numbers have room for it.
///
/// ```
/// use hewnspandrel::{read_panel_f64, Panel, Refusal};
/// // version 1, kind 2, 2 rows, 1 column
/// let mut file = b"IVP\x01\0\x02\x02\0\x01\0".to_vec();
/// file.extend([0.5f64, -2.0].map(f64::to_le_bytes).as_flattened());
/// let mut numbers = vec![0.0; file.len() / 8];
/// let shape = read_panel_f64(&file, &mut numbers)?.shape;
/// let panel = Panel { numbers: &numbers, rows: shape.rows, columns: shape.columns };
/// assert_eq!(panel.element(1, 0), Ok(-2.0));
/// // it is no file of f32
/// assert_eq!(hewnspandrel::read_panel_f32(&file, &mut [0.0; 9]), Err(Refusal::WrongKind));
/// # Ok::<(), hewnspandrel::Refusal>(())
/// ```
///
/// # Errors
///
/// The first [`Refusal`] that applies, from [`Refusal::FileShort`] to [`Refusal::NoRoom`]; `numbers` is as it was then.
pub fn read_panel_f64(file: &[u8], numbers: &mut [f64]) -> Result<Header, Refusal> {
    read(file, numbers)
}
