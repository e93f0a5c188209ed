//! Panel files and the element at a place of a panel, step by step, as docs/GUIDE.md has them.

use crate::kind::Real;
use hewnspandrel::{Header, Refusal};

/// f32 or f64 as a file has it, and our reader.
pub trait Stored: Real + hewnspandrel::Real {
    /// The byte for the kind.
    const KIND: u8;
    const NAME: &'static str;
    /// Bytes of an element.
    const WIDTH: usize = (1 + Self::EXPONENT + Self::FRACTION) as usize / 8;
    fn ours(file: &[u8], numbers: &mut [Self]) -> Result<Header, Refusal>;
}

impl Stored for f32 {
    const KIND: u8 = 1;
    const NAME: &'static str = "f32";
    fn ours(file: &[u8], numbers: &mut [f32]) -> Result<Header, Refusal> {
        hewnspandrel::read_panel_f32(file, numbers)
    }
}

impl Stored for f64 {
    const KIND: u8 = 2;
    const NAME: &'static str = "f64";
    fn ours(file: &[u8], numbers: &mut [f64]) -> Result<Header, Refusal> {
        hewnspandrel::read_panel_f64(file, numbers)
    }
}

/// A little-endian number of so many bytes; bytes that a file does not have are zero.
fn number(file: &[u8], at: usize, width: usize) -> u64 {
    (at..at + width).rev().fold(0, |number, at| 256 * number + u64::from(*file.get(at).unwrap_or(&0)))
}

/// Version, rows and columns.
pub fn head(file: &[u8]) -> [u64; 3] {
    [3, 6, 8].map(|at| number(file, at, 2))
}

/// Whether each of the refusals 21 to 26 has a cause.
pub fn causes<R: Stored>(file: &[u8], room: usize) -> [bool; 6] {
    let [version, rows, columns] = head(file);
    [
        file.len() < 10,
        !file.starts_with(b"IVP"),
        version != 1,
        number(file, 5, 1) != u64::from(R::KIND),
        file.len() as u64 != 10 + R::WIDTH as u64 * rows * columns,
        (room as u64) < rows * columns,
    ]
}

/// The numbers after a read, and its answer: the head, or the first refusal that has a cause.
pub fn read<R: Stored>(file: &[u8], before: &[R]) -> (Vec<R>, Result<[u64; 3], u32>) {
    let mut numbers = before.to_vec();
    if let Some(first) = causes::<R>(file, before.len()).iter().position(|cause| *cause) {
        return (numbers, Err(21 + first as u32));
    }
    let [_, rows, columns] = head(file);
    for (i, x) in numbers.iter_mut().take((rows * columns) as usize).enumerate() {
        *x = R::of_bits(number(file, 10 + i * R::WIDTH, R::WIDTH));
    }
    (numbers, Ok(head(file)))
}

/// The element at a place, or refusal 30.
pub fn element<R: Real>(numbers: &[R], rows: u16, columns: u16, row: usize, column: usize) -> Result<R, u32> {
    if row >= rows.into() || column >= columns.into() {
        return Err(30);
    }
    let rest = numbers.chunks(columns.into()).nth(row);
    rest.and_then(|line| line.get(column)).copied().ok_or(30)
}
