//! General matrix multiplication, C ← α A B + β C, for f32, f64 and complex matrices, and panels of numbers read from files,
//! from a library that is proved in Rattle. The bits of a product are those of the crate matrixmultiply 0.3.11 where that
//! fuses nothing, which is tested, as this crate around the library is. For x86-64 Linux.
//!
//! Any sizes, strides, bases and slices get an answer: the call is done, or it is refused with the first [`Refusal`] that
//! applies, and then nothing has been stored in C or in the pack buffer. No call panics.
//!
//! # Operands
//!
//! Each of A (m by k), B (k by n) and C (m by n) is a slice and an [`Operand`]: the element where place (0,0) lies, and the
//! two strides. Strides may be negative; those of A and B may be zero. In the slices of [`cgemm`] and [`zgemm`] a complex
//! element is two neighbouring reals, real part first; bases and strides count whole elements, and a lone last real is
//! never touched. The sizes come in matrixmultiply's order, m, k, n, and not in that of BLAS.
//!
//! A stride is stepped along where its axis has two or more entries: m for A's and C's row strides, k for A's column
//! and B's row stride, n for B's and C's column strides. There its magnitude may be 2,147,483,648 at most. The sizes alone
//! decide: with m = 0 and k = 2, A's column stride is judged, though A has no element. Along one entry or none a stride may
//! be any `isize`, as array tools give them to a panel of one row:
//!
//! ```
//! use hewnspandrel::{Operand, Refusal, Workspace};
//! let (a, b, mut c) = ([1.0, 2.0], [3.0, 4.0], [0.0]);
//! let (row, column) = (Operand { base: 0, rs: 1 << 40, cs: 1 }, Operand::row_major(1));
//! let mut workspace = Workspace::<f64>::new();
//! workspace.dgemm(1, 2, 1, 1.0, &a, row, &b, column, 0.0, &mut c, row)?;
//! assert_eq!(c, [11.0]);
//! // two rows of it
//! assert_eq!(workspace.dgemm(2, 2, 1, 1.0, &a, row, &b, column, 0.0, &mut c, row), Err(Refusal::TooFar));
//! # Ok::<(), hewnspandrel::Refusal>(())
//! ```
//!
//! # The pack buffer
//!
//! The caller lends the memory that A and B are packed into, at least as many elements as [`sgemm_need`] and its siblings
//! say (two reals each for the complex kinds). Its first need elements hold anything afterwards; the others are unchanged.
//! A [`Workspace`] owns such a buffer and lets it grow.
//!
//! # Slices of complex numbers
//!
//! Pairs are lent as they are, by the standard library's `as_flattened`:
//!
//! ```
//! use hewnspandrel::{Operand, Workspace};
//! let one = Operand::row_major(1);
//! let (a, b, mut c) = ([[0.0, 1.0]], [[2.0, 3.0]], [[0.0; 2]]);
//! Workspace::<f64>::new().zgemm(
//!     1, 1, 1, [1.0, 0.0], a.as_flattened(), one, b.as_flattened(), one, [0.0, 0.0], c.as_flattened_mut(), one,
//! )?;
//! assert_eq!(c, [[-3.0, 2.0]]);
//! # Ok::<(), hewnspandrel::Refusal>(())
//! ```
//!
//! A slice of a record of two reals, as num_complex's `Complex<f64>`, takes one conversion. It is sound for a record that
//! is `#[repr(C)]` and has two fields of that real and nothing else, so that it lies in memory as a pair does:
//!
//! ```
//! #[repr(C)] // as num_complex declares it
//! pub struct Complex<T> {
//!     pub re: T,
//!     pub im: T,
//! }
//!
//! pub fn reals(z: &[Complex<f64>]) -> &[f64] {
//!     // SAFETY: a Complex<f64> is two f64 without padding, aligned as an f64; the lifetime is that of z.
//!     unsafe { std::slice::from_raw_parts(z.as_ptr().cast(), 2 * z.len()) }
//! }
//!
//! pub fn reals_mut(z: &mut [Complex<f64>]) -> &mut [f64] {
//!     // SAFETY: as above, and z is borrowed for as long; any two f64 are a Complex<f64>.
//!     unsafe { std::slice::from_raw_parts_mut(z.as_mut_ptr().cast(), 2 * z.len()) }
//! }
//! # let mut z = [Complex { re: 1.0, im: 2.0 }, Complex { re: 3.0, im: 4.0 }];
//! # reals_mut(&mut z)[2] = 5.0;
//! # assert_eq!(reals(&z), [1.0, 2.0, 5.0, 4.0]);
//! # assert_eq!((z[1].re, z[1].im), (5.0, 4.0));
//! ```
//!
//! # Panels from files
//!
//! [`read_panel_f32`] and [`read_panel_f64`] read a panel file into numbers that the caller lends. All numbers of a file
//! are little-endian:
//!
//! | bytes | |
//! |---|---|
//! | 0 to 2 | the mark `IVP` |
//! | 3 and 4 | the version, 1 |
//! | 5 | the kind: 1 for f32, 2 for f64 |
//! | 6 and 7 | rows |
//! | 8 and 9 | columns |
//! | from 10 on | the elements, row by row, and nothing more |
//!
//! A file whose head is not right, that is too short or too long, or not of the kind asked for is refused, and the numbers
//! are as they were. It has no checksum: a byte that was changed among the elements is not noticed. A [`Panel`] holds
//! numbers together with their shape:
//!
//! ```
//! use hewnspandrel::{read_panel_f64, Operand, Panel, Workspace};
//! # let file = [b"IVP\x01\0\x02\x01\0\x02\0".as_slice(), &3.0f64.to_le_bytes(), &4.0f64.to_le_bytes()].concat();
//! let mut numbers = vec![0.0; file.len() / 8];
//! let shape = read_panel_f64(&file, &mut numbers)?.shape;
//! let row = Panel { numbers: &numbers, rows: shape.rows, columns: shape.columns };
//! assert_eq!((row.element(0, 0), row.element(0, 1)), (Ok(3.0), Ok(4.0)));
//! // the panel times its transpose
//! let (m, k, l) = (shape.rows.into(), shape.columns.into(), Operand::row_major(shape.columns.into()));
//! let mut squares = vec![0.0; m * m];
//! Workspace::<f64>::new()
//!     .dgemm(m, k, m, 1.0, &numbers, l, &numbers, l.transposed(), 0.0, &mut squares, Operand::row_major(m))?;
//! assert_eq!(squares, [25.0]);
//! # Ok::<(), hewnspandrel::Refusal>(())
//! ```
//!
//! # What a mutable slice rules out
//!
//! C and the pack buffer are `&mut`, so nothing that a call reads can overlap them:
//!
//! ```compile_fail,E0502
//! use hewnspandrel::{sgemm, Operand};
//! let mut c = [0.0f32; 4];
//! let l = Operand::row_major(2);
//! sgemm(2, 2, 2, 1.0, &c, l, &[1.0; 4], l, 0.0, &mut c, l, &mut [0.0; 32]).unwrap();
//! ```
//!
//! # The floating-point environment
//!
//! The bits are those of rounding to nearest, with subnormal numbers kept, as a Rust program has it. Where a thread has
//! set another rounding mode, or flushes subnormal numbers to zero (a program that gcc or clang links with `-ffast-math` does
//! so from its start), C may get other bits.
#![deny(missing_docs, improper_ctypes)]
#![warn(clippy::undocumented_unsafe_blocks, clippy::missing_errors_doc)]

mod calls;
mod foreign;
mod operand;
mod panel;
mod real;
mod refusal;
mod workspace;

pub use calls::{cgemm, cgemm_need, CGEMM_MAX_NEED};
pub use calls::{dgemm, dgemm_need, DGEMM_MAX_NEED};
pub use calls::{sgemm, sgemm_need, SGEMM_MAX_NEED};
pub use calls::{zgemm, zgemm_need, ZGEMM_MAX_NEED};
pub use operand::Operand;
pub use panel::{read_panel_f32, read_panel_f64, Header, Panel, Shape};
pub use real::Real;
pub use refusal::Refusal;
pub use workspace::Workspace;

/// The README's examples are compiled and run with the others.
#[cfg(doctest)]
#[doc = include_str!("../../README.md")]
struct Readme;

/// So are the guide's.
#[cfg(doctest)]
#[doc = include_str!("../../docs/GUIDE.md")]
struct Guide;
