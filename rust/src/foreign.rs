//! The C interface of the proved library, as include/hewnspandrel.h declares it. A slice is a pointer and its number of elements.

use crate::Operand;

extern "C" {
    /// Named after the interface's version, so that an archive with another one does not link with this crate.
    fn hewn_interface_3() -> u64;
}

/// Has the linker look for the interface's version. Each function of this crate calls it before it calls the archive: no
/// optimiser can leave out a call to foreign code, as it can a mere mention of its name.
#[inline]
pub fn same_interface() {
    // SAFETY: numbers only.
    unsafe { hewn_interface_3() };
}

/// A complex number, by value.
#[repr(C)]
pub struct Complex<R> {
    pub re: R,
    pub im: R,
}

impl<R> From<[R; 2]> for Complex<R> {
    fn from([re, im]: [R; 2]) -> Self {
        Complex { re, im }
    }
}

/// The answer to the question for the need: 0 and the length, or 1 and no length.
#[repr(C)]
pub struct Length {
    pub answer: u64,
    pub elements: usize,
}

/// The answer to a read: 0 and what the file's head says, or the refusal's number and zeros.
#[repr(C)]
pub struct Head {
    pub answer: u64,
    pub version: u16,
    pub rows: u16,
    pub columns: u16,
}

/// The answer to the question for an element: 0 and the element, or the refusal's number and a NaN.
#[repr(C)]
pub struct Element<R> {
    pub answer: u64,
    pub element: R,
}

macro_rules! declare {
    ($call:ident, $need:ident, $real:ty, $number:ty) => {
        extern "C" {
            pub fn $call(
                m: usize, k: usize, n: usize, alpha: $number,
                a: *const $real, a_len: usize, la: Operand,
                b: *const $real, b_len: usize, lb: Operand, beta: $number,
                c: *mut $real, c_len: usize, lc: Operand,
                pack: *mut $real, pack_len: usize,
            ) -> u64;
            pub fn $need(m: usize, k: usize, n: usize) -> Length;
        }
    };
}

declare!(hewn_sgemm, hewn_sgemm_need, f32, f32);
declare!(hewn_dgemm, hewn_dgemm_need, f64, f64);
declare!(hewn_cgemm, hewn_cgemm_need, f32, Complex<f32>);
declare!(hewn_zgemm, hewn_zgemm_need, f64, Complex<f64>);

/// The file and the numbers that its panel is read into.
pub type Read<R> = unsafe extern "C" fn(file: *const u8, file_len: usize, numbers: *mut R, numbers_len: usize) -> Head;

/// A panel's numbers and shape, and a place.
pub type ElementAt<R> = unsafe extern "C" fn(
    numbers: *const R, numbers_len: usize, rows: u16, columns: u16, row: usize, column: usize,
) -> Element<R>;

macro_rules! declare_panel {
    ($read:ident, $element:ident, $real:ty) => {
        extern "C" {
            pub fn $read(file: *const u8, file_len: usize, numbers: *mut $real, numbers_len: usize) -> Head;
            pub fn $element(
                numbers: *const $real, numbers_len: usize, rows: u16, columns: u16, row: usize, column: usize,
            ) -> Element<$real>;
        }
    };
}

declare_panel!(hewn_read_f32, hewn_panel_element_f32, f32);
declare_panel!(hewn_read_f64, hewn_panel_element_f64, f64);
