//! ndarray's `general_mat_mul`, and the same product by ours beside it: the same bits, NaN matching NaN. They are the same because
//! this crate builds ndarray without `std`: with it matrixmultiply may take kernels that fuse, whose bits differ.
//!
//!     rust/compare/cargo run --release --example ndarray

use hewnspandrel::{Operand, Refusal, Workspace};
use ndarray::linalg::general_mat_mul;
use ndarray::{s, Array2, ArrayView2};
use num_complex::Complex;

/// A view's operand in the slice of the array that it was cut from. A wrong slice is a wrong base, and no more than that: the
/// call looks at no element outside the slices that it is lent.
fn operand<T>(view: &ArrayView2<T>, slice: &[T]) -> Operand {
    let bytes = (view.as_ptr() as usize).wrapping_sub(slice.as_ptr() as usize);
    Operand { base: bytes / size_of::<T>(), rs: view.strides()[0], cs: view.strides()[1] }
}

/// num_complex's numbers as the reals that they are.
fn reals(z: &[Complex<f64>]) -> &[f64] {
    // SAFETY: num_complex promises that a Complex<f64> lies in memory as [f64; 2] does; the lifetime is that of z.
    unsafe { std::slice::from_raw_parts(z.as_ptr().cast(), 2 * z.len()) }
}

fn reals_mut(z: &mut [Complex<f64>]) -> &mut [f64] {
    // SAFETY: as above, and z is borrowed for as long; any two f64 are a Complex<f64>.
    unsafe { std::slice::from_raw_parts_mut(z.as_mut_ptr().cast(), 2 * z.len()) }
}

fn same(theirs: f64, ours: f64) -> bool {
    theirs.to_bits() == ours.to_bits() || theirs.is_nan() && ours.is_nan()
}

/// Each second row of A, times B transposed, onto C from its last row up.
fn real(workspace: &mut Workspace<f64>) -> Result<(), Refusal> {
    let a = Array2::from_shape_fn((9, 300), |(i, p)| 1.0 / (i + 2 * p + 3) as f64);
    let mut b = Array2::from_shape_fn((4, 300), |(j, p)| 0.1 * p as f64 - j as f64);
    b[[3, 299]] = f64::NAN;
    let mut theirs = Array2::from_elem((5, 4), 0.3);
    let mut ours = theirs.clone();

    let (a_view, b_view) = (a.slice(s![..;2, ..]), b.t());
    general_mat_mul(0.7, &a_view, &b_view, 1.5, &mut theirs.slice_mut(s![..;-1, ..]));

    let (a, b) = (a.as_slice().unwrap(), b.as_slice().unwrap());
    let lc = operand(&ours.slice(s![..;-1, ..]), ours.as_slice().unwrap());
    let c = ours.as_slice_mut().unwrap();
    workspace.dgemm(5, 300, 4, 0.7, a, operand(&a_view, a), b, operand(&b_view, b), 1.5, c, lc)?;

    assert!(theirs.iter().zip(&ours).all(|(&x, &y)| same(x, y)));
    println!("dgemm: {} elements as ndarray's, {} of them NaN", ours.len(), ours.iter().filter(|x| x.is_nan()).count());
    Ok(())
}

/// The lower right part of a complex A, times B.
fn complex(workspace: &mut Workspace<f64>) -> Result<(), Refusal> {
    let a = Array2::from_shape_fn((7, 260), |(i, p)| Complex::new(1.0 / (p + 1) as f64, i as f64));
    let b = Array2::from_shape_fn((257, 3), |(p, j)| Complex::new(0.1 * j as f64, 1.0 / (p + 7) as f64));
    let mut theirs = Array2::from_elem((5, 3), Complex::new(f64::NAN, 0.0));
    let mut ours = theirs.clone();
    let alpha = Complex::new(0.7, -0.2);

    let part = a.slice(s![2.., 3..]);
    general_mat_mul(alpha, &part, &b, Complex::new(0.0, 0.0), &mut theirs);

    let la = operand(&part, a.as_slice().unwrap());
    let (a, b, rows) = (reals(a.as_slice().unwrap()), reals(b.as_slice().unwrap()), Operand::row_major(3));
    let c = reals_mut(ours.as_slice_mut().unwrap());
    workspace.zgemm(5, 257, 3, [alpha.re, alpha.im], a, la, b, rows, [0.0, 0.0], c, rows)?;

    assert!(theirs.iter().zip(&ours).all(|(x, y)| same(x.re, y.re) && same(x.im, y.im)));
    println!("zgemm: {} elements as ndarray's", ours.len());
    Ok(())
}

fn main() -> Result<(), Refusal> {
    let mut workspace = Workspace::new();
    real(&mut workspace)?;
    complex(&mut workspace)
}
