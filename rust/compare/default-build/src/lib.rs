//! matrixmultiply as its users have it: the default build, which asks the processor and takes kernels that fuse and vectorise. It is a library
//! of its own, opened at run time, because cargo builds a crate once in a program, and the oracle there must not ask the processor.

use matrixmultiply::CGemmOption::Standard;

macro_rules! export {
    ($name:ident, $gemm:ident, $real:ty, $element:ty, $number:expr, [$($flag:expr),*]) => {
        /// Sizes m, k and n; the parts of alpha, then of beta; row and column strides of A, B and C; then the three matrices.
        ///
        /// # Safety
        /// As in the crate: every place lies in its matrix, and no two of C are the same element.
        #[no_mangle]
        pub unsafe extern "C" fn $name(
            sizes: &[usize; 3], numbers: &[[$real; 2]; 2], strides: &[[isize; 2]; 3], a: *const $real, b: *const $real, c: *mut $real,
        ) {
            let ([m, k, n], [alpha, beta]) = (*sizes, numbers.map($number));
            let [[rsa, csa], [rsb, csb], [rsc, csc]] = *strides;
            let (a, b, c) = (a as *const $element, b as *const $element, c as *mut $element);
            matrixmultiply::$gemm($($flag,)* m, k, n, alpha, a, rsa, csa, b, rsb, csb, beta, c, rsc, csc)
        }
    };
}

export!(default_sgemm, sgemm, f32, f32, |x: [f32; 2]| x[0], []);
export!(default_dgemm, dgemm, f64, f64, |x: [f64; 2]| x[0], []);
export!(default_cgemm, cgemm, f32, [f32; 2], |x: [f32; 2]| x, [Standard, Standard]);
export!(default_zgemm, zgemm, f64, [f64; 2], |x: [f64; 2]| x, [Standard, Standard]);
