use crate::{foreign, Operand, Refusal};

macro_rules! kind {
    (
        $(#[$call_words:meta])* $call:ident, $(#[$need_words:meta])* $need:ident,
        $(#[$max_words:meta])* $max:ident = $most:expr,
        $foreign_call:ident, $foreign_need:ident, $real:ty, $number:ty
    ) => {
        $(#[$call_words])*
        ///
        /// # Errors
        ///
        /// The first [`Refusal`] that applies; nothing has been stored then, in C or in the pack buffer.
        #[allow(clippy::too_many_arguments)]
        pub fn $call(
            m: usize, k: usize, n: usize, alpha: $number,
            a: &[$real], la: Operand, b: &[$real], lb: Operand, beta: $number,
            c: &mut [$real], lc: Operand, pack: &mut [$real],
        ) -> Result<(), Refusal> {
            foreign::same_interface();
            // SAFETY: each pointer and length is one valid slice; c and pack are `&mut`, so they overlap nothing; the
            // proved function requires nothing else of its caller.
            Refusal::of_answer(unsafe {
                foreign::$foreign_call(
                    m, k, n, alpha.into(),
                    a.as_ptr(), a.len(), la, b.as_ptr(), b.len(), lb, beta.into(),
                    c.as_mut_ptr(), c.len(), lc, pack.as_mut_ptr(), pack.len(),
                )
            })
        }

        $(#[$need_words])*
        ///
        /// # Errors
        ///
        /// [`Refusal::TooLarge`] where m, k or n is above 65,536, even where another is zero.
        pub fn $need(m: usize, k: usize, n: usize) -> Result<usize, Refusal> {
            foreign::same_interface();
            // SAFETY: numbers in, numbers out.
            let length = unsafe { foreign::$foreign_need(m, k, n) };
            Refusal::of_answer(length.answer).map(|()| length.elements)
        }

        $(#[$max_words])*
        pub const $max: usize = $most;
    };
}

kind! {
    /// C ← α A B + β C for f32. A is m by k, B is k by n, C is m by n. Where β is zero, old C is ignored.
    ///
    /// ```
    /// use hewnspandrel::{sgemm, sgemm_need, Operand};
    /// let rows = Operand::row_major(2);
    /// let (a, b) = ([1.0, 2.0, 3.0, 4.0], [5.0, 6.0, 7.0, 8.0]);
    /// let mut c = [f32::NAN; 4];
    /// let mut pack = vec![0.0; sgemm_need(2, 2, 2)?];
    /// sgemm(2, 2, 2, 1.0, &a, rows, &b, rows, 0.0, &mut c, rows, &mut pack)?;
    /// assert_eq!(c, [19.0, 22.0, 43.0, 50.0]);
    /// # Ok::<(), hewnspandrel::Refusal>(())
    /// ```
    sgemm,
    /// How many f32 the pack buffer of [`sgemm`] must have.
    ///
    /// ```
    /// use hewnspandrel::{sgemm_need, Refusal};
    /// assert_eq!(sgemm_need(9, 300, 5), Ok(6144));
    /// assert_eq!(sgemm_need(9, 0, 5), Ok(0));
    /// assert_eq!(sgemm_need(0, 65_537, 5), Err(Refusal::TooLarge));
    /// ```
    sgemm_need,
    /// The largest need of [`sgemm`], in f32: as much as 65,536 cubed takes.
    SGEMM_MAX_NEED = 278_528,
    hewn_sgemm, hewn_sgemm_need, f32, f32
}

kind! {
    /// C ← α A B + β C for f64. A is m by k, B is k by n, C is m by n. Where β is zero, old C is ignored.
    ///
    /// ```
    /// use hewnspandrel::{dgemm, dgemm_need, Operand};
    /// // C is stored from its last place to its first
    /// let (a, b) = ([1.0, 2.0, 3.0], [2.0]);
    /// let down = Operand::row_major(1);
    /// let up = Operand { base: 2, rs: -1, cs: 1 };
    /// let mut c = [0.5; 3];
    /// let mut pack = vec![0.0; dgemm_need(3, 1, 1)?];
    /// dgemm(3, 1, 1, 10.0, &a, down, &b, down, 2.0, &mut c, up, &mut pack)?;
    /// assert_eq!(c, [61.0, 41.0, 21.0]);
    /// # Ok::<(), hewnspandrel::Refusal>(())
    /// ```
    dgemm,
    /// How many f64 the pack buffer of [`dgemm`] must have.
    ///
    /// ```
    /// use hewnspandrel::dgemm_need;
    /// assert_eq!(dgemm_need(9, 300, 5), Ok(5120));
    /// assert_eq!(dgemm_need(65_536, 65_536, 65_536), Ok(278_528));
    /// ```
    dgemm_need,
    /// The largest need of [`dgemm`], in f64: as much as 65,536 cubed takes.
    DGEMM_MAX_NEED = 278_528,
    hewn_dgemm, hewn_dgemm_need, f64, f64
}

kind! {
    /// C ← α A B + β C for complex f32, two reals an element. A is m by k, B is k by n, C is m by n. Where β is zero, old
    /// C is ignored.
    ///
    /// ```
    /// use hewnspandrel::{cgemm, cgemm_need, Operand};
    /// // (1 + 2i)(3 + 4i) i
    /// let one = Operand::row_major(1);
    /// let mut c = [f32::NAN; 2];
    /// let mut pack = vec![0.0; 2 * cgemm_need(1, 1, 1)?];
    /// cgemm(1, 1, 1, [0.0, 1.0], &[1.0, 2.0], one, &[3.0, 4.0], one, [0.0, 0.0], &mut c, one, &mut pack)?;
    /// assert_eq!(c, [-10.0, -5.0]);
    /// # Ok::<(), hewnspandrel::Refusal>(())
    /// ```
    cgemm,
    /// How many complex elements, two f32 each, the pack buffer of [`cgemm`] must have.
    ///
    /// ```
    /// use hewnspandrel::cgemm_need;
    /// assert_eq!(cgemm_need(1, 1, 1), Ok(6)); // twelve f32
    /// ```
    cgemm_need,
    /// The largest need of [`cgemm`], in complex elements of two f32 each: as much as 65,536 cubed takes.
    CGEMM_MAX_NEED = 139_264,
    hewn_cgemm, hewn_cgemm_need, f32, [f32; 2]
}

kind! {
    /// C ← α A B + β C for complex f64, two reals an element. A is m by k, B is k by n, C is m by n. Where β is zero, old
    /// C is ignored.
    ///
    /// ```
    /// use hewnspandrel::{zgemm, zgemm_need, Operand};
    /// // a column of two times a row of one, added to what stands there
    /// let column = Operand::column_major(2);
    /// let a = [0.0, 1.0, 2.0, 0.0];
    /// let mut c = [1.0, 0.0, 0.0, 0.0];
    /// let mut pack = vec![0.0; 2 * zgemm_need(2, 1, 1)?];
    /// zgemm(2, 1, 1, [1.0, 0.0], &a, column, &[0.0, 3.0], column, [1.0, 0.0], &mut c, column, &mut pack)?;
    /// assert_eq!(c, [-2.0, 0.0, 0.0, 6.0]);
    /// # Ok::<(), hewnspandrel::Refusal>(())
    /// ```
    zgemm,
    /// How many complex elements, two f64 each, the pack buffer of [`zgemm`] must have.
    ///
    /// ```
    /// use hewnspandrel::zgemm_need;
    /// assert_eq!(zgemm_need(65_536, 65_536, 65_536), Ok(139_264));
    /// ```
    zgemm_need,
    /// The largest need of [`zgemm`], in complex elements of two f64 each: as much as 65,536 cubed takes.
    ZGEMM_MAX_NEED = 139_264,
    hewn_zgemm, hewn_zgemm_need, f64, [f64; 2]
}
