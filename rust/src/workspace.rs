use crate::{calls, Operand, Real, Refusal};
use std::fmt;

/// A pack buffer that is kept from call to call. It grows to the need of a call that would be done but for its length, and
/// to no more; it never shrinks. A refused call leaves it as it is.
///
/// The calls answer as the functions of the same name do with a pack buffer that is long enough, so never
/// [`Refusal::PackShort`]. The buffer is a `Vec`: where there is no memory for it, the program ends as it does for a `Vec`. No
/// call makes it longer than 2,228,224 bytes.
///
/// ```
/// use hewnspandrel::{Operand, Workspace};
/// let mut workspace = Workspace::new();
/// let square = Operand::row_major(2);
/// let (mut power, mut next) = ([1.0, 1.0, 1.0, 0.0], [0.0; 4]);
/// for _ in 0..10 {
///     workspace.dgemm(2, 2, 2, 1.0, &power, square, &[1.0, 1.0, 1.0, 0.0], square, 0.0, &mut next, square)?;
///     power = next;
/// }
/// assert_eq!(power, [144.0, 89.0, 89.0, 55.0]);
/// # Ok::<(), hewnspandrel::Refusal>(())
/// ```
#[derive(Clone, Default)]
pub struct Workspace<T> {
    buffer: Vec<T>,
}

impl<T: Real> Workspace<T> {
    /// An empty buffer. It takes no memory until a call needs some.
    #[must_use]
    pub const fn new() -> Workspace<T> {
        Workspace { buffer: Vec::new() }
    }

    /// A buffer of so many reals, so that calls whose need is no more (twice the need for complex elements) take no memory.
    ///
    /// # Panics
    ///
    /// Where so many reals take more than `isize::MAX` bytes, as a `Vec` does.
    #[must_use]
    pub fn with_reals(reals: usize) -> Workspace<T> {
        Workspace { buffer: vec![T::ZERO; reals] }
    }

    /// How many reals the buffer has.
    #[must_use]
    pub fn reals(&self) -> usize {
        self.buffer.len()
    }

    /// The buffer's first reals, to be lent to a call; it grows where it has fewer. What they hold is left open.
    ///
    /// ```
    /// use hewnspandrel::{zgemm, zgemm_need, Operand, Workspace};
    /// let mut workspace = Workspace::new();
    /// let (one, mut c) = (Operand::row_major(1), [0.0; 2]);
    /// let pack = workspace.pack(2 * zgemm_need(1, 1, 1)?);
    /// zgemm(1, 1, 1, [1.0, 0.0], &[0.0, 1.0], one, &[0.0, 1.0], one, [0.0, 0.0], &mut c, one, pack)?;
    /// assert_eq!(c, [-1.0, 0.0]);
    /// # Ok::<(), hewnspandrel::Refusal>(())
    /// ```
    ///
    /// # Panics
    ///
    /// Where so many reals take more than `isize::MAX` bytes, as a `Vec` does.
    #[must_use]
    pub fn pack(&mut self, reals: usize) -> &mut [T] {
        if self.buffer.len() < reals {
            self.buffer = vec![T::ZERO; reals];
        }
        &mut self.buffer[..reals]
    }
}

impl<T> fmt::Debug for Workspace<T> {
    fn fmt(&self, f: &mut fmt::Formatter<'_>) -> fmt::Result {
        f.debug_struct("Workspace").field("reals", &self.buffer.len()).finish()
    }
}

macro_rules! kind {
    ($(#[$words:meta])* $call:ident, $need:ident, $real:ty, $number:ty, $width:expr) => {
        impl Workspace<$real> {
            $(#[$words])*
            ///
            /// # Errors
            ///
            /// The first [`Refusal`] that applies; nothing has been stored then. Never [`Refusal::PackShort`].
            #[allow(clippy::too_many_arguments)]
            pub fn $call(
                &mut self,
                m: usize, k: usize, n: usize, alpha: $number,
                a: &[$real], la: Operand, b: &[$real], lb: Operand, beta: $number,
                c: &mut [$real], lc: Operand,
            ) -> Result<(), Refusal> {
                // A short buffer is the last cause looked for, and a refused call has stored nothing: it is made once more.
                match calls::$call(m, k, n, alpha, a, la, b, lb, beta, c, lc, &mut self.buffer) {
                    Err(Refusal::PackShort) => {
                        let pack = self.pack($width * calls::$need(m, k, n)?);
                        calls::$call(m, k, n, alpha, a, la, b, lb, beta, c, lc, pack)
                    }
                    answer => answer,
                }
            }
        }
    };
}

kind! {
    /// [`sgemm`](crate::sgemm) with this pack buffer.
    sgemm, sgemm_need, f32, f32, 1
}

kind! {
    /// [`dgemm`](crate::dgemm) with this pack buffer.
    dgemm, dgemm_need, f64, f64, 1
}

kind! {
    /// [`cgemm`](crate::cgemm) with this pack buffer.
    cgemm, cgemm_need, f32, [f32; 2], 2
}

kind! {
    /// [`zgemm`](crate::zgemm) with this pack buffer.
    zgemm, zgemm_need, f64, [f64; 2], 2
}
