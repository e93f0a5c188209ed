//! The crate's default build, opened at run time where default-build was built: its kernels fuse, so its bits differ.

use compare::kind::{Call, Kind};
use std::env;
use std::ffi::{c_char, c_int, c_void, CString};

extern "C" {
    fn dlopen(file: *const c_char, flags: c_int) -> *mut c_void;
    fn dlsym(library: *mut c_void, name: *const c_char) -> *mut c_void;
}
const RTLD_NOW: c_int = 2;

type Gemm<R> = unsafe extern "C" fn(&[usize; 3], &[[R; 2]; 2], &[[isize; 2]; 3], *const R, *const R, *mut R);

/// The call of a kind in the default build.
pub struct Default<K: Kind>(Gemm<K::R>);

impl<K: Kind> Default<K> {
    /// It stands beside the benchmark; none where it was not built.
    pub fn open() -> Option<Self> {
        let file = env::current_exe().ok()?.with_file_name("libdefault_build.so");
        let (file, name) = (CString::new(file.to_str()?).ok()?, CString::new(format!("default_{}", K::NAME)).ok()?);
        // SAFETY: the library is ours, and its functions have the type Gemm of their kind's reals.
        unsafe {
            let library = dlopen(file.as_ptr(), RTLD_NOW);
            let found = if library.is_null() { library } else { dlsym(library, name.as_ptr()) };
            (!found.is_null()).then(|| Default(std::mem::transmute::<*mut c_void, Gemm<K::R>>(found)))
        }
    }

    /// # Safety
    /// Every place that the call looks at is inside its slice, and no two places of C are the same element. Bases are 0.
    pub unsafe fn run(&self, call: &Call<K::R>, a: &[K::R], b: &[K::R], c: &mut [K::R]) {
        let strides = [call.la, call.lb, call.lc].map(|o| [o.rs, o.cs]);
        (self.0)(&[call.m, call.k, call.n], &[call.alpha, call.beta], &strides, a.as_ptr(), b.as_ptr(), c.as_mut_ptr())
    }
}
