use crate::foreign;

mod sealed {
    pub trait Sealed {}
    impl Sealed for f32 {}
    impl Sealed for f64 {}
}

/// f32 or f64: what the slices of a call and the panels hold.
pub trait Real: sealed::Sealed + Copy {
    #[doc(hidden)]
    const ZERO: Self;
    #[doc(hidden)]
    const READ: foreign::Read<Self>;
    #[doc(hidden)]
    const ELEMENT: foreign::ElementAt<Self>;
}

impl Real for f32 {
    const ZERO: f32 = 0.0;
    const READ: foreign::Read<f32> = foreign::hewn_read_f32;
    const ELEMENT: foreign::ElementAt<f32> = foreign::hewn_panel_element_f32;
}

impl Real for f64 {
    const ZERO: f64 = 0.0;
    const READ: foreign::Read<f64> = foreign::hewn_read_f64;
    const ELEMENT: foreign::ElementAt<f64> = foreign::hewn_panel_element_f64;
}
