use std::error::Error;
use std::fmt;

/// A refusal's number, name and words, each said once.
macro_rules! refusals {
    ($(#[$of_all:meta])* $($number:literal $name:ident $words:literal)*) => {
        $(#[$of_all])*
        #[derive(Clone, Copy, Debug, PartialEq, Eq, Hash)]
        #[non_exhaustive]
        pub enum Refusal {
            $(#[doc = concat!($number, ": ", $words, ".")] $name = $number,)*
        }

        impl Refusal {
            /// The C interface's answer: 0 is done.
            pub(crate) fn of_answer(answer: u64) -> Result<(), Refusal> {
                match answer {
                    0 => Ok(()),
                    $($number => Err(Refusal::$name),)*
                    _ => unreachable!("proved: an answer is 0 or a refusal's number"),
                }
            }
        }

        impl fmt::Display for Refusal {
            fn fmt(&self, f: &mut fmt::Formatter<'_>) -> fmt::Result {
                f.write_str(match self {
                    $(Refusal::$name => $words,)*
                })
            }
        }
    };
}

refusals! {
    /// Why a call, the read of a file or the question for an element was refused; of each, in the order in which the causes
    /// are looked for. Nothing has been stored. A later version may have more causes, so a `match` needs an arm for the
    /// others.
    ///
    /// ```
    /// use hewnspandrel::{dgemm, Operand, Refusal};
    /// let l = Operand::row_major(1);
    /// let refused = dgemm(1, 1, 1, 1.0, &[2.0], l, &[3.0], l, 0.0, &mut [], l, &mut [0.0; 8]).unwrap_err();
    /// assert_eq!(refused, Refusal::OutsideC);
    /// assert_eq!(refused.number(), 3);
    /// assert_eq!(refused.to_string(), "a place of C is outside C's slice");
    /// ```
    ///
    /// ```compile_fail,E0004
    /// use hewnspandrel::Refusal::{self, *};
    /// fn is_of_a_file(refusal: Refusal) -> bool {
    ///     match refusal {
    ///         FileShort | WrongMark | UnknownVersion | WrongKind | WrongLength | NoRoom => true,
    ///         TooLarge | TooFar | OutsideC | CollidesC | OutsideA | OutsideB | PackShort | OutsidePanel => false,
    ///     }
    /// }
    /// ```
    1 TooLarge "m, k or n is above 65,536"
    2 TooFar "a stride of A, B or C along an axis of two or more entries is above 2,147,483,648 in magnitude"
    3 OutsideC "a place of C is outside C's slice"
    4 CollidesC "two different places of C are the same element"
    5 OutsideA "a place of A is outside A's slice"
    6 OutsideB "a place of B is outside B's slice"
    7 PackShort "the pack buffer is shorter than the need"
    21 FileShort "the file has fewer than ten bytes"
    22 WrongMark "the file does not begin with the mark IVP"
    23 UnknownVersion "the file's version is not known"
    24 WrongKind "the file's kind is not the one asked for"
    25 WrongLength "the file's length is not what its rows and columns say"
    26 NoRoom "the destination is shorter than the panel"
    30 OutsidePanel "the place is outside the panel's shape or beyond its numbers"
}

impl Refusal {
    /// The refusal's number: 1 to 7 of a multiplication, 21 to 26 of a read, 30 of a place. C callers see the same numbers.
    #[must_use]
    pub fn number(self) -> u32 {
        self as u32
    }
}

impl Error for Refusal {}
