//! Panel files, read: every set of faults, damaged heads, lengths and destinations on both sides of what is right, and all
//! patterns of floats that might make a difference.

use hewnspandrel::{read_panel_f32, read_panel_f64, Header, Panel, Real, Refusal, Shape};
use std::fmt::Debug;
use Refusal::{FileShort, NoRoom, UnknownVersion, WrongKind, WrongLength, WrongMark};

/// f32 or f64, with its bits, as a file has it.
trait Stored: Real + Debug + PartialEq + From<u16> {
    const KIND: u8;
    const WIDTH: usize;
    /// The bits of the first signalling NaN.
    const SIGNALLING: u64;
    fn read(file: &[u8], numbers: &mut [Self]) -> Result<Header, Refusal>;
    fn of_bits(bits: u64) -> Self;
    fn bits(self) -> u64;
}

macro_rules! stored {
    ($real:ty, $bits:ty, $kind:expr, $read:ident) => {
        impl Stored for $real {
            const KIND: u8 = $kind;
            const WIDTH: usize = size_of::<$real>();
            const SIGNALLING: u64 = <$real>::INFINITY.to_bits() as u64 + 1;
            fn read(file: &[u8], numbers: &mut [$real]) -> Result<Header, Refusal> {
                $read(file, numbers)
            }
            fn of_bits(bits: u64) -> $real {
                <$real>::from_bits(bits as $bits)
            }
            fn bits(self) -> u64 {
                self.to_bits().into()
            }
        }
    };
}
stored!(f32, u32, 1, read_panel_f32);
stored!(f64, u64, 2, read_panel_f64);

fn head(mark: &[u8; 3], version: u16, kind: u8, rows: u16, columns: u16) -> Vec<u8> {
    [mark, &version.to_le_bytes()[..], &[kind], &rows.to_le_bytes(), &columns.to_le_bytes()].concat()
}

/// The file of a panel whose elements have these bits.
fn file_of<T: Stored>(rows: u16, columns: u16, bits: &[u64]) -> Vec<u8> {
    let mut file = head(b"IVP", 1, T::KIND, rows, columns);
    for bits in bits {
        file.extend(&bits.to_le_bytes()[..T::WIDTH]);
    }
    file
}

/// Whole numbers from one on, as bits.
fn counted<T: Stored>(rows: u16, columns: u16) -> Vec<u64> {
    (1..=rows * columns).map(|x| T::from(x).bits()).collect()
}

/// Reads into a destination of so many numbers, which are signalling NaNs of different patterns and lie between two more of
/// them: all that are not to be filled keep their bits.
fn read<T: Stored>(file: &[u8], room: usize) -> Result<(Shape, Vec<T>), Refusal> {
    let before: Vec<T> = (0..room + 2).map(|i| T::of_bits(T::SIGNALLING + i as u64)).collect();
    let mut after = before.clone();
    let answer = T::read(file, &mut after[1..=room]);
    let count = answer.map_or(0, |header| header.shape.rows as usize * header.shape.columns as usize);
    for at in (0..1).chain(count + 1..room + 2) {
        assert_eq!(after[at].bits(), before[at].bits(), "number {at} of {room} was changed: {answer:?}");
    }
    let header = answer?;
    assert_eq!(header.version, 1);
    Ok((header.shape, after[1..=count].to_vec()))
}

/// The file is read as a panel of this shape with elements of these bits, NaN matching NaN. Returns them.
fn accepted<T: Stored>(file: &[u8], room: usize, rows: u16, columns: u16, bits: &[u64]) -> Vec<T> {
    let (shape, numbers) = read::<T>(file, room).unwrap_or_else(|refusal| panic!("{rows} by {columns}: {refusal}"));
    assert_eq!((shape, numbers.len()), (Shape { rows, columns }, bits.len()));
    for (x, bits) in numbers.iter().zip(bits) {
        assert!(matches(*x, *bits), "{x:?} ({:x}) was read where the file has {bits:x}", x.bits());
    }
    numbers
}

#[allow(clippy::eq_op)] // a NaN is what differs from itself
fn matches<T: Stored>(x: T, bits: u64) -> bool {
    let y = T::of_bits(bits);
    x.bits() == bits || x != x && y != y
}

fn refused<T: Stored>(expected: Refusal, file: &[u8], room: usize) {
    assert_eq!(read::<T>(file, room), Err(expected), "{file:?}, room {room}");
}

/// The least number is the answer, whatever else is wrong; each fault comes in several ways, the first of which is none.
fn every_set_of_faults<T: Stored>() {
    let (bits, exact) = (counted::<T>(2, 3), 6 * T::WIDTH);
    let elements = [&file_of::<T>(2, 3, &bits)[10..], &[0; 60]].concat();
    let mut sets = [0; 64];
    for case in 0..6 * 5 * 6 * 5 * 5 * 4 {
        let mut rest = case;
        let mut way = |ways: usize| (rest % ways, rest /= ways).0;
        let end = [usize::MAX, 9, 6, 5, 1, 0][way(6)];
        let mark = [b"IVP", b"ivp", b"PVI", b"IVQ", b"\0\0\0"][way(5)];
        let version = [1, 0, 2, 256, 257, u16::MAX][way(6)];
        let kind = [T::KIND, 3 - T::KIND, 0, 3, 255][way(5)];
        let length = [exact, exact - 1, exact + 1, 0, 24 + 48 - exact][way(5)];
        let room = [6, 9, 5, 0][way(4)];

        let mut file = [&head(mark, version, kind, 2, 3), &elements[..length]].concat();
        file.truncate(end);
        let faults = [
            (FileShort, end < 10),
            (WrongMark, mark != b"IVP"),
            (UnknownVersion, version != 1),
            (WrongKind, kind != T::KIND),
            (WrongLength, length != exact),
            (NoRoom, room < 6),
        ];
        match faults.iter().find(|(_, holds)| *holds) {
            Some((first, _)) => refused::<T>(*first, &file, room),
            None => drop(accepted::<T>(&file, room, 2, 3, &bits)),
        }
        sets[faults.iter().fold(0, |set, (_, holds)| 2 * set + usize::from(*holds))] += 1;
    }
    assert!(sets.iter().all(|times| *times > 0), "{sets:?}");
}

/// Each byte of a good file's head, changed to each other value.
fn every_byte_of_the_head<T: Stored>() {
    let bits = counted::<T>(2, 3);
    let good = file_of::<T>(2, 3, &bits);
    for at in 0..10 {
        let expected = [WrongMark, UnknownVersion, WrongKind, WrongLength][[0, 0, 0, 1, 1, 2, 3, 3, 3, 3][at]];
        for value in (0..=u8::MAX).filter(|value| *value != good[at]) {
            let mut file = good.clone();
            file[at] = value;
            refused::<T>(expected, &file, 6);
        }
    }
    // the same six elements in other shapes
    for (rows, columns) in [(3, 2), (1, 6), (6, 1)] {
        accepted::<T>(&file_of::<T>(rows, columns, &bits), 6, rows, columns, &bits);
    }
}

/// A file of one element that ends early or late; the same where it says another version.
fn every_short_length<T: Stored>() {
    let bits = counted::<T>(1, 1);
    let mut file = file_of::<T>(1, 1, &bits);
    let whole = file.len();
    file.extend([0; 20]);
    for length in 0..file.len() {
        match length {
            0..10 => refused::<T>(FileShort, &file[..length], 1),
            _ if length == whole => drop(accepted::<T>(&file[..length], 1, 1, 1, &bits)),
            _ => refused::<T>(WrongLength, &file[..length], 1),
        }
    }
    file[3] = 2;
    for length in 0..file.len() {
        refused::<T>(if length < 10 { FileShort } else { UnknownVersion }, &file[..length], 1);
    }
}

/// Shapes whose number of elements or of bytes is 0 in 16 or 32 bits, and the largest.
fn lengths_that_would_wrap<T: Stored>() {
    let half = 32_768 / (T::WIDTH / 4) as u16;
    for (rows, columns) in [(256, 256), (32_768, 2), (65_535, 65_535), (32_768, half), (half, 32_768)] {
        let file = [head(b"IVP", 1, T::KIND, rows, columns), vec![0; 8]].concat();
        refused::<T>(WrongLength, &file[..10], 0);
        refused::<T>(WrongLength, &file[..10 + T::WIDTH], 1);
    }
    let bits = [0; 65_536];
    let file = file_of::<T>(256, 256, &bits);
    for room in [0, 1, 65_535] {
        refused::<T>(NoRoom, &file, room);
    }
    accepted::<T>(&file, 65_536, 256, 256, &bits);
}

fn no_elements<T: Stored>() {
    for (rows, columns) in [(0, 0), (0, 1), (1, 0), (0, u16::MAX), (u16::MAX, 0)] {
        let file = [head(b"IVP", 1, T::KIND, rows, columns), vec![0]].concat();
        accepted::<T>(&file[..10], 0, rows, columns, &[]);
        accepted::<T>(&file[..10], 3, rows, columns, &[]);
        refused::<T>(FileShort, &file[..9], 3);
        refused::<T>(WrongLength, &file, 3);
    }
}

/// Destinations of each length up to the panel's, and longer; a byte less and a byte more.
fn destinations<T: Stored>() {
    for (rows, columns) in [(1, 1), (2, 3), (3, 2), (5, 1), (1, 7), (258, 3), (3, 258), (u16::MAX, 1), (1, u16::MAX)] {
        let bits = counted::<T>(rows, columns);
        let (count, mut file) = (bits.len(), file_of::<T>(rows, columns, &bits));
        for room in (0..count).filter(|room| *room < 8 || room + 2 > count) {
            refused::<T>(NoRoom, &file, room);
        }
        for room in [count, count + 1, count + 2, count + 100] {
            accepted::<T>(&file, room, rows, columns, &bits);
        }
        file.push(0);
        refused::<T>(WrongLength, &file, count + 1);
        refused::<T>(WrongLength, &file[..file.len() - 2], count);
    }
}

/// Reads 256 by 256 elements of these bits, and looks at each through a panel.
fn square<T: Stored>(bits: &[u64]) {
    let numbers = accepted::<T>(&file_of::<T>(256, 256, bits), 65_536, 256, 256, bits);
    let panel = Panel { numbers: &numbers, rows: 256, columns: 256 };
    for (at, bits) in bits.iter().enumerate() {
        let element = panel.element(at / 256, at % 256);
        assert!(element.is_ok_and(|x| matches(x, *bits)), "{element:?} at number {at}, where the file has {bits:x}");
    }
}

/// All upper halves, so each sign, exponent and first bits of a fraction, with nothing below, the least, the greatest, and
/// mixed bits: zeros, subnormals, infinities and NaNs of either sort among them.
fn patterns<T: Stored>() {
    let below = 8 * T::WIDTH - 16;
    for lower in [0, 1, u64::MAX, 0xA5A5_A5A5_A5A5, 0x8000_8000_8000] {
        let lower = lower & ((1 << below) - 1);
        square::<T>(&(0..65_536).map(|upper| upper << below | lower).collect::<Vec<_>>());
    }
}

/// All NaNs of f32, 256 upper halves with all lower halves; the two infinities among them.
#[test]
fn every_nan_of_f32() {
    for upper in (0x7F80..0x8000).chain(0xFF80..0x1_0000) {
        let bits: Vec<u64> = (0..65_536).map(|lower| upper << 16 | lower).collect();
        accepted::<f32>(&file_of::<f32>(256, 256, &bits), 65_536, 256, 256, &bits);
    }
}

/// NaNs of f64: either sign, each run of ones in the fraction, and the whole fraction but for such a run.
#[test]
fn nans_of_f64() {
    let runs = (0..52).flat_map(|from| (from..52).map(move |to| (2u64 << to) - (1 << from)));
    let all = runs.flat_map(|run| [run, run ^ ((1 << 52) - 1)]).filter(|fraction| *fraction != 0);
    let mut bits: Vec<u64> = all.flat_map(|fraction| [0x7FF, 0xFFF].map(|upper| upper << 52 | fraction)).collect();
    assert!(bits.len() > 5_000);
    bits.resize(65_536, f64::NAN.to_bits());
    square::<f64>(&bits);
}

/// A test for both kinds.
macro_rules! both {
    ($($test:ident)*) => {
        mod both {
            $(
                #[test]
                fn $test() {
                    super::$test::<f32>();
                    super::$test::<f64>();
                }
            )*
        }
    };
}
both! {
    every_set_of_faults every_byte_of_the_head every_short_length lengths_that_would_wrap no_elements destinations patterns
}
