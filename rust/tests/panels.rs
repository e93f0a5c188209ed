//! Panels: the shape, and the element at each place in and around it, with too few numbers, too many, and places far away.

use hewnspandrel::{Panel, Real, Refusal, Shape};
use std::fmt::Debug;

trait Number: Real + Debug + PartialEq + From<u16> {}
impl Number for f32 {}
impl Number for f64 {}

fn counted<T: Number>(count: u16) -> Vec<T> {
    (0..count).map(T::from).collect()
}

/// The numbers count from 0 on, so that an element is its own place; the place is counted in whole numbers that cannot wrap.
fn check<T: Number>(numbers: &[T], rows: u16, columns: u16, row: usize, column: usize) {
    let panel = Panel { numbers, rows, columns };
    let place = row as u128 * u128::from(columns) + column as u128;
    let inside = row < rows.into() && column < columns.into() && place < numbers.len() as u128;
    let expected = if inside { Ok(T::from(place as u16)) } else { Err(Refusal::OutsidePanel) };
    assert_eq!(panel.shape(), Shape { rows, columns });
    let count = numbers.len();
    assert_eq!(panel.element(row, column), expected, "({row}, {column}) of {rows} by {columns} with {count} numbers");
}

/// Shapes of no, few and many rows and columns, each with fewer numbers than places, as many, and more.
fn places<T: Number>() {
    for (rows, columns) in [(0, 0), (0, 3), (3, 0), (1, 1), (2, 3), (3, 2), (1, 5), (5, 1), (4, 4)] {
        for count in 0..rows * columns + 3 {
            let numbers = counted::<T>(count);
            for (row, column) in (0..7).flat_map(|row| (0..7).map(move |column| (row, column))) {
                check(&numbers, rows, columns, row, column);
            }
        }
    }
}

/// Rows and columns that are inside, or begin the numbers anew, when cut down to fewer bits or multiplied in a usize.
fn far_places<T: Number>() {
    let numbers = counted::<T>(24);
    for (rows, columns) in [(4, 6), (6, 4), (1, 24), (24, 1), (u16::MAX, 1), (1, u16::MAX), (u16::MAX, u16::MAX), (3, 5)] {
        let whole = usize::MAX / usize::from(columns);
        let mut far = vec![whole, usize::MAX - whole, usize::MAX - usize::from(columns), usize::MAX - usize::from(rows)];
        far.extend([1 << 16, 1 << 31, 1 << 32, 1 << 48, 1 << 62, 1 << 63, 0]);
        far.extend([u16::MAX.into(), u32::MAX as usize, isize::MAX as usize, usize::MAX]);
        let near = far.iter().flat_map(|x| (0..4).flat_map(move |y| [x.wrapping_add(y), x.wrapping_sub(y)]));
        let all: Vec<usize> = near.collect();
        for &row in &all {
            for &column in &all {
                check(&numbers, rows, columns, row, column);
            }
        }
    }
}

/// As many numbers as two rows of the widest panel, but for one.
fn the_widest_panel<T: Number>() {
    let numbers: Vec<T> = counted::<T>(u16::MAX).into_iter().cycle().take(2 * 65_535 - 1).collect();
    let panel = Panel { numbers: &numbers, rows: u16::MAX, columns: u16::MAX };
    for column in [0, 1, 255, 256, 65_533] {
        let expected = Ok(T::from(column as u16));
        assert_eq!((panel.element(0, column), panel.element(1, column)), (expected, expected), "column {column}");
    }
    assert_eq!(panel.element(0, 65_534), Ok(T::from(65_534)));
    for (row, column) in [(1, 65_534), (2, 0), (0, 65_535), (65_534, 0), (65_534, 65_534), (65_535, 65_535)] {
        assert_eq!(panel.element(row, column), Err(Refusal::OutsidePanel), "({row}, {column})");
    }
}

#[test]
fn of_f32() {
    places::<f32>();
    far_places::<f32>();
    the_widest_panel::<f32>();
}

#[test]
fn of_f64() {
    places::<f64>();
    far_places::<f64>();
    the_widest_panel::<f64>();
}
