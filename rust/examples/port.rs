//! A call of matrixmultiply's `dgemm`, ported line by line. The old line stands above each new one.
//!
//!     cargo run --example port

// use matrixmultiply::dgemm;
use hewnspandrel::{dgemm, dgemm_need, Operand, Refusal};

// fn weighted(scores: &mut [f64], panel: &[f64], weights: &[f64], rows: usize, columns: usize) {
fn weighted(scores: &mut [f64], panel: &[f64], weights: &[f64], rows: usize, columns: usize) -> Result<(), Refusal> {
    // A pointer and two strides become a slice, a base and the two strides. Where the old pointer was moved into the slice,
    // the base says by how many elements.
    let by_rows = Operand::row_major(columns);
    let column = Operand::column_major(rows);
    // weights are stored backwards: the pointer stood at the last one
    let backwards = Operand { base: columns - 1, rs: -1, cs: 1 };
    // The old crate allocated the pack buffer in each call. Ours is lent, so it can be kept from call to call, or left to a
    // `Workspace`.
    let mut pack = vec![0.0; dgemm_need(rows, columns, 1)?];

    // unsafe {
    //     dgemm(
    dgemm(
        //     rows, columns, 1,
        rows, columns, 1,
        //     1.0,
        1.0,
        //     panel.as_ptr(), columns as isize, 1,
        panel, by_rows,
        //     weights.as_ptr().add(columns - 1), -1, 1,
        weights, backwards,
        //     1.0,
        1.0,
        //     scores.as_mut_ptr(), 1, rows as isize,
        scores, column,
        //     );
        // }
        &mut pack,
    )
}

fn main() -> Result<(), Refusal> {
    let panel = [1.0, 2.0, 3.0, 4.0, 5.0, 6.0];
    let weights = [0.5, 10.0, 100.0];
    let mut scores = [1000.0, 2000.0];
    weighted(&mut scores, &panel, &weights, 2, 3)?;
    println!("scores: {scores:?}");
    assert_eq!(scores, [1121.5, 2453.0]);

    // The old crate would have read past the panel's end here. Ours says so, and the scores stay.
    let refused = weighted(&mut scores, &panel[..5], &weights, 2, 3).unwrap_err();
    println!("refusal {}: {refused}", refused.number());
    assert_eq!((refused, scores), (Refusal::OutsideA, [1121.5, 2453.0]));
    Ok(())
}
