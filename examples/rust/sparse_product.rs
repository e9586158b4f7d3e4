//! A sparse matrix, kept in rows, times a vector.

use cvl::{Fault, Segments};

/// Fetches the vector's element for each entry, multiplies, and sums up each row.
fn sparse_product(rows: &Segments, columns: &[i32], entries: &[i32], x: &[i32]) -> Result<Vec<i32>, Fault> {
    let fetched = cvl::bck_puz(x, columns)?;
    let products = cvl::mul_wuz(entries, &fetched)?;
    cvl::add_rez(&products, rows)
}

fn main() -> Result<(), Fault> {
    let rows = Segments::new(&[2, 0, 2])?;
    let (entries, x) = ([2, 1, 3, 4], [1, 2, 3]);
    println!("y = {:?}", sparse_product(&rows, &[0, 2, 1, 2], &entries, &x)?);
    match sparse_product(&rows, &[0, 2, 1, 3], &entries, &x) {
        Err(fault) => println!("a column outside the vector: {fault}"),
        Ok(y) => println!("y = {y:?}"),
    }
    Ok(())
}
