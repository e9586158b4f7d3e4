//! A join of two tables by a key: the places of each two rows whose keys are equal.

use cvl::{Fault, Segments};

/// The places of each two rows of the left and of the right table whose keys are equal, in the order of the left rows, and for
/// each of these of the right ones.
///
/// By one order of all keys each key gets a number. In the order of their numbers the right rows are one run for each number, and
/// each left row takes the run of its own: it becomes a segment with as many pairs.
pub fn join(left: &[i32], right: &[i32]) -> Result<(Vec<i32>, Vec<i32>), Fault> {
    let keys = [left, right].concat();
    let order = cvl::order(&keys)?;
    let numbers = numbered(&keys, &order)?;
    let many = order.last().map_or(0, |&row| i64::from(numbers[row as usize]) + 1);
    let n = left.len() as i32;
    let right_rows: Vec<i32> = order.iter().filter(|&&row| row >= n).map(|row| row - n).collect();
    let (left, right) = numbers.split_at(left.len());
    let counts = cvl::counts(right, many)?;
    let pairs = Segments::new(&cvl::bck_puz(&counts, left)?)?;
    let starts = cvl::bck_puz(&cvl::add_suz(&counts)?, left)?;
    Ok((pairs.numbers()?, cvl::gather_segments_int(&right_rows, &starts, &pairs)?))
}

/// A number for each key, from 0 on in ascending order, by the order of the keys.
fn numbered(keys: &[i32], order: &[i32]) -> Result<Vec<i32>, Fault> {
    let ascending = cvl::bck_puz(keys, order)?;
    let mut differs = vec![false; keys.len()];
    if keys.len() > 1 {
        cvl::neq_wuz_into(&ascending[1..], &ascending[..keys.len() - 1], &mut differs[1..])?;
    }
    let steps = cvl::int_wub(&differs)?;
    cvl::smp_puz(&cvl::add_wuz(&cvl::add_suz(&steps)?, &steps)?, order)
}

#[allow(dead_code)]
fn main() -> Result<(), Fault> {
    let (customers, orders) = ([7, 3, 9], [9, 7, 9, 1, 7]);
    let (left, right) = join(&customers, &orders)?;
    println!("customers {left:?}\norders    {right:?}");
    Ok(())
}
