//! Long calls on the threads of rayon: a pool of one's own, in ten lines.

use cvl::{Fault, Pool};
use rayon::iter::{IntoParallelIterator, ParallelIterator};

/// The threads of rayon that the calling thread belongs to, or all of rayon's own.
struct Rayon;

impl Pool for Rayon {
    fn parts(&self) -> usize {
        rayon::current_num_threads()
    }

    fn run(&self, parts: usize, part: &(dyn Fn(usize) + Sync)) {
        (0..parts).into_par_iter().for_each(part);
    }
}

fn main() -> Result<(), Fault> {
    let a: Vec<i32> = (0..4_000_000).map(|k| k % 10).collect();
    let threads = rayon::ThreadPoolBuilder::new().num_threads(4).build().expect("rayon starts threads");
    let sums = threads.install(|| cvl::with_pool(&Rayon, || cvl::add_suz(&a)))?;
    println!("the sum of all but the last: {}", sums[a.len() - 1]);
    Ok(())
}
