//! Long calls on threads of the standard library: a pool of one's own, in ten lines.

use std::sync::atomic::{AtomicUsize, Ordering};

/// Starts so many threads for each step of a call. A program with threads that wait, as a pool of its own has, starts none.
pub struct ScopedThreads(pub usize);

impl cvl::Pool for ScopedThreads {
    fn parts(&self) -> usize {
        self.0
    }

    fn run(&self, parts: usize, part: &(dyn Fn(usize) + Sync)) {
        let next = AtomicUsize::new(0);
        let take_parts = || {
            let numbers = std::iter::repeat_with(|| next.fetch_add(1, Ordering::Relaxed));
            numbers.take_while(|&k| k < parts).for_each(part);
        };
        std::thread::scope(|scope| {
            for _ in 1..parts {
                scope.spawn(take_parts);
            }
            take_parts();
        });
    }
}

#[allow(dead_code)]
fn main() -> Result<(), cvl::Fault> {
    let a: Vec<i32> = (0..1_000_000).map(|k| k % 10).collect();
    let sums = cvl::with_pool(&ScopedThreads(4), || cvl::add_suz(&a))?;
    println!("the sum of all but the last: {}", sums[a.len() - 1]);
    Ok(())
}
