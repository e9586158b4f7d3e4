//! The time of ten calls, into memory that was written before, as a table in Markdown: the ten of `docs/dev/performance/from_python`, which
//! has those of Python and of numpy. Each time is the least of several runs, in microseconds.
//!
//! `docs/dev/performance/from_rust` builds and runs it.

use std::time::Instant;

use cvl::{Fault, Segments};

const LENGTHS: [usize; 3] = [1_000, 100_000, 4_194_304];

/// Numbers that look random, by a linear congruence.
struct Numbers(u64);

impl Numbers {
    fn next(&mut self) -> u64 {
        self.0 = self.0.wrapping_mul(6_364_136_223_846_793_005).wrapping_add(1_442_695_040_888_963_407);
        self.0 >> 33
    }

    /// So many numbers from -1000 to 999.
    fn ints(&mut self, n: usize) -> Vec<i32> {
        (0..n).map(|_| (self.next() % 2_000) as i32 - 1_000).collect()
    }

    /// The places below n, in some order.
    fn places(&mut self, n: usize) -> Vec<i32> {
        let mut places: Vec<i32> = (0..n as i32).collect();
        for k in (1..n).rev() {
            places.swap(k, self.next() as usize % (k + 1));
        }
        places
    }
}

/// The least time of several runs, in microseconds. No call of the library is left out because its result is not looked at.
fn least<T>(n: usize, mut call: impl FnMut() -> Result<T, Fault>) -> f64 {
    let runs = (20_000_000 / n).clamp(7, 2_000);
    let mut times = Vec::with_capacity(runs);
    for _ in 0..runs {
        let start = Instant::now();
        call().expect("the call has a value");
        times.push(start.elapsed().as_secs_f64() * 1e6);
    }
    times.into_iter().fold(f64::INFINITY, f64::min)
}

/// Each call's name and its time on vectors of n elements.
fn times(n: usize) -> Result<Vec<(&'static str, f64)>, Fault> {
    let mut numbers = Numbers(1);
    let (a, b, index) = (numbers.ints(n), numbers.ints(n), numbers.places(n));
    let flags: Vec<bool> = (0..n).map(|_| numbers.next() % 2 == 0).collect();
    let rows = Segments::new(&vec![8; n / 8])?;
    let (mut out, mut marks, mut sums) = (vec![0; n], vec![false; n], vec![0; n / 8]);
    let mut kept = vec![0; flags.iter().filter(|&&flag| flag).count()];
    Ok(vec![
        ("add_wuz", least(n, || cvl::add_wuz_into(&a, &b, &mut out))),
        ("les_wuz", least(n, || cvl::les_wuz_into(&a, &b, &mut marks))),
        ("sel_wuz", least(n, || cvl::sel_wuz_into(&flags, &a, &b, &mut out))),
        ("add_suz", least(n, || cvl::add_suz_into(&a, &mut out))),
        ("add_ruz", least(n, || cvl::add_ruz(&a))),
        ("max_ruz", least(n, || cvl::max_ruz(&a))),
        ("add_rez", least(n, || cvl::add_rez_into(&a, &rows, &mut sums))),
        ("bck_puz", least(n, || cvl::bck_puz_into(&a, &index, &mut out))),
        ("smp_puz", least(n, || cvl::smp_puz_into(&a, &index, &mut out))),
        ("pck_luz", least(n, || cvl::pck_luz_into(&a, &flags, &mut kept))),
    ])
}

fn main() -> Result<(), Fault> {
    let columns = LENGTHS.map(times);
    println!("| Call | 1,000 | 100,000 | 4,194,304 |\n|---|---:|---:|---:|");
    let [small, middle, large] = columns;
    for (((name, first), (_, second)), (_, third)) in small?.into_iter().zip(middle?).zip(large?) {
        println!("| `{name}` | {first:.1} | {second:.1} | {third:.0} |");
    }
    Ok(())
}
