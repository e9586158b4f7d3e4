//! The programs of the examples beside plain loops, on inputs at random.

#[path = "../examples/join.rs"]
mod join;

use std::collections::HashMap;
use std::time::Instant;

/// Numbers that look random, by a linear congruence.
struct Numbers(u64);

impl Numbers {
    fn below(&mut self, limit: u64) -> u64 {
        self.0 = self.0.wrapping_mul(6_364_136_223_846_793_005).wrapping_add(1_442_695_040_888_963_407);
        (self.0 >> 33) % limit
    }

    /// Keys of which many are the same, or any, or odd ones.
    fn keys(&mut self) -> Vec<i32> {
        let (count, kind) = (self.below(40), self.below(3));
        (0..count)
            .map(|_| match kind {
                0 => self.below(8) as i32 - 4,
                1 => [i32::MIN, i32::MAX, 0, -1][self.below(4) as usize],
                _ => self.below(1 << 31) as i32,
            })
            .collect()
    }
}

/// The places of each two equal keys.
fn joined(left: &[i32], right: &[i32]) -> (Vec<i32>, Vec<i32>) {
    let mut places: HashMap<i32, Vec<i32>> = HashMap::new();
    for (place, &key) in right.iter().enumerate() {
        places.entry(key).or_default().push(place as i32);
    }
    let of_left = |(place, key)| places.get(key).into_iter().flatten().map(move |&j| (place as i32, j));
    left.iter().enumerate().flat_map(of_left).unzip()
}

#[test]
fn joins() {
    let mut numbers = Numbers(1);
    for _ in 0..400 {
        let (left, right) = (numbers.keys(), numbers.keys());
        for right in [&right, &left] {
            assert_eq!(join::join(&left, right).unwrap(), joined(&left, right));
        }
    }
}

/// The least time of some runs, in milliseconds.
fn least<T>(run: impl Fn() -> T) -> f64 {
    let times = (0..5).map(|_| {
        let start = Instant::now();
        run();
        start.elapsed().as_secs_f64() * 1e3
    });
    times.fold(f64::INFINITY, f64::min)
}

#[test]
#[ignore = "it prints how long a join takes beside one by a hash table"]
fn times() {
    let (mut numbers, many) = (Numbers(1), 1 << 20);
    let mut keys = || -> Vec<i32> { (0..many).map(|_| numbers.below(many) as i32).collect() };
    let (left, right) = (keys(), keys());
    let ours = |threads| {
        cvl::set_threads(threads).unwrap();
        least(|| join::join(&left, &right).unwrap())
    };
    println!("by one thread {:.0}, by four {:.0}", ours(1), ours(4));
    println!("by a hash table {:.0}", least(|| joined(&left, &right)));
}
