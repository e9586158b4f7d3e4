//! Calls in parts on pools of all sorts: what they give is what plain loops give, or the call is refused with its room as before.

mod limit;
mod long;
#[path = "../examples/scoped_threads.rs"]
mod scoped_threads;

use std::cell::{Cell, RefCell};
use std::panic::{catch_unwind, AssertUnwindSafe};
use std::thread::{self, ThreadId};

use cvl::{with_pool, Pool};
use limit::limit;
use long::{ints, sum, told, Long, LONG};
use scoped_threads::ScopedThreads;

/// A pool of so many parts that runs them in some way.
struct By<F>(usize, F);

type Part<'a> = &'a (dyn Fn(usize) + Sync);

impl<F: Fn(usize, Part<'_>)> Pool for By<F> {
    fn parts(&self) -> usize {
        self.0
    }

    fn run(&self, parts: usize, part: &(dyn Fn(usize) + Sync)) {
        (self.1)(parts, part)
    }
}

fn by<F: Fn(usize, Part<'_>)>(parts: usize, run: F) -> By<F> {
    By(parts, run)
}

#[test]
fn pools_that_run_each_part() {
    limit();
    let backwards = by(4, |parts, part| (0..parts).rev().for_each(part));
    let twice = by(4, |parts, part| (0..2 * parts).for_each(|k| part(k % parts)));
    let beyond = by(4, |parts, part| (0..=parts).chain([usize::MAX, usize::MAX / 2]).for_each(part));
    let by_another = by(3, |parts, part| thread::scope(|scope| drop(scope.spawn(|| (0..parts).for_each(part)))));
    let at_once = by(4, |parts, part| thread::scope(|scope| (0..2 * parts).for_each(|k| drop(scope.spawn(move || part(k / 2))))));
    let many = by(1_000, |parts, part| (0..parts).for_each(part));
    let none = by(0, |parts, part| (0..parts).for_each(part));
    let pools: [&dyn Pool; 8] = [&backwards, &twice, &beyond, &by_another, &at_once, &many, &none, &ScopedThreads(4)];
    let long = Long::new();
    for pool in pools {
        with_pool(pool, || long.calls_are_right()).unwrap();
        with_pool(pool, || long.faults_are_told());
    }
}

#[test]
fn a_pool_that_leaves_parts_out_is_told() {
    limit();
    let leaving_out = [(0, 1), (1, 2), (3, 4), (0, 4)];
    let a = ints(LONG);
    for (from, to) in leaving_out {
        let pool = by(4, move |parts, part| (0..parts).filter(|k| !(from..to).contains(k)).for_each(part));
        let mut room = vec![7; LONG];
        let found = with_pool(&pool, || {
            [
                cvl::add_wuz_into(&a, &a, &mut room).map(|_| 0),
                cvl::add_suz_into(&a, &mut room).map(|_| 0),
                cvl::pck_luz_into(&a, &vec![true; LONG], &mut room).map(|_| 0),
                cvl::add_ruz(&a).map(|_| 0),
            ]
        });
        assert_eq!(found.map(|found| told(found.unwrap_err())), [(100, None); 4]);
        assert!(room == vec![7; LONG]);
    }
}

/// A pool that leaves a part out of each step from the second on, which for most calls is one that writes.
#[test]
fn a_part_that_is_left_out_of_a_step_that_writes_is_run_by_the_thread_that_calls() {
    limit();
    let a = ints(LONG);
    let steps = Cell::new(0);
    let pool = by(4, |parts, part| {
        steps.set(steps.get() + 1);
        (0..parts).skip(usize::from(steps.get() > 1)).for_each(part)
    });
    let doubled = with_pool(&pool, || cvl::add_wuz(&a, &a)).unwrap();
    assert!(doubled.iter().zip(&a).all(|(found, a)| *found == a.wrapping_mul(2)));
    assert_eq!(steps.get(), 2);
}

#[test]
fn a_panic_of_a_pool_goes_on_after_the_call() {
    limit();
    let a = ints(LONG);
    for panics_after in 0..6 {
        let runs = Cell::new(0);
        let pool = by(4, |parts, part| {
            let run = (0..parts).filter(|_| runs.replace(runs.get() + 1) != panics_after || panic!("part {panics_after}"));
            run.for_each(part)
        });
        let mut room = vec![7; LONG];
        let caught = catch_unwind(AssertUnwindSafe(|| with_pool(&pool, || cvl::add_wuz_into(&a, &a, &mut room))));
        let payload = caught.unwrap_err();
        assert_eq!(payload.downcast_ref(), Some(&format!("part {panics_after}")));
        // the first step has no work; in the second one the thread that calls runs what the pool left out
        let first = panics_after < 4;
        assert!(room.iter().zip(&a).all(|(found, a)| *found == if first { 7 } else { a.wrapping_mul(2) }));
        assert_eq!(runs.get(), panics_after + 1);
        assert_eq!(cvl::add_ruz(&a), Ok(sum(&a)));
    }
}

/// A text is written in two steps that write, after one without work.
#[test]
fn a_pool_that_panicked_runs_nothing_more_of_the_call() {
    limit();
    let a = ints(LONG);
    let runs = Cell::new(0);
    let pool = by(4, |parts, part| {
        (0..parts).for_each(part);
        runs.set(runs.get() + 1);
        assert!(runs.get() != 2, "the second step");
    });
    let caught = catch_unwind(AssertUnwindSafe(|| with_pool(&pool, || cvl::write_ints(&a))));
    assert_eq!(caught.unwrap_err().downcast_ref(), Some(&"the second step"));
    assert_eq!(runs.get(), 2);
}

/// A payload is given on and not dropped on the way, which may panic too.
#[test]
fn a_payload_that_panics_when_it_is_dropped() {
    limit();
    struct Bomb;
    impl Drop for Bomb {
        fn drop(&mut self) {
            if !thread::panicking() {
                panic!("dropped");
            }
        }
    }
    let pool = by(4, |_, _| std::panic::panic_any(Bomb));
    let a = ints(LONG);
    let caught = catch_unwind(AssertUnwindSafe(|| with_pool(&pool, || cvl::add_wuz(&a, &a))));
    let payload = caught.unwrap_err();
    assert!(payload.is::<Bomb>());
    std::mem::forget(payload);
}

#[test]
fn the_pool_is_that_of_the_thread_and_of_the_time() {
    limit();
    let a = ints(LONG);
    let (outer_runs, inner_runs) = (Cell::new(0), Cell::new(0));
    let count = |runs: &Cell<i32>| runs.replace(0) > 0;
    let outer = by(4, |parts, part| {
        outer_runs.set(outer_runs.get() + 1);
        (0..parts).for_each(part)
    });
    let inner = by(2, |parts, part| {
        inner_runs.set(inner_runs.get() + 1);
        (0..parts).for_each(part)
    });
    with_pool(&outer, || {
        cvl::add_ruz(&a).unwrap();
        assert!(count(&outer_runs));
        with_pool(&inner, || cvl::add_ruz(&a).unwrap());
        assert!(count(&inner_runs) && !count(&outer_runs));
        cvl::add_ruz(&a[..100_000]).unwrap();
        thread::scope(|scope| drop(scope.spawn(|| cvl::add_ruz(&a).unwrap())));
        assert!(!count(&outer_runs));
        let panicked = catch_unwind(AssertUnwindSafe(|| with_pool(&inner, || panic!("on the way"))));
        assert!(panicked.is_err());
        cvl::add_ruz(&a).unwrap();
        assert!(count(&outer_runs) && !count(&inner_runs));
    });
    cvl::add_ruz(&a).unwrap();
    assert!(!count(&outer_runs));
}

#[test]
fn calls_within_the_run_of_a_pool_do_not_run_on_it() {
    limit();
    let a = ints(LONG);
    let found = RefCell::new(Vec::new());
    let pool = by(4, |parts, part| {
        (0..parts).for_each(part);
        found.borrow_mut().push(cvl::add_ruz(&a).unwrap());
    });
    assert_eq!(with_pool(&pool, || cvl::add_ruz(&a)), Ok(sum(&a)));
    assert!(!found.borrow().is_empty() && found.borrow().iter().all(|found| *found == sum(&a)));
}

#[test]
fn threads_share_the_parts() {
    limit();
    let a = ints(4 * LONG);
    let seen = std::sync::Mutex::new(Vec::<ThreadId>::new());
    let pool = by(4, |parts, part| {
        thread::scope(|scope| {
            for k in 0..parts {
                let seen = &seen;
                scope.spawn(move || {
                    seen.lock().unwrap().push(thread::current().id());
                    part(k)
                });
            }
        })
    });
    assert_eq!(with_pool(&pool, || cvl::add_ruz(&a)), Ok(sum(&a)));
    let seen = seen.into_inner().unwrap();
    assert!(seen.len() >= 4 && !seen.contains(&thread::current().id()));
}
