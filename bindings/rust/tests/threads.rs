//! The library's own threads, which the whole process has: one test, so that nobody else says how many there are.

mod limit;
mod long;

use std::ffi::{c_void, CStr};
use std::io::ErrorKind;
use std::os::raw::{c_char, c_int};
use std::process::Command;
use std::sync::atomic::{AtomicI32, AtomicUsize, Ordering};
use std::time::Duration;
use std::{env, fs, ptr, thread};

use limit::limit;
use long::{ints, sum, Long, LONG};

/// How many threads the process has.
fn of_the_process() -> usize {
    fs::read_dir("/proc/self/task").unwrap().count()
}

/// How many threads more may start. The system's function is taken, and refuses the others as a system does that has too many.
static GRANTED: AtomicUsize = AtomicUsize::new(usize::MAX);
/// The number of the error of those that may not.
static NUMBER: AtomicI32 = AtomicI32::new(0);

const EPERM: c_int = 1;
const ENOENT: c_int = 2;
const EAGAIN: c_int = 11;

type Create = extern "C" fn(*mut c_void, *const c_void, *const c_void, *mut c_void) -> c_int;

extern "C" {
    fn dlsym(handle: *mut c_void, name: *const c_char) -> *mut c_void;
    fn __errno_location() -> *mut c_int;
}

#[no_mangle]
pub extern "C" fn pthread_create(
    thread: *mut c_void,
    attributes: *const c_void,
    run: *const c_void,
    given: *mut c_void,
) -> c_int {
    let fewer = |granted: usize| granted.checked_sub(1);
    if GRANTED.fetch_update(Ordering::SeqCst, Ordering::SeqCst, fewer).is_err() {
        // the answer is the number of the error, and errno may have any
        unsafe { *__errno_location() = ENOENT };
        return NUMBER.load(Ordering::SeqCst);
    }
    let next = ptr::null_mut::<c_void>().wrapping_sub(1);
    let name = CStr::from_bytes_with_nul(b"pthread_create\0").unwrap();
    let create: Create = unsafe { std::mem::transmute(dlsym(next, name.as_ptr())) };
    create(thread, attributes, run, given)
}

/// Whether the process comes to have so many: the system still counts a thread for a moment after it was waited for.
fn comes_to(threads: usize) -> bool {
    (0..1000).any(|_| {
        thread::sleep(Duration::from_millis(5));
        of_the_process() == threads
    })
}

fn set(threads: usize) {
    cvl::set_threads(threads).unwrap();
    assert_eq!(cvl::threads(), threads);
}

fn numbers_that_are_none_are_refused() {
    set(3);
    for none in [0, 65, usize::MAX] {
        let error = cvl::set_threads(none).unwrap_err();
        assert_eq!(error.kind(), ErrorKind::InvalidInput);
        assert_eq!(cvl::threads(), 3);
    }
}

fn an_error_has_its_number() {
    let a = ints(LONG);
    for (before, granted, number) in [(1, 0, EAGAIN), (1, 1, EPERM), (3, 0, EPERM), (3, 2, EAGAIN)] {
        set(before);
        NUMBER.store(number, Ordering::SeqCst);
        GRANTED.store(granted, Ordering::SeqCst);
        let error = cvl::set_threads(5).unwrap_err();
        GRANTED.store(usize::MAX, Ordering::SeqCst);
        assert_eq!(error.raw_os_error(), Some(number));
        assert_eq!((cvl::threads(), cvl::add_ruz(&a)), (before, Ok(sum(&a))));
    }
}

fn long_calls_run_on_them(before: usize) {
    let long = Long::new();
    let a = ints(LONG);
    for threads in [4, 2, 1] {
        set(threads);
        long.calls_are_right().unwrap();
        long.faults_are_told();
        // those that waited for a second without work have ended
        assert_eq!(cvl::add_ruz(&a), Ok(sum(&a)));
        assert!(comes_to(before + threads - 1), "{} threads by {threads}", of_the_process());
    }
}

fn calls_of_several_threads_at_once() {
    set(4);
    let a = ints(LONG);
    let wanted = sum(&a);
    thread::scope(|scope| {
        for _ in 0..4 {
            scope.spawn(|| (0..50).for_each(|_| assert_eq!(cvl::add_ruz(&a), Ok(wanted))));
        }
        scope.spawn(|| (0..50).for_each(|k| cvl::set_threads(1 + k % 4).unwrap()));
    });
}

/// What a process has at its start where the variable says this.
fn started_with(said: &str) -> usize {
    let itself = env::current_exe().unwrap();
    let mut child = Command::new(itself);
    let output = child.env("CVL_NUM_THREADS", said).env("TELLS_THREADS", "1").arg("--nocapture").output().unwrap();
    let told = String::from_utf8(output.stdout).unwrap();
    let line = told.lines().find_map(|line| line.split("threads: ").nth(1));
    line.expect("the process tells how many").parse().unwrap()
}

#[test]
fn threads_of_the_process() {
    limit();
    if env::var_os("TELLS_THREADS").is_some() {
        println!("threads: {}", cvl::threads());
        return;
    }
    for (said, threads) in [("3", 3), ("0", 1), ("many", 1), ("65", 64), (" 4", 4)] {
        assert_eq!(started_with(said), threads);
    }
    let before = of_the_process();
    numbers_that_are_none_are_refused();
    an_error_has_its_number();
    long_calls_run_on_them(before);
    calls_of_several_threads_at_once();
}
