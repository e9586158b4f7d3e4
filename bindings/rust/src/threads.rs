//! The library's own threads, for the whole process.

use std::io;

/// Lets long calls run on so many threads, 1 to 64, the one that calls among them, in the whole process. What a call gives, and its
/// faults, are the same by any number.
///
/// At the start there is one, or as many as the variable `CVL_NUM_THREADS` says. One call at a time has the threads, and another one
/// meanwhile runs on the thread that makes it. A call within [`with_pool`](crate::with_pool) runs on that pool alone. The child of a
/// fork has one thread until it says another number.
///
/// The error is `InvalidInput` where that is no such number, or the system's where it starts no thread more; then there are as many
/// as before.
///
/// ```
/// cvl::set_threads(2)?;
/// assert_eq!(cvl::threads(), 2);
/// assert_eq!(cvl::add_ruz(&[1; 1_000_000]).unwrap(), 1_000_000);
/// # Ok::<(), std::io::Error>(())
/// ```
pub fn set_threads(threads: usize) -> io::Result<()> {
    match unsafe { cvl_sys::cvl_set_threads(threads) } {
        0 => Ok(()),
        error => Err(io::Error::from_raw_os_error(error)),
    }
}

/// How many threads long calls run on.
pub fn threads() -> usize {
    unsafe { cvl_sys::cvl_threads() }
}
