//! The vector calls of CVL over slices: flat and segmented vectors of 32-bit integers and booleans.
//!
//! Each call takes slices, and segments as [`Segments`], and returns a new vector or a [`Fault`]. A function whose name
//! ends in `_into` writes into a room, a slice of yours, and one whose name ends in `_in` works in place. Beside the calls
//! there are others, such as [`read_ints`] for texts, [`first_senders`], and [`int_scan_after`] for calls in parts.
//!
//! ```
//! let rows = cvl::Segments::new(&[2, 0, 3])?;
//! assert_eq!(cvl::add_rez(&[3, 1, 4, 1, 5], &rows)?, [4, 0, 10]);
//! # Ok::<(), cvl::Fault>(())
//! ```
//!
#![cfg_attr(
    feature = "std",
    doc = "Long calls run on several threads after [`set_threads`], or on a [`Pool`] of the program's own by [`with_pool`]."
)]
#![cfg_attr(not(feature = "std"), no_std)]

extern crate alloc;

#[rustfmt::skip]
mod calls;
#[rustfmt::skip]
mod families;
mod fault;
mod lengths;
mod nested;
#[rustfmt::skip]
mod numbers;
mod pool;
mod segments;
#[cfg(feature = "std")]
mod threads;

pub use calls::*;
pub use families::*;
pub use fault::Fault;
pub use nested::{seg_read_ints, seg_read_ints_into};
pub use numbers::{faults, Operator};
#[cfg(feature = "std")]
pub use pool::{with_pool, Pool};
pub use segments::{len_fos, len_lub, len_luz, Segments};
#[cfg(feature = "std")]
pub use threads::{set_threads, threads};

/// The most elements of a vector, and the greatest total of segments.
pub const MOST_ELEMENTS: usize = cvl_sys::CVL_MOST_ELEMENTS;

/// The most elements of a nested text that is read at once, and the most of its lists.
pub const MOST_OF_TEXT: usize = cvl_sys::CVL_MOST_OF_TEXT;

/// The version of the library.
pub fn version() -> &'static str {
    // The library answers a text that ends with a zero and is never written.
    unsafe { fault::told_text(cvl_sys::cvl_version()) }
}

/// Which library this is: its version, the revision of its sources and the processors that it was built for.
pub fn build() -> &'static str {
    // As the version.
    unsafe { fault::told_text(cvl_sys::cvl_build()) }
}
