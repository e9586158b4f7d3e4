//! The functions of the library `cvl` as its headers for C, `cvl.h` and `cvl_parallel.h`, declare them: each call of
//! the table, as [`cvl_add_wuz`]; each family, as [`cvl_int2`]; those on segments with a descriptor, as
//! [`cvl_segments_int_scan`]; and each in parts, as [`cvl_add_wuz_on`]. The crate `cvl` has the calls over slices,
//! without `unsafe`.
//!
//! What is C's `size_t` is a `usize`, and a text is bytes. An array of booleans is a `*const bool`; a function takes
//! any byte of it that is not 0 for true, so that a pointer to other bytes may be cast to it, and writes 0 and 1
//! alone.
//!
//! # Safety
//!
//! Each function is `unsafe`, since a caller owes what `cvl.h` says at its top: a pointer leads to as many elements as are said,
//! aligned, which may be read and in a room written, and no other thread writes them or reads a room meanwhile. All else is
//! checked: lengths, overlaps, operators, and what the elements are.
//!
//! ```
//! use cvl_sys::{cvl_div_wuz, CVL_DIVIDE_BY_ZERO};
//! let (a, b, mut out) = ([7, 7], [2, 0], [0; 2]);
//! let status = unsafe { cvl_div_wuz(a.as_ptr(), b.as_ptr(), out.as_mut_ptr(), out.len()) };
//! assert_eq!((status.number, status.place, out), (CVL_DIVIDE_BY_ZERO, 1, [0; 2]));
//! ```

#![no_std]

mod by_hand;
#[rustfmt::skip]
mod constants;
#[rustfmt::skip]
mod functions;

pub use by_hand::*;
pub use constants::*;
pub use functions::*;
