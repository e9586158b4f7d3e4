//! The types of the headers, and the functions that are no call: versions, flags, descriptors and pools.

use core::ffi::c_void;
use core::marker::{PhantomData, PhantomPinned};
use core::ptr::null;

/// What a call answers.
#[repr(C)]
#[derive(Clone, Copy, Debug, PartialEq, Eq, Hash)]
#[must_use = "a call that is not done has written nothing"]
pub struct CvlStatus {
    /// 0 where all is done, the number of a fault, or 100 or more.
    pub number: u32,
    /// The place of the fault, counted from 0, or -1.
    pub place: i64,
}

/// The lengths of segments, one for each, empty ones too.
#[repr(C)]
#[derive(Clone, Copy, Debug)]
pub struct CvlLengths {
    pub lengths: *const i32,
    /// How many there are.
    pub segments: usize,
}

/// A descriptor of segments, whose lengths are the caller's and live as long as it is used.
#[repr(C)]
#[derive(Clone, Copy, Debug)]
pub struct CvlSegments {
    pub lengths: *const i32,
    /// How many there are.
    pub segments: usize,
    /// Whether there is a descriptor.
    pub some: bool,
}

/// What a descriptor starts as.
pub const CVL_NO_SEGMENTS: CvlSegments = CvlSegments { lengths: null(), segments: 0, some: false };

/// The most parts of a call.
pub const CVL_MOST_PARTS: usize = 64;

/// One part of the work at hand, by its number.
pub type CvlPart = unsafe extern "C" fn(work: *mut c_void, part: usize);

/// Who runs the parts of calls; `cvl_parallel.h` says what `run` owes.
#[repr(C)]
#[derive(Clone, Copy, Debug)]
pub struct CvlPool {
    /// Into how many parts a long vector is cut: 0 are one, and more than [`CVL_MOST_PARTS`] are that many.
    pub parts: usize,
    pub run: unsafe extern "C" fn(state: *mut c_void, part: CvlPart, work: *mut c_void, parts: usize),
    /// What `run` is given.
    pub state: *mut c_void,
}

/// POSIX threads that wait for parts, known by a pointer alone.
#[repr(C)]
pub struct CvlThreads {
    _nothing: [u8; 0],
    _of_the_library: PhantomData<(*mut u8, PhantomPinned)>,
}

extern "C" {
    /// The version of the library, as a text with a zero at its end that is never written.
    pub fn cvl_version() -> *const u8;

    /// Which library this is: its version, the revision of its sources and the processors that it was built for, with a zero at its
    /// end, never written.
    pub fn cvl_build() -> *const u8;

    /// The name of the number of a status, as "DivideByZero", with a zero at its end; "Unknown" where it is no such number.
    pub fn cvl_fault_name(number: u32) -> *const u8;

    /// Writes why a call is not done, at most `size` bytes with a zero at their end, and answers how long the whole text is without
    /// it. Which value or which lengths are at fault is said of the last call of this thread that was not done.
    pub fn cvl_explain(status: CvlStatus, text: *mut u8, size: usize) -> usize;

    /// Says how many threads there are for long calls, 1 to 64, with the one that calls. The answer is 0, or the number of an
    /// error of the system, and then there are as many as before.
    pub fn cvl_set_threads(threads: usize) -> i32;

    /// How many threads there are for long calls.
    pub fn cvl_threads() -> usize;

    /// Whether each byte is 0 or 1.
    pub fn cvl_are_flags(flags: *const bool, flags_len: usize) -> bool;

    /// Makes each byte that is not 0 a 1.
    pub fn cvl_make_flags(flags: *mut bool, flags_len: usize);

    /// Each index in 32 bits, as calls take it: one outside 32 bits becomes -1, which is no place of any vector.
    pub fn cvl_narrow_index(index: *const i64, index_len: usize, out: *mut i32, out_len: usize) -> CvlStatus;

    /// Makes the descriptor of segments with these lengths. After a fault of the lengths there is none.
    pub fn cvl_segments_new(lengths: CvlLengths, segments: *mut CvlSegments) -> CvlStatus;

    /// Makes the descriptor of segments that start at these offsets, the last of which is where the last one ends, and writes
    /// their lengths into a room. After a fault there is none.
    pub fn cvl_segments_from_offsets(
        offsets: *const i32,
        offsets_len: usize,
        lengths: *mut i32,
        lengths_len: usize,
        segments: *mut CvlSegments,
    ) -> CvlStatus;

    /// Lets go of a descriptor, of which nothing is left then; a null pointer is none.
    pub fn cvl_segments_free(segments: *mut CvlSegments) -> CvlStatus;

    /// How many elements the segments have in all.
    pub fn cvl_segments_total(segments: *const CvlSegments, total: *mut usize) -> CvlStatus;

    /// Where each segment starts, and last where the last one ends.
    pub fn cvl_segments_offsets(segments: *const CvlSegments, out: *mut i32, out_len: usize) -> CvlStatus;

    /// At each place the number of its segment, counted from 0.
    pub fn cvl_segments_numbers(segments: *const CvlSegments, out: *mut i32, out_len: usize) -> CvlStatus;

    /// A pool of the thread that calls, which runs so many parts in turn.
    pub fn cvl_pool_alone(parts: usize) -> CvlPool;

    /// A pool of the threads, with a part for each; of a null pointer, one of the thread that calls.
    pub fn cvl_pool_posix(threads: *mut CvlThreads) -> CvlPool;

    /// Starts threads, so many with the one that calls, 1 to 64, and tells where they are; or the number of an error of POSIX.
    pub fn cvl_threads_start(threads: usize, started: *mut *mut CvlThreads) -> i32;

    /// Ends the threads, and waits for them, and for a call that is at work.
    pub fn cvl_threads_stop(threads: *mut CvlThreads);
}
