//! The functions as C has them that are no call, types, and what a caller gets wrong.

use std::ffi::CStr;
use std::mem::size_of;
use std::ptr::{null, null_mut};

use cvl_sys::*;

/// Lengths as the library takes them.
fn given(lengths: &[i32]) -> CvlLengths {
    CvlLengths { lengths: lengths.as_ptr(), segments: lengths.len() }
}

/// The descriptor of segments with these lengths.
fn descriptor(lengths: &[i32]) -> CvlSegments {
    let mut made = CVL_NO_SEGMENTS;
    let status = unsafe { cvl_segments_new(given(lengths), &mut made) };
    assert_eq!(status, DONE);
    made
}

const DONE: CvlStatus = CvlStatus { number: CVL_DONE, place: -1 };

extern "C" {
    /// Ends the process after so many seconds, for a test that could wait for ever.
    fn alarm(seconds: u32) -> u32;
}

fn text(found: *const u8) -> &'static str {
    unsafe { CStr::from_ptr(found.cast()) }.to_str().unwrap()
}

#[test]
fn types_are_as_long_as_in_c() {
    let word = size_of::<usize>();
    assert_eq!(size_of::<CvlStatus>(), 16);
    assert_eq!(size_of::<CvlLengths>(), 2 * word);
    assert_eq!(size_of::<CvlSegments>(), 3 * word);
    assert_eq!(size_of::<CvlPool>(), 3 * word);
}

#[test]
fn the_version_and_the_names_of_faults() {
    assert_eq!(text(unsafe { cvl_version() }), CVL_VERSION);
    let build = text(unsafe { cvl_build() });
    assert_eq!(build.split(' ').next(), Some(CVL_VERSION));
    assert_eq!(build.split(' ').count(), 3, "{build}");
    let numbers = [CVL_VERSION_MAJOR, CVL_VERSION_MINOR, CVL_VERSION_PATCH];
    assert_eq!(numbers.map(|number| number.to_string()).join("."), CVL_VERSION);
    let name = |number| text(unsafe { cvl_fault_name(number) });
    let named = [
        (CVL_LENGTH_MISMATCH, "LengthMismatch"),
        (CVL_INDEX_REPEATED, "IndexRepeated"),
        (CVL_OVERLAP, "Overlap"),
        (4_000_000_000, "Unknown"),
    ];
    for (number, wanted) in named {
        assert_eq!(name(number), wanted);
    }
}

#[test]
fn bytes_that_are_no_booleans() {
    let mut bytes = [0_u8, 1, 2, 255, 0];
    let flags: *mut bool = bytes.as_mut_ptr().cast();
    unsafe {
        assert!(!cvl_are_flags(flags, 5));
        assert!(cvl_are_flags(flags, 2));
        cvl_make_flags(flags, 5);
        assert!(cvl_are_flags(flags, 5));
    }
    assert_eq!(bytes, [0, 1, 1, 1, 0]);
}

#[test]
fn indices_of_64_bits() {
    let (index, mut found) = ([3_i64, -1, 1 << 32, i64::MIN], [7_i32; 4]);
    let told = unsafe { cvl_narrow_index(index.as_ptr(), 4, found.as_mut_ptr(), 4) };
    assert_eq!((told, found), (DONE, [3, -1, -1, -1]));
    let told = unsafe { cvl_narrow_index(index.as_ptr(), 4, found.as_mut_ptr(), 3) };
    assert_eq!(told.number, CVL_LENGTH_MISMATCH);
}

#[test]
fn descriptors() {
    let lengths = [2, 0, 3];
    let (mut made, mut total) = (descriptor(&lengths), 0);
    unsafe {
        assert_eq!(cvl_segments_total(&made, &mut total), DONE);
        assert_eq!((total, made.segments, made.some), (5, 3, true));
        let (mut offsets, mut numbers, mut room) = ([9; 4], [9; 5], [9; 3]);
        assert_eq!(cvl_segments_offsets(&made, offsets.as_mut_ptr(), 4), DONE);
        assert_eq!(cvl_segments_numbers(&made, numbers.as_mut_ptr(), 5), DONE);
        assert_eq!((offsets, numbers), ([0, 2, 2, 5], [0, 0, 2, 2, 2]));
        let read = cvl_segments_from_offsets(offsets.as_ptr(), 4, room.as_mut_ptr(), 3, &mut made);
        assert_eq!((read, room, made.segments), (DONE, lengths, 3));
        assert_eq!(cvl_segments_free(&mut made), DONE);
        assert_eq!(cvl_segments_free(null_mut()), DONE);
        let wrong = cvl_segments_new(given(&[1, -1]), &mut made);
        assert_eq!((wrong.number, wrong.place), (CVL_NEGATIVE_LENGTH, 1));
        let none = cvl_segments_total(&made, &mut total);
        assert_eq!((none.number, none.place), (CVL_NO_DESCRIPTOR, -1));
    }
    assert!(!made.some);
}

#[test]
fn what_a_caller_gets_wrong_is_told() {
    let (mut a, index) = ([1, 2, 3], [0, 5, 1]);
    unsafe {
        let out = a.as_mut_ptr();
        let askew = cvl_add_suz(out, out.add(1), 2);
        assert_eq!((askew.number, askew.place), (CVL_OVERLAP, -1));
        let outside = cvl_bck_puz(a.as_ptr(), 3, index.as_ptr(), [7; 3].as_mut_ptr(), 3);
        assert_eq!((outside.number, outside.place), (CVL_INDEX_OUT_OF_RANGE, 1));
        let none = cvl_int2(CVL_NOT, null(), 0, null(), 0, null_mut(), 0);
        assert_eq!((none.number, none.place), (CVL_UNKNOWN_CALL, -1));
    }
    assert_eq!(a, [1, 2, 3]);
}

#[test]
fn threads_of_the_process() {
    unsafe {
        alarm(90);
        assert_eq!(cvl_set_threads(2), 0);
        assert_eq!(cvl_threads(), 2);
        assert_ne!(cvl_set_threads(65), 0);
        assert_eq!((cvl_set_threads(1), cvl_threads()), (0, 1));
    }
}

#[test]
fn posix_threads_run_the_parts() {
    let a: Vec<i32> = (0..600_000).collect();
    let (mut threads, mut out) = (null_mut(), vec![0; a.len()]);
    unsafe {
        alarm(90);
        assert_eq!(cvl_threads_start(3, &mut threads), 0);
        let pool = cvl_pool_posix(threads);
        assert_eq!((pool.parts, cvl_pool_alone(5).parts), (3, 5));
        assert_eq!(cvl_add_wuz_on(&pool, a.as_ptr(), a.as_ptr(), out.as_mut_ptr(), a.len()), DONE);
        cvl_threads_stop(threads);
    }
    assert!(out.iter().zip(&a).all(|(found, a)| *found == 2 * a));
}
