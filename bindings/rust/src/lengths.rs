//! How long arguments may be, and have to be where they go together, and rooms for results.

use alloc::alloc::{alloc_zeroed, Layout};
use alloc::string::String;
use alloc::vec::Vec;

use crate::fault::Fault;
use crate::numbers::faults::LENGTH_MISMATCH;
use crate::MOST_ELEMENTS;

/// Elements for which zero bytes are a value.
pub(crate) trait Zero {}

impl Zero for i32 {}
impl Zero for i64 {}
impl Zero for bool {}
impl Zero for u8 {}

/// A vector may have so many elements.
pub(crate) fn limit(length: usize) -> Result<(), Fault> {
    if length <= MOST_ELEMENTS {
        Ok(())
    } else {
        Err(Fault::too_long())
    }
}

/// These are the same.
pub(crate) fn same(lengths: &[usize]) -> Result<(), Fault> {
    if lengths.iter().all(|length| length == &lengths[0]) {
        Ok(())
    } else {
        Err(Fault::length_mismatch())
    }
}

/// How many elements a count asks for.
pub(crate) fn places(count: i64) -> Result<usize, Fault> {
    match usize::try_from(count) {
        Err(_) if count < 0 => Err(Fault::negative_length()),
        Ok(places) if places <= MOST_ELEMENTS => Ok(places),
        _ => Err(Fault::too_long()),
    }
}

/// How many flags are true.
pub(crate) fn true_flags(flags: &[bool]) -> usize {
    flags.iter().filter(|&&flag| flag).count()
}

/// At most so many words stand in a text, of those that a call reads: each has a byte, and white space behind it but the last.
pub(crate) fn most_words(text: &[u8]) -> usize {
    (text.len() / 2 + 1).min(MOST_ELEMENTS)
}

/// A room of so many zeros, if there is memory for it. The system has zeros at hand for a large one, which are then not written.
pub(crate) fn zeros<T: Zero>(places: usize) -> Result<Vec<T>, Fault> {
    if places == 0 {
        return Ok(Vec::new());
    }
    let layout = Layout::array::<T>(places).map_err(|_| Fault::no_resources())?;
    // The layout is not empty.
    let room = unsafe { alloc_zeroed(layout) };
    if room.is_null() {
        return Err(Fault::no_resources());
    }
    // The global allocator gave the memory by the layout of as many elements, and zero bytes are a value of each.
    Ok(unsafe { Vec::from_raw_parts(room.cast(), places, places) })
}

/// What a call writes that tells how many elements it has, where so many places are enough. A fault that hangs on no
/// memory is told before there is none.
pub(crate) fn counted<T: Zero>(places: usize, fill: impl Fn(&mut [T]) -> Result<usize, Fault>) -> Result<Vec<T>, Fault> {
    let mut out = match zeros(places) {
        Ok(out) => out,
        Err(no_memory) => return Err(without_room(no_memory, fill(&mut []))),
    };
    let count = fill(&mut out)?;
    out.truncate(count);
    Ok(out)
}

/// The fault of a call for whose room there is no memory: its own, where it is not that there is no room.
pub(crate) fn without_room<T>(no_memory: Fault, asked: Result<T, Fault>) -> Fault {
    match asked {
        Err(fault) if fault.number() != LENGTH_MISMATCH => fault,
        _ => no_memory,
    }
}

/// A text that the library wrote, which has digits, letters, blanks, signs and brackets alone.
pub(crate) fn text_of(bytes: Vec<u8>) -> String {
    String::from_utf8(bytes).expect("a text of the library is ASCII")
}

/// A copy of integers, if there is memory for it.
pub(crate) fn copied(numbers: impl ExactSizeIterator<Item = i32>) -> Result<Vec<i32>, Fault> {
    let mut copy = Vec::new();
    copy.try_reserve_exact(numbers.len()).map_err(|_| Fault::no_resources())?;
    copy.extend(numbers);
    Ok(copy)
}

#[cfg(test)]
mod tests {
    use super::*;

    #[test]
    fn as_many_as_a_vector_may_have_and_no_more() {
        let most = MOST_ELEMENTS as i64;
        assert_eq!(limit(MOST_ELEMENTS), Ok(()));
        assert_eq!(places(most), Ok(MOST_ELEMENTS));
        for fault in [limit(MOST_ELEMENTS + 1).unwrap_err(), places(most + 1).unwrap_err(), places(i64::MAX).unwrap_err()] {
            assert_eq!(fault, Fault::too_long());
        }
        assert_eq!(places(-1), Err(Fault::negative_length()));
        assert_eq!(places(i64::MIN), Err(Fault::negative_length()));
    }

    #[test]
    fn a_fault_is_told_before_memory_that_is_not_there() {
        let no_memory = Fault::no_resources();
        let too_many = usize::MAX;
        let full = |room: &mut [i32]| {
            assert!(room.is_empty());
            Err(Fault::length_mismatch())
        };
        assert_eq!(counted(too_many, full), Err(no_memory));
        assert_eq!(counted(too_many, |_: &mut [i32]| Err(Fault::too_long())), Err(Fault::too_long()));
        assert_eq!(counted(too_many, |_: &mut [i32]| Ok(0)), Err(no_memory));
    }
}
