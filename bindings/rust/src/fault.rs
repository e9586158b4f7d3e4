//! Faults: why a call has no value.

use alloc::string::{String, ToString};
use alloc::vec;
use core::fmt;
use core::hash::{Hash, Hasher};
use core::ptr::null_mut;

use cvl_sys::CvlStatus;

use crate::numbers::faults;

/// Why a call has no value: the number of the fault, and its place, where it has one.
///
/// ```
/// let fault = cvl::div_wuz(&[7, 7], &[2, 0]).unwrap_err();
/// assert_eq!((fault.number(), fault.name(), fault.place()), (cvl::faults::DIVIDE_BY_ZERO, "DivideByZero", Some(1)));
/// assert_eq!(fault.to_string(), "fault 8 DivideByZero at 1");
/// ```
#[derive(Clone, Copy, Debug, PartialEq, Eq, Hash)]
pub struct Fault {
    number: u32,
    place: Option<u64>,
    needed: Option<usize>,
    by_library: ByLibrary,
}

/// Whether the library reported a fault, and not this crate: no part of what the fault is.
#[derive(Clone, Copy, Debug)]
struct ByLibrary(bool);

impl PartialEq for ByLibrary {
    fn eq(&self, _: &ByLibrary) -> bool {
        true
    }
}

impl Eq for ByLibrary {}

impl Hash for ByLibrary {
    fn hash<H: Hasher>(&self, _: &mut H) {}
}

/// What a count says that the library did not write.
pub(crate) const NOT_TOLD: usize = usize::MAX;

impl Fault {
    /// The number that a fault is printed with, one of [`faults`]; 100 where memory ran out.
    pub fn number(&self) -> u32 {
        self.number
    }

    /// The name that the fault is printed with.
    pub fn name(&self) -> &'static str {
        // The library answers a text that ends with a zero and is never written.
        unsafe { told_text(cvl_sys::cvl_fault_name(self.number)) }
    }

    /// Where the fault is, counted from 0, if it has a place.
    pub fn place(&self) -> Option<u64> {
        self.place
    }

    /// How many elements there have to be room for, where the room of a function that counts what it writes is too short:
    /// of a pack, or of a text.
    ///
    /// ```
    /// let fault = cvl::pck_luz_into(&[5, 1, 7], &[true, false, true], &mut []).unwrap_err();
    /// assert_eq!((fault.number(), fault.needed()), (cvl::faults::LENGTH_MISMATCH, Some(2)));
    /// ```
    pub fn needed(&self) -> Option<usize> {
        self.needed
    }

    /// The fault, and which value, lengths or slices are at fault, where that is known: of the last call of this thread that the
    /// library refused.
    ///
    /// ```
    /// let fault = cvl::bck_puz(&[7, 8], &[0, 2]).unwrap_err();
    /// assert_eq!(fault.explain(), "fault 10 IndexOutOfRange at 1: index[1] is 2, and source has 2 elements");
    /// ```
    pub fn explain(&self) -> String {
        let place = self.place.and_then(|place| i64::try_from(place).ok());
        let status = CvlStatus { number: self.number, place: place.unwrap_or(-1) };
        if !self.by_library.0 {
            return self.to_string();
        }
        let length = unsafe { cvl_sys::cvl_explain(status, null_mut(), 0) };
        let mut text = vec![0; length + 1];
        unsafe { cvl_sys::cvl_explain(status, text.as_mut_ptr(), text.len()) };
        text.truncate(length);
        String::from_utf8(text).unwrap_or_default()
    }

    /// The same fault, with what the library counted, if it did.
    pub(crate) fn needing(self, count: usize) -> Fault {
        Fault { needed: (count != NOT_TOLD).then_some(count), ..self }
    }

    /// Lengths that must agree differ.
    pub(crate) fn length_mismatch() -> Fault {
        Fault::of(faults::LENGTH_MISMATCH)
    }

    /// A count is below 0.
    pub(crate) fn negative_length() -> Fault {
        Fault::of(faults::NEGATIVE_LENGTH)
    }

    /// The length of this segment is below 0.
    pub(crate) fn negative_length_of(segment: usize) -> Fault {
        Fault { number: faults::NEGATIVE_LENGTH, place: Some(segment as u64), needed: None, by_library: ByLibrary(false) }
    }

    /// More elements than a vector may have.
    pub(crate) fn too_long() -> Fault {
        Fault::of(faults::TOO_LONG)
    }

    /// There is no memory.
    pub(crate) fn no_resources() -> Fault {
        Fault::of(faults::NO_RESOURCES)
    }

    fn of(number: u32) -> Fault {
        Fault { number, place: None, needed: None, by_library: ByLibrary(false) }
    }
}

impl fmt::Display for Fault {
    fn fmt(&self, f: &mut fmt::Formatter<'_>) -> fmt::Result {
        write!(f, "fault {} {}", self.number, self.name())?;
        match self.place {
            Some(place) => write!(f, " at {place}"),
            None => Ok(()),
        }
    }
}

#[cfg(feature = "std")]
impl std::error::Error for Fault {}

/// The fault that a status tells, if it does not tell that all is done.
pub(crate) fn told(status: CvlStatus) -> Result<(), Fault> {
    match status {
        CvlStatus { number: 0, .. } => Ok(()),
        CvlStatus { number, place } => {
            Err(Fault { number, place: u64::try_from(place).ok(), needed: None, by_library: ByLibrary(true) })
        }
    }
}

/// A text of the library.
///
/// # Safety
///
/// It ends with a zero, and is never written.
pub(crate) unsafe fn told_text(text: *const u8) -> &'static str {
    let length = (0..).take_while(|&k| *text.add(k) != 0).count();
    core::str::from_utf8(core::slice::from_raw_parts(text, length)).unwrap_or_default()
}
