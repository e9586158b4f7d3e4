//! Segments: how a vector is cut.

use alloc::vec::Vec;

use cvl_sys::CvlLengths;

use crate::calls::{add_suz_into, dis_vez, ind_luz};
use crate::fault::Fault;
use crate::lengths::{copied, limit, zeros};
use crate::pool::call;

/// Segments of a vector, one after another, made once from their lengths and then used by any calls and threads.
///
/// ```
/// let rows = cvl::Segments::new(&[2, 0, 3])?;
/// assert_eq!((rows.len(), rows.total()), (3, 5));
/// assert_eq!(cvl::Segments::from_offsets(&[0, 2, 2, 5])?, rows);
/// # Ok::<(), cvl::Fault>(())
/// ```
#[derive(Clone, Debug, PartialEq, Eq, Hash)]
pub struct Segments {
    lengths: Vec<i32>,
    total: usize,
}

impl Segments {
    /// Segments of these lengths.
    ///
    /// Faults: 13 TooLong where there are more than [`MOST_ELEMENTS`](crate::MOST_ELEMENTS); 12 NegativeLength at the first
    /// that is below 0; 13 TooLong where they add up to more than `MOST_ELEMENTS`; 100 NoResources where there is no memory
    /// for a copy.
    pub fn new(lengths: &[i32]) -> Result<Segments, Fault> {
        let mut total = 0;
        call!(cvl_make_descriptor | cvl_make_descriptor_on: given(lengths), &mut total)?;
        Ok(Segments { lengths: copied(lengths.iter().copied())?, total })
    }

    /// Segments whose starts are these, and whose last one ends at the last of them, as in a matrix of compressed rows.
    ///
    /// Faults: 13 TooLong if there are more than [`MOST_ELEMENTS`](crate::MOST_ELEMENTS) segments; 7 LengthMismatch if there is
    /// no offset or the first is not 0; 12 NegativeLength at the first segment whose end stands before its start; 100
    /// NoResources if there is no memory for the lengths.
    pub fn from_offsets(offsets: &[i32]) -> Result<Segments, Fault> {
        limit(offsets.len().saturating_sub(1))?;
        let end = match (offsets.first(), offsets.last()) {
            (Some(0), Some(&end)) => end,
            _ => return Err(Fault::length_mismatch()),
        };
        if let Some(segment) = offsets.windows(2).position(|pair| pair[1] < pair[0]) {
            return Err(Fault::negative_length_of(segment));
        }
        Ok(Segments { lengths: copied(offsets.windows(2).map(|pair| pair[1] - pair[0]))?, total: end as usize })
    }

    /// Where each segment starts, and last where the last one ends: one more than there are segments.
    ///
    /// ```
    /// assert_eq!(cvl::Segments::new(&[2, 0, 3])?.offsets()?, [0, 2, 2, 5]);
    /// # Ok::<(), cvl::Fault>(())
    /// ```
    ///
    /// Faults: 100 NoResources where there is no memory for them.
    pub fn offsets(&self) -> Result<Vec<i32>, Fault> {
        let mut offsets = zeros(self.len() + 1)?;
        add_suz_into(&self.lengths, &mut offsets[..self.len()])?;
        offsets[self.len()] = self.total as i32;
        Ok(offsets)
    }

    /// At each place the number of its segment, counted from 0.
    ///
    /// ```
    /// assert_eq!(cvl::Segments::new(&[2, 0, 3])?.numbers()?, [0, 0, 2, 2, 2]);
    /// # Ok::<(), cvl::Fault>(())
    /// ```
    ///
    /// Faults: 100 NoResources where there is no memory for them.
    pub fn numbers(&self) -> Result<Vec<i32>, Fault> {
        dis_vez(&ind_luz(0, 1, self.len() as i64)?, self)
    }

    /// The length of each segment.
    pub fn lengths(&self) -> &[i32] {
        &self.lengths
    }

    /// How many segments there are.
    pub fn len(&self) -> usize {
        self.lengths.len()
    }

    /// Whether there is no segment.
    pub fn is_empty(&self) -> bool {
        self.lengths.is_empty()
    }

    /// How many elements the segments have in all.
    pub fn total(&self) -> usize {
        self.total
    }

    /// The lengths as the library takes them, which are there as long as the segments are.
    pub(crate) fn given(&self) -> CvlLengths {
        given(&self.lengths)
    }
}

/// Lengths as the library takes them, which are there as long as the slice is.
fn given(lengths: &[i32]) -> CvlLengths {
    CvlLengths { lengths: lengths.as_ptr(), segments: lengths.len() }
}

/// The number of integers.
pub fn len_luz(a: &[i32]) -> usize {
    a.len()
}

/// The number of booleans.
pub fn len_lub(a: &[bool]) -> usize {
    a.len()
}

/// The lengths of segments.
pub fn len_fos(segments: &Segments) -> &[i32] {
    segments.lengths()
}
