//! Nested texts: lists of integers in brackets, read into one vector and its segments.

use alloc::vec::Vec;

use crate::fault::Fault;
use crate::lengths::{most_words, without_room, zeros};
use crate::pool::call;
use crate::segments::Segments;

/// The integers of the lists of a nested text, and the segments that the lists are: `[`, any number of lists, `]`,
/// where a list is `[`, integers as in [`read_ints`](crate::read_ints), `]`.
///
/// Faults: 13 TooLong, without a place, if there are more than [`MOST_OF_TEXT`](crate::MOST_OF_TEXT) words other than
/// brackets, or more lists than that; else 15 BadInput at the first word or bracket that cannot stand where it does, or,
/// if the text ends too early, at the number of its words and brackets.
///
/// ```
/// let (numbers, rows) = cvl::seg_read_ints("[[1 2] [] [3]]")?;
/// assert_eq!((numbers.as_slice(), rows.lengths()), (&[1, 2, 3][..], &[2, 0, 1][..]));
///
/// let many = "0 ".repeat(cvl::MOST_OF_TEXT + 1);
/// assert_eq!(cvl::seg_read_ints(format!("[[{many}]]")).unwrap_err().number(), cvl::faults::TOO_LONG);
/// # Ok::<(), cvl::Fault>(())
/// ```
pub fn seg_read_ints(text: impl AsRef<[u8]>) -> Result<(Vec<i32>, Segments), Fault> {
    let text = text.as_ref();
    // a list has two brackets at least
    let places = most_words(text);
    let (mut out, mut lengths) = match (zeros(places), zeros(places)) {
        (Ok(out), Ok(lengths)) => (out, lengths),
        (Err(no_memory), _) | (_, Err(no_memory)) => {
            return Err(without_room(no_memory, seg_read_ints_into(text, &mut [], &mut [])))
        }
    };
    let (count, segments) = seg_read_ints_into(text, &mut out, &mut lengths)?;
    out.truncate(count);
    Ok((out, Segments::new(&lengths[..segments])?))
}

/// [`seg_read_ints`] into rooms for the integers and for the lengths of the lists, which are as long as what they
/// hold or longer, and how many elements each has; a fault leaves the rooms as they were.
pub fn seg_read_ints_into(text: impl AsRef<[u8]>, out: &mut [i32], lengths: &mut [i32]) -> Result<(usize, usize), Fault> {
    let text = text.as_ref();
    let (mut count, mut segments) = (0, 0);
    call!(cvl_seg_read_ints | cvl_seg_read_ints_on: text.as_ptr(), text.len(), out.as_mut_ptr(), out.len(), &mut count,
        lengths.as_mut_ptr(), lengths.len(), &mut segments)?;
    Ok((count, segments))
}
