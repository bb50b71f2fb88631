//! Sending a completion's reply.

use crate::sys;

/// The part of a reply that goes out next, lent and never copied, when `sent` bytes are out and the socket takes
/// `most`.
///
/// The header's 48 bytes go first, then the first `n` of the payload, then the 16 for each packet that stand behind the
/// 48 in the header. `n` is an IN's actual length or total, and 0 for an OUT; `packets` is 0 for a URB that isn't
/// isochronous. A part is of one of the three. It is empty when all is out, with a `most` of 0, and where the header is
/// under 48 + 16 * `packets` bytes or the payload under `n`.
pub fn part<'a>(
    header: &'a [u8],
    payload: &'a [u8],
    n: usize,
    packets: usize,
    sent: usize,
    most: usize,
) -> &'a [u8] {
    // SAFETY: pointers and lengths are those of slices, and nothing is written.
    let part = unsafe {
        sys::rimemaple_part(
            header.as_ptr(),
            header.len(),
            payload.as_ptr(),
            payload.len(),
            n,
            packets,
            sent,
            most,
        )
    };
    let slice = match part.slice {
        sys::OF_HEADER => header,
        _ => payload,
    };
    &slice[part.at..][..part.length]
}
