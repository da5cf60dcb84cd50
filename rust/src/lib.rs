//! Validates messages of TLS 1.3 ([`tls13`]) and MLS ([`mls`]) without decoding them, and without allocating.
//!
//! The functions are proved, in Rattle, and linked as static libraries: bytes are accepted exactly if they begin with an encoding
//! of the message, and what is accepted is the message's canonical encoding. `docs/CALLERS.md` of the repository says what is
//! proved and what is trusted. The feature `decode` adds the decoders, which make the value and drop it, and so allocate.
//!
//! ```
//! use tls_codec_validators::{Error, Rejected, tls13};
//!
//! // an alert, and nothing after it
//! assert_eq!(tls13::validate_alert(&[2, 42]), Ok(()));
//! let left = Rejected { error: Error::TrailingData, at: 2 };
//! assert_eq!(tls13::validate_alert(&[2, 42, 0xee]), Err(left));
//!
//! // an alert, and what comes after it
//! assert_eq!(tls13::validate_alert_prefix(&[2, 42, 0xee]), Ok((&[2, 42][..], &[0xee][..])));
//!
//! // why, and which field: the description isn't there
//! let cut = Rejected { error: Error::EndOfStream, at: 1 };
//! assert_eq!(tls13::validate_alert(&[2]), Err(cut));
//! ```
//!
//! A function needs all of the bytes to be one message; with `_prefix`, such as `validate_NAME_prefix` and `locate_NAME_prefix`, it
//! accepts bytes that come after the message, and returns them.
#![no_std]
#![deny(missing_docs, missing_debug_implementations)]

#[rustfmt::skip]
mod exports;

use core::fmt;
pub use exports::{Error, lengths, mls, tls13};
use exports::{Outcome, Span};
#[cfg(feature = "decode")]
pub use exports::{mls_decode, tls13_decode};

/// The version of these declarations, by `CHANGELOG.md` of the repository.
pub const VERSION: &str = env!("CARGO_PKG_VERSION");

/// Why bytes are rejected, and where.
#[derive(Clone, Copy, PartialEq, Eq, Debug)]
pub struct Rejected {
    /// One of the errors that the decoder may return for these bytes.
    pub error: Error,
    /// Where the first byte of the rejected field is; of `TrailingData` the first byte that is left.
    pub at: usize,
}

impl fmt::Display for Rejected {
    fn fmt(&self, f: &mut fmt::Formatter<'_>) -> fmt::Result {
        write!(f, "{} at byte {}", self.error, self.at)
    }
}

impl core::error::Error for Rejected {}

impl fmt::Display for Error {
    fn fmt(&self, f: &mut fmt::Formatter<'_>) -> fmt::Result {
        match self {
            Error::UnknownValue(number) => write!(f, "UnknownValue ({number})"),
            Error::Other(status) => write!(f, "status {status}"),
            named => write!(f, "{named:?}"),
        }
    }
}

impl core::error::Error for Error {}

/// The number that a field of at most eight bytes has, such as an epoch; `None` of more bytes.
///
/// ```
/// assert_eq!(tls_codec_validators::number(&[1, 0]), Some(256));
/// ```
pub fn number(field: &[u8]) -> Option<u64> {
    (field.len() <= 8).then(|| field.iter().fold(0, |value, byte| value << 8 | u64::from(*byte)))
}

/// The value of a variable-length integer, as [`lengths::validate_varint_prefix`] returns one; `None` if the width that it begins
/// with isn't that of the slice.
///
/// ```
/// assert_eq!(tls_codec_validators::varint_value(&[0x7b, 0xbd]), Some(15_293));
/// ```
pub fn varint_value(varint: &[u8]) -> Option<u64> {
    let width = 1usize << (varint.first()? >> 6);
    let value = number(varint).filter(|_| varint.len() == width)?;
    Some(value & (u64::MAX >> (66 - 8 * width)))
}

/// A validator or a decoder.
type Call = unsafe extern "C" fn(*const u8, usize) -> Outcome;

/// Whether a call accepts all of the bytes.
fn whole(bytes: &[u8], call: Call) -> Result<(), Rejected> {
    nothing_left(bytes, split(bytes, call)?).map(|_| ())
}

/// What was found in the bytes, if there is no rest.
fn nothing_left<T>(bytes: &[u8], (found, rest): (T, &[u8])) -> Result<T, Rejected> {
    if !rest.is_empty() {
        return Err(Rejected { error: Error::TrailingData, at: bytes.len() - rest.len() });
    }
    Ok(found)
}

/// What a call says of bytes.
fn split(bytes: &[u8], call: Call) -> Result<(&[u8], &[u8]), Rejected> {
    // SAFETY: the pointer and the length are of one slice, nothing changes it during the call, and the call keeps no pointer.
    let outcome = unsafe { call(bytes.as_ptr(), bytes.len()) };
    split_as(bytes, outcome)
}

/// The bytes as a call says that they are to be split.
fn split_as(bytes: &[u8], outcome: Outcome) -> Result<(&[u8], &[u8]), Rejected> {
    if outcome.status != 0 {
        return Err(Rejected { error: Error::of(&outcome), at: outcome.at });
    }
    Ok(bytes.split_at(outcome.taken))
}

/// The bytes that a call wrote, if all of them are accepted.
fn written_as(out: &mut [u8], size: usize, outcome: Outcome) -> Result<&[u8], Rejected> {
    let out: &[u8] = out;
    let written = out.get(..size).unwrap_or(out);
    nothing_left(written, split_as(written, outcome)?)
}

type Next = unsafe extern "C" fn(*const u8, usize, &mut Span, &mut Span) -> Outcome;

/// The elements of a list, one after another. After one that is rejected there are no more.
///
/// ```
/// use tls_codec_validators::{Error, Rejected, tls13};
///
/// // two extensions, of which the second one's length says more than there is
/// let mut list = tls13::extension_elements(&[0, 10, 0, 0, 0, 43, 0, 1]);
/// assert_eq!(list.next(), Some(Ok(&[0, 10, 0, 0][..])));
/// assert_eq!(format!("{list:?}"), "Elements([0, 43, 0, 1])");
/// assert_eq!(list.next(), Some(Err(Rejected { error: Error::EndOfStream, at: 6 })));
/// assert_eq!(list.next(), None);
/// ```
#[derive(Clone)]
pub struct Elements<'a> {
    content: &'a [u8],
    left: Span,
    next: Next,
}

impl<'a> Elements<'a> {
    fn of(content: &'a [u8], next: Next) -> Elements<'a> {
        let left = Span { offset: 0, size: content.len() };
        Elements { content, left, next }
    }
}

/// The bytes that are left.
impl fmt::Debug for Elements<'_> {
    fn fmt(&self, f: &mut fmt::Formatter<'_>) -> fmt::Result {
        f.debug_tuple("Elements").field(&self.left.of(self.content)).finish()
    }
}

impl<'a> Iterator for Elements<'a> {
    type Item = Result<&'a [u8], Rejected>;

    fn next(&mut self) -> Option<Self::Item> {
        if self.left.size == 0 {
            return None;
        }
        let from = self.left.offset;
        let mut element = Span::default();
        // SAFETY: the pointer and the length are of one slice, nothing changes it during the call, and the call keeps no pointer.
        let outcome = unsafe { (self.next)(self.content.as_ptr(), self.content.len(), &mut self.left, &mut element) };
        if outcome.status != 0 {
            self.left.size = 0;
            return Some(Err(Rejected { error: Error::of(&outcome), at: from + outcome.at }));
        }
        Some(Ok(element.of(self.content)))
    }
}

impl core::iter::FusedIterator for Elements<'_> {}

impl Span {
    /// The bytes at this place.
    fn of(self, bytes: &[u8]) -> &[u8] {
        &bytes[self.offset..][..self.size]
    }
}
