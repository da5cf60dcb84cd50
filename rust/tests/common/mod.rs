//! What a row's columns stand for, and the list of the calls.
#[rustfmt::skip]
#[macro_use]
mod exports;

use tls_codec_validators::Error;

pub fn bytes_of(digits: &str) -> Vec<u8> {
    if digits == "-" {
        return Vec::new();
    }
    let byte = |at| u8::from_str_radix(&digits[at..at + 2], 16).expect("hex");
    (0..digits.len()).step_by(2).map(byte).collect()
}

pub fn error_of(status: u64, detail: u64) -> Error {
    match status {
        2 => Error::InvalidVectorLength,
        5 => Error::DecodingError,
        6 => Error::EndOfStream,
        7 => Error::TrailingData,
        8 => Error::UnknownValue(detail),
        other => panic!("no row has status {other}"),
    }
}
