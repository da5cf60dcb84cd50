//! The rows of c/tests/signed.tsv: what is written to be signed.
mod common;

use common::{bytes_of, error_of};
use std::fs;
use tls_codec_validators::{Error, Rejected, mls};

/// What the function returns where the row has these numbers: the status, how many bytes are taken, the place and the value.
fn expected<'a>(numbers: &[u64], written: &'a [u8]) -> Result<&'a [u8], Rejected> {
    let (taken, at) = (numbers[1] as usize, numbers[2] as usize);
    let rejected = |error, at| Err(Rejected { error, at });
    match numbers[0] {
        0 if taken == written.len() => Ok(written),
        0 => rejected(Error::TrailingData, taken),
        status => rejected(error_of(status, numbers[3]), at),
    }
}

#[test]
fn rows_are_written() {
    let text = fs::read_to_string(concat!(env!("CARGO_MANIFEST_DIR"), "/../c/tests/signed.tsv")).expect("the rows");
    let mut rows = 0;
    for line in text.lines() {
        let columns: Vec<&str> = line.split('\t').collect();
        let wire_format = columns[0].parse().expect("a number");
        let (content, context, written) = (bytes_of(columns[1]), bytes_of(columns[2]), bytes_of(columns[4]));
        let numbers: Vec<u64> = columns[3].split(' ').map(|it| it.parse().expect("a number")).collect();
        let mut out = vec![0xa5; written.len() + 3];
        assert_eq!(mls::framed_content_tbs(wire_format, &content, &context, &mut out), expected(&numbers, &written), "{line}");
        assert_eq!(out, [&written[..], &[0xa5; 3]].concat(), "{line}");
        let less = Rejected { error: Error::InvalidWriteLength, at: 0 };
        assert_eq!(mls::framed_content_tbs(wire_format, &content, &context, &mut out[1..written.len()]), Err(less), "{line}");
        rows += 1;
    }
    assert!(rows > 0);
}
