//! The rows of `test_outcome` and of `c/tests/tls13.tsv`: what each message's validator says.
#[macro_use]
mod common;

use common::{bytes_of, error_of};
use std::fs;
use tls_codec_validators::{Error, Rejected, lengths, mls, number, tls13, varint_value};

type Whole = fn(&[u8]) -> Result<(), Rejected>;
type Prefix = fn(&[u8]) -> Result<(&[u8], &[u8]), Rejected>;

/// Writes the function that finds the two functions of a message's validator: of all of the bytes, and of those that they begin with.
macro_rules! calls {
    ($($name:literal: $whole:path, $prefix:path, $decode:path, $decode_prefix:path;)*) => {
        fn calls(name: &str) -> (Whole, Prefix) {
            match name {
                $($name => ($whole, $prefix),)*
                other => panic!("no message {other}"),
            }
        }
    };
}

each_message!(calls);

#[test]
fn each_row_of_mls_has_its_outcome() {
    rows_have_their_outcomes(concat!(env!("CARGO_MANIFEST_DIR"), "/../crates/test_outcome/stdout"));
}

#[test]
fn each_row_of_tls13_has_its_outcome() {
    rows_have_their_outcomes(concat!(env!("CARGO_MANIFEST_DIR"), "/../c/tests/tls13.tsv"));
}

fn rows_have_their_outcomes(file: &str) {
    let text = fs::read_to_string(file).expect("the rows are there");
    for row in text.lines() {
        let columns: Vec<&str> = row.split('\t').collect();
        let bytes = bytes_of(columns[1]);
        let numbers: Vec<u64> = columns[2].split(' ').map(|it| it.parse().expect("a number")).collect();
        let wanted = match numbers[0] {
            0 => Ok(bytes.split_at(numbers[1] as usize)),
            status => Err(Rejected { error: error_of(status, numbers[3]), at: numbers[2] as usize }),
        };
        let (whole, prefix) = calls(columns[0]);
        assert_eq!(prefix(&bytes), wanted, "{row}");
        let all = wanted.and_then(|(message, rest)| {
            let left = Rejected { error: Error::TrailingData, at: message.len() };
            if rest.is_empty() { Ok(()) } else { Err(left) }
        });
        assert_eq!(whole(&bytes), all, "{row}");
    }
    assert!(text.lines().count() > 100);
}

#[test]
fn fields_are_slices() {
    let message = bytes_of("01fa0000000000000007010001a102a2a3ee");
    let (found, rest) = mls::locate_private_message_prefix(&message).expect("a message");
    assert_eq!(found.group_id, [0xfa]);
    assert_eq!(number(found.epoch), Some(7));
    assert_eq!(found.content_type, [mls::content_type::APPLICATION]);
    assert!(found.authenticated_data.is_empty());
    assert_eq!(found.encrypted_sender_data, [0xa1]);
    assert_eq!(found.ciphertext, [0xa2, 0xa3]);
    assert_eq!(rest, [0xee]);
    assert_eq!(mls::locate_private_message(&message[..17]), Ok(found));
    assert_eq!(mls::locate_private_message(&message), Err(Rejected { error: Error::TrailingData, at: 17 }));
    assert_eq!(mls::locate_private_message(&message[..16]), Err(Rejected { error: Error::DecodingError, at: 14 }));
}

#[test]
fn nothing_may_be_left() {
    assert_eq!(tls13::validate_alert(&[1, 0]), Ok(()));
    let left = Rejected { error: Error::TrailingData, at: 2 };
    assert_eq!(tls13::validate_alert(&[1, 0, 7]), Err(left));
    assert_eq!(tls13::validate_alert_prefix(&[1, 0, 7]), Ok((&[1, 0][..], &[7][..])));
    assert_eq!(left.to_string(), "TrailingData at byte 2");
    assert_eq!(left.error.sentence(), "Bytes come after the message, or after a part that was to fill a length.");
    let unknown = tls13::validate_key_update(&[192]).map_err(|it| it.to_string());
    assert_eq!(unknown, Err("UnknownValue (192) at byte 0".to_string()));
    let none = Rejected { error: Error::EndOfStream, at: 0 };
    assert_eq!(mls::validate_message(&[]), Err(none));
    assert_eq!(lengths::validate_varint(&[0x40, 0x40]), Ok(()));
    assert_eq!(lengths::validate_varint(&[0x40, 0x40, 7]), Err(left));
    assert_eq!(lengths::locate_opaque_u8(&[1, 5]), Ok(&[5][..]));
    assert_eq!(lengths::locate_opaque_u8(&[1, 5, 7]), Err(left));
    assert_eq!(lengths::locate_opaque_u8_prefix(&[1, 5, 7]), Ok((&[5][..], &[7][..])));
    let message = bytes_of("0001000201fa0000000000000007010001a102a2a3ee");
    assert_eq!(mls::message_wire_format(&message), Err(Rejected { error: Error::TrailingData, at: 21 }));
}

/// The numbers of RFC 9000, appendix A.1, and the ends of the widths.
#[test]
fn numbers_are_read() {
    let varint = |digits| varint_value(&bytes_of(digits));
    assert_eq!(varint("c2197c5eff14e88c"), Some(151_288_809_941_952_652));
    assert_eq!(varint("9d7f3e7d"), Some(494_878_333));
    assert_eq!([varint("7bbd"), varint("25"), varint("4025")], [Some(15_293), Some(37), Some(37)]);
    assert_eq!([varint("3f"), varint("7fff"), varint("bfffffff")], [Some(63), Some(16_383), Some(1_073_741_823)]);
    assert_eq!(varint("ffffffffffffffff"), Some(4_611_686_018_427_387_903));
    assert_eq!([varint("-"), varint("40"), varint("0000")], [None, None, None]);
    assert_eq!([number(&[]), number(&[1, 2, 3]), number(&[0xff; 8])], [Some(0), Some(66_051), Some(u64::MAX)]);
    assert_eq!(number(&[0; 9]), None);
}

#[test]
fn calls_from_threads_agree() {
    let wanted = tls13::validate_alert_prefix(&[2, 42]);
    let calls = || (0..10_000).all(|_| tls13::validate_alert_prefix(&[2, 42]) == wanted);
    std::thread::scope(|scope| {
        let threads: Vec<_> = (0..4).map(|_| scope.spawn(calls)).collect();
        assert!(threads.into_iter().all(|it| it.join().expect("a thread ends")));
    });
}
