//! The rows of `test_places` and `c/tests/lengths.tsv`, and the fields in those of `test_outcome`: the elements of lists, the wire
//! format of a message, the fields of each message that has some, and lengths.
#[macro_use]
mod common;

use common::{bytes_of, error_of};
use std::fs;
use tls_codec_validators::{Elements, Error, Rejected, lengths, mls, tls13};

/// What the call returns that needs all of the bytes; and what the call of a prefix does: also the rest of the bytes.
type Found<'a, T> = (Result<T, Rejected>, Result<(T, &'a [u8]), Rejected>);

/// Writes the function that finds a list's elements, by C's name of the call.
macro_rules! elements {
    ($($name:literal: $elements:path;)*) => {
        fn elements<'a>(name: &str, content: &'a [u8]) -> Option<Elements<'a>> {
            Some(match name {
                $($name => $elements(content),)*
                _ => return None,
            })
        }
    };
}

/// Writes the function that finds a message's fields, in order, by both calls.
macro_rules! fields {
    ($($name:literal: $locate:path, $prefix:path, $($field:ident)*;)*) => {
        fn fields<'a>(name: &str, bytes: &'a [u8]) -> Option<Found<'a, Vec<&'a [u8]>>> {
            Some(match name {
                $($name => (
                    $locate(bytes).map(|it| vec![$(it.$field),*]),
                    $prefix(bytes).map(|(it, rest)| (vec![$(it.$field),*], rest)),
                ),)*
                _ => return None,
            })
        }
    };
}

/// Writes the function that finds the content after a length by both calls; nothing is filled of a variable-length integer.
macro_rules! content {
    ($($name:literal: $locate:path, $prefix:path;)*) => {
        fn content<'a>(name: &str, bytes: &'a [u8]) -> Option<Found<'a, Vec<&'a [u8]>>> {
            Some(match name {
                $($name => (
                    $locate(bytes).map(|content| vec![content]),
                    $prefix(bytes).map(|(content, rest)| (vec![content], rest)),
                ),)*
                "tls_codec_varint_validate_prefix" => (
                    lengths::validate_varint(bytes).map(|()| Vec::new()),
                    lengths::validate_varint_prefix(bytes).map(|(_, rest)| (Vec::new(), rest)),
                ),
                _ => return None,
            })
        }
    };
}

each_list!(elements);
each_located!(fields);
each_content!(content);

/// A row of a file.
struct Row {
    name: String,
    bytes: Vec<u8>,
    numbers: Vec<u64>,
    filled: String,
}

impl Row {
    fn of(line: &str) -> Row {
        let columns: Vec<&str> = line.split('\t').collect();
        Row {
            name: columns[0].to_string(),
            bytes: bytes_of(columns[1]),
            numbers: columns[2].split(' ').map(|it| it.parse().expect("a number")).collect(),
            filled: columns[3].to_string(),
        }
    }

    /// A row of `test_outcome` as one of the call that finds the fields; a `RatchetTree` has none.
    fn of_message(line: &str) -> Option<Row> {
        let columns: Vec<&str> = line.split('\t').collect();
        let name = format!("{}_locate_prefix", columns[0]);
        let filled = columns.get(4).unwrap_or(&"-");
        (columns[0] != "mls_ratchet_tree").then(|| Row::of(&[&name, columns[1], columns[2], filled].join("\t")))
    }

    fn is_accepted(&self) -> bool {
        self.numbers[0] == 0
    }

    /// The error of a call that rejects what is left from this place on.
    fn rejected(&self, from: usize) -> Rejected {
        let error = error_of(self.numbers[0], self.numbers[3]);
        Rejected { error, at: from + self.numbers[2] as usize }
    }

    /// The bytes at the row's places.
    fn places(&self) -> Vec<&[u8]> {
        let place = |it: &str| {
            let (offset, size) = it.split_once('+').expect("a place");
            let offset: usize = offset.parse().expect("a number");
            &self.bytes[offset..][..size.parse().expect("a number")]
        };
        self.filled.split(' ').filter(|it| *it != "-").map(place).collect()
    }

    /// What comes after the bytes that are taken.
    fn rest(&self) -> &[u8] {
        &self.bytes[self.numbers[1] as usize..]
    }

    fn elements_are_in_their_places(&self, elements: Elements<'_>) {
        let all: Vec<_> = elements.collect();
        let found: Vec<&[u8]> = all.iter().filter_map(|it| it.ok()).collect();
        assert_eq!(found, self.places(), "{}", self.name);
        let end = found.iter().map(|it| it.len()).sum();
        let error = all.last().and_then(|it| it.err());
        let wanted = (end < self.bytes.len()).then(|| self.rejected(end));
        assert_eq!(error, wanted, "{}", self.name);
        assert_eq!(all.len(), found.len() + usize::from(wanted.is_some()));
    }

    /// The row's outcome: bytes that are left are rejected by the call that needs all of them.
    fn wanted<T: Clone>(&self, found: impl Fn() -> T) -> Found<'_, T> {
        if !self.is_accepted() {
            return (Err(self.rejected(0)), Err(self.rejected(0)));
        }
        let (found, left) = (found(), Rejected { error: Error::TrailingData, at: self.bytes.len() - self.rest().len() });
        let whole = if self.rest().is_empty() { Ok(found.clone()) } else { Err(left) };
        (whole, Ok((found, self.rest())))
    }

    fn has_its_outcome(&self) {
        if let Some(elements) = elements(&self.name, &self.bytes) {
            self.elements_are_in_their_places(elements);
        } else if let Some(found) = fields(&self.name, &self.bytes).or_else(|| content(&self.name, &self.bytes)) {
            assert_eq!(found, self.wanted(|| self.places()), "{} {:02x?}", self.name, self.bytes);
        } else {
            assert_eq!(self.name, "mls_message_wire_format_prefix");
            let found = (mls::message_wire_format(&self.bytes), mls::message_wire_format_prefix(&self.bytes));
            assert_eq!(found, self.wanted(|| self.filled.parse().expect("a number")), "{:02x?}", self.bytes);
        }
    }
}

fn lines_of(file: &str) -> Vec<String> {
    let path = format!("{}/../{file}", env!("CARGO_MANIFEST_DIR"));
    fs::read_to_string(path).expect("the rows are there").lines().map(String::from).collect()
}

#[test]
fn each_place_is_found() {
    let lines = lines_of("crates/test_places/stdout");
    lines.iter().for_each(|it| Row::of(it).has_its_outcome());
    assert!(lines.len() > 100);
}

#[test]
fn each_field_of_mls_is_found() {
    let rows: Vec<Row> = lines_of("crates/test_outcome/stdout").iter().filter_map(|it| Row::of_message(it)).collect();
    rows.iter().for_each(Row::has_its_outcome);
    assert!(rows.iter().filter(|it| it.is_accepted()).count() > 40);
}

#[test]
fn numbers_have_names() {
    let message = bytes_of("0001000201fa0000000000000007010001a102a2a3");
    assert_eq!(mls::message_wire_format(&message), Ok(mls::wire_format::PRIVATE_MESSAGE));
    let handshake = tls13::locate_handshake(&[24, 0, 0, 1, 1]).expect("a key update");
    assert_eq!(handshake.msg_type, [tls13::handshake_type::KEY_UPDATE]);
    let update = tls13::locate_key_update(&handshake.body[3..]).expect("its body");
    assert_eq!(update.request_update, [tls13::key_update_request::UPDATE_REQUESTED]);
    let verify = tls13::locate_certificate_verify(&[8, 4, 0, 1, 1]).expect("a signature");
    assert_eq!(verify.algorithm, tls13::signature_scheme::RSA_PSS_RSAE_SHA256.to_be_bytes());
}

#[test]
fn each_length_is_found() {
    let lines = lines_of("c/tests/lengths.tsv");
    lines.iter().for_each(|it| Row::of(it).has_its_outcome());
    assert!(lines.len() > 50);
}
