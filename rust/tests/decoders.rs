//! Decoders: the rows, and beside the validators changed rows and random bytes, for three seconds or `TLS_CODEC_SECONDS`.
#![cfg(feature = "decode")]

#[macro_use]
mod common;

use common::{bytes_of, error_of};
use std::time::{Duration, Instant};
use std::{env, fs};
use tls_codec_validators::{Error, Rejected, mls, mls_decode, tls13, tls13_decode};

/// The message that bytes begin with, and the rest.
type Split<'a, E> = Result<(&'a [u8], &'a [u8]), E>;

struct Message {
    name: &'static str,
    validate_prefix: fn(&[u8]) -> Split<'_, Rejected>,
    decode_prefix: fn(&[u8]) -> Split<'_, Error>,
    decode: fn(&[u8]) -> Result<(), Error>,
}

macro_rules! messages {
    ($($name:literal: $whole:path, $prefix:path, $decode:path, $decode_prefix:path;)*) => {
        &[$(Message { name: $name, validate_prefix: $prefix, decode_prefix: $decode_prefix, decode: $decode },)*]
    };
}

const MESSAGES: &[Message] = each_message!(messages);

struct Row {
    message: &'static Message,
    bytes: Vec<u8>,
    decoded: Result<usize, Error>,
}

impl Row {
    /// Of test_outcome a column says what the decoder says. It is what the validator says, except for the place.
    fn of(line: &str) -> Row {
        let columns: Vec<&str> = line.split('\t').collect();
        let numbers = columns.get(3).unwrap_or(&columns[2]);
        let numbers: Vec<u64> = numbers.split(' ').map(|it| it.parse().expect("a number")).collect();
        Row {
            message: MESSAGES.iter().find(|it| it.name == columns[0]).expect("a message"),
            bytes: bytes_of(columns[1]),
            decoded: match numbers[0] {
                0 => Ok(numbers[1] as usize),
                status => Err(error_of(status, numbers[3])),
            },
        }
    }
}

fn rows() -> Vec<Row> {
    let top = concat!(env!("CARGO_MANIFEST_DIR"), "/..");
    let files = ["crates/test_outcome/stdout", "c/tests/tls13.tsv"];
    let read = |it| fs::read_to_string(format!("{top}/{it}")).expect("the rows are there");
    files.map(read).iter().flat_map(|it| it.lines()).map(Row::of).collect()
}

/// xorshift64* from one seed: a longer run begins as a shorter one.
struct Random(u64);

impl Random {
    fn next(&mut self) -> u64 {
        self.0 ^= self.0 >> 12;
        self.0 ^= self.0 << 25;
        self.0 ^= self.0 >> 27;
        self.0.wrapping_mul(0x2545_f491_4f6c_dd1d)
    }

    fn below(&mut self, limit: usize) -> usize {
        (self.next() >> 33) as usize % limit
    }

    fn pick<'a, T>(&mut self, all: &'a [T]) -> &'a T {
        &all[self.below(all.len())]
    }
}

/// Bytes that lengths, tags and their widths begin with.
const EDGES: [u8; 12] = [0, 1, 2, 3, 0x3f, 0x40, 0x41, 0x7f, 0x80, 0xbf, 0xc0, 0xff];

fn change(random: &mut Random, bytes: &mut Vec<u8>, other: &[u8]) {
    let at = random.below(bytes.len() + 1);
    match random.below(8) {
        0 => bytes.truncate(at),
        1 => bytes.insert(at, *random.pick(&EDGES)),
        2 => {
            bytes.truncate(at);
            bytes.extend_from_slice(&other[random.below(other.len() + 1)..]);
        }
        3 => bytes.extend_from_within(at..),
        _ if at == bytes.len() => bytes.push(random.next() as u8),
        4 => bytes[at] ^= 1 << random.below(8),
        5 => bytes[at] = *random.pick(&EDGES),
        6 => bytes[at] = bytes[at].wrapping_sub(1),
        // a length, perhaps, and its content, each by one more
        _ => {
            bytes[at] = bytes[at].wrapping_add(1);
            bytes.insert(at + 1, random.next() as u8);
        }
    }
}

/// A message's name, and a row of it with up to four changes; or one time in 16 random bytes.
fn input(random: &mut Random, rows: &[Row]) -> (&'static Message, Vec<u8>) {
    let row = random.pick(rows);
    if random.below(16) == 0 {
        let length = random.below(40);
        return (row.message, (0..length).map(|_| random.next() as u8).collect());
    }
    let mut bytes = row.bytes.clone();
    for _ in 0..random.below(5) {
        let other = random.pick(rows);
        change(random, &mut bytes, &other.bytes);
    }
    (row.message, bytes)
}

#[test]
fn each_row_is_decoded() {
    let rows = rows();
    for row in &rows {
        let wanted = row.decoded.map(|taken| row.bytes.split_at(taken));
        assert_eq!((row.message.decode_prefix)(&row.bytes), wanted, "{} {:02x?}", row.message.name, row.bytes);
        let all = wanted.and_then(|(_, rest)| if rest.is_empty() { Ok(()) } else { Err(Error::TrailingData) });
        assert_eq!((row.message.decode)(&row.bytes), all, "{} {:02x?}", row.message.name, row.bytes);
    }
    assert!(MESSAGES.iter().all(|it| rows.iter().any(|row| row.message.name == it.name && row.decoded.is_ok())));
}

#[test]
fn nothing_may_be_left() {
    assert_eq!(tls13_decode::decode_check_alert(&[1, 0]), Ok(()));
    assert_eq!(tls13_decode::decode_check_alert(&[1, 0, 7]), Err(Error::TrailingData));
    assert_eq!(tls13_decode::decode_check_alert_prefix(&[1, 0, 7]), Ok((&[1, 0][..], &[7][..])));
}

/// That both accept the same bytes and take as many of them follows from their contracts. That they name one error is tested alone.
#[test]
fn validators_and_decoders_agree() {
    let seconds = env::var("TLS_CODEC_SECONDS").map_or(3, |it| it.parse().expect("a number of seconds"));
    let (rows, end) = (rows(), Instant::now() + Duration::from_secs(seconds));
    let (mut random, mut accepted, mut rejected) = (Random(0x9e37_79b9_7f4a_7c15), 0u64, 0u64);
    while Instant::now() < end {
        let (message, bytes) = input(&mut random, &rows);
        let validated = (message.validate_prefix)(&bytes).map_err(|it| it.error);
        assert_eq!((message.decode_prefix)(&bytes), validated, "{} {bytes:02x?}", message.name);
        *if validated.is_ok() { &mut accepted } else { &mut rejected } += 1;
    }
    println!("{accepted} inputs accepted, {rejected} rejected");
    assert!(accepted > 1000 && rejected > 1000, "{accepted} inputs accepted, {rejected} rejected");
}
