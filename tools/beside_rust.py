#!/usr/bin/env python3
"""beside_rust.py PATH [SECONDS]: compares libtls_codec_lengths.a with the Rust crate `tls_codec`, whose sources are at PATH, in one
process.

Its sources aren't part of this repository. A cargo project in a temporary folder has the crate, with its feature `mls`, and rust/. For
SECONDS, 10 if none are given, each makes what it makes of lengths and their contents, true, lying, too wide and cut short: the crate from a
slice and from a reader. Acceptance, content and rest have to be the same, and the crate has to write the bytes that were taken. The
archives are in c/out or in the folder that TLS_CODEC_ARCHIVES names. The last line is 'N passed, N failed', which counts types.
"""
from __future__ import annotations

import pathlib
import subprocess
import sys
import tempfile

from lib.libraries import TOP

MANIFEST = """[package]
name = "beside_rust"
version = "0.0.0"
edition = "2024"

[dependencies]
tls_codec = {{ path = "{crate}", features = ["mls"] }}
tls-codec-validators = {{ path = "{rust}" }}
"""
PROGRAM = r"""
use std::time::{Duration, Instant};
use tls_codec::{Deserialize, DeserializeBytes, Serialize, TlsByteVecU8, TlsByteVecU16, TlsByteVecU24, VLBytes};
use tls_codec_validators::{Rejected, lengths as proved};

type Locate = fn(&[u8]) -> Result<(&[u8], &[u8]), Rejected>;

// xorshift64*, from one seed
struct Random(u64);

impl Random {
    fn below(&mut self, limit: usize) -> usize {
        self.0 ^= self.0 >> 12;
        self.0 ^= self.0 << 25;
        self.0 ^= self.0 >> 27;
        (self.0.wrapping_mul(0x2545_f491_4f6c_dd1d) >> 33) as usize % limit
    }
}

// What the crate makes of bytes: the content, how many bytes are taken, and what it writes.
type Made = Option<(Vec<u8>, usize, Vec<u8>)>;

trait Bytes: Deserialize + DeserializeBytes + Serialize + Sized {
    fn content(&self) -> &[u8];

    fn made(&self, taken: usize) -> Made {
        Some((self.content().to_vec(), taken, self.tls_serialize_detached().ok()?))
    }

    fn by_slice(bytes: &[u8]) -> Made {
        let (value, rest) = Self::tls_deserialize_bytes(bytes).ok()?;
        assert!(bytes.ends_with(rest));
        value.made(bytes.len() - rest.len())
    }

    fn by_reader(mut bytes: &[u8]) -> Made {
        let all = bytes.len();
        let value = Self::tls_deserialize(&mut bytes).ok()?;
        value.made(all - bytes.len())
    }
}

macro_rules! bytes {
    ($($name:ident)*) => { $(impl Bytes for $name { fn content(&self) -> &[u8] { self.as_slice() } })* };
}
bytes! { VLBytes TlsByteVecU8 TlsByteVecU16 TlsByteVecU24 }

// A length, by so many bytes or by 0 a variable-length one, its content, and up to three bytes more.
fn input(random: &mut Random, width: usize) -> Vec<u8> {
    let from = [0, 0, 0, 60, 250, 16_380, 65_530][random.below(7)];
    let length = from + random.below(16);
    let mut bytes = match width {
        0 => {
            let log = random.below(12).min(3);
            let least = [1 << 6, 1 << 14, 1 << 30].iter().filter(|it| length >= **it).count();
            let log = if random.below(8) == 0 { log } else { least };
            ((log as u64) << ((8 << log) - 2) | length as u64).to_be_bytes()[8 - (1 << log)..].to_vec()
        }
        width => length.to_be_bytes()[8 - width..].to_vec(),
    };
    let content = [length, length, length, random.below(length + 2)][random.below(4)];
    bytes.extend((0..content + random.below(4)).map(|at| at as u8));
    if random.below(8) == 0 {
        let at = random.below(bytes.len());
        bytes[at] = random.below(256) as u8;
    }
    if random.below(16) == 0 {
        bytes.truncate(random.below(8));
    }
    bytes
}

fn compare<T: Bytes>(name: &str, locate: Locate, width: usize, time: Duration) -> bool {
    let (mut random, end) = (Random(0x9e37_79b9_7f4a_7c15), Instant::now() + time);
    let (mut inputs, mut accepted, mut differ) = (0u64, 0u64, 0u64);
    while Instant::now() < end {
        let bytes = input(&mut random, width);
        let taken = |rest: &[u8]| bytes.len() - rest.len();
        let wanted = locate(&bytes).ok().map(|(it, rest)| (it.to_vec(), taken(rest), bytes[..taken(rest)].to_vec()));
        inputs += 1;
        accepted += u64::from(wanted.is_some());
        if T::by_slice(&bytes) != wanted || T::by_reader(&bytes) != wanted {
            differ += 1;
            if differ == 1 {
                println!("{name} differs of {:02x?}", &bytes[..bytes.len().min(40)]);
            }
        }
    }
    println!("{name}: {inputs} inputs, {accepted} accepted, {differ} differ");
    accepted > 0 && accepted < inputs && differ == 0
}

fn main() {
    let time = Duration::from_secs(SECONDS) / 4;
    let results = [
        compare::<VLBytes>("VLBytes", proved::locate_opaque_v_prefix, 0, time),
        compare::<TlsByteVecU8>("TlsByteVecU8", proved::locate_opaque_u8_prefix, 1, time),
        compare::<TlsByteVecU16>("TlsByteVecU16", proved::locate_opaque_u16_prefix, 2, time),
        compare::<TlsByteVecU24>("TlsByteVecU24", proved::locate_opaque_u24_prefix, 3, time),
    ];
    let passed = results.iter().filter(|it| **it).count();
    println!("{passed} passed, {} failed", results.len() - passed);
    std::process::exit(if passed == results.len() { 0 } else { 1 });
}
"""


def main() -> int:
    if not sys.argv[1:] or not (pathlib.Path(sys.argv[1]) / "Cargo.toml").is_file():
        print("beside_rust.py PATH [SECONDS]: PATH is the folder with the Cargo.toml of the crate tls_codec")
        return 2
    seconds = int(sys.argv[2]) if sys.argv[2:] else 10
    with tempfile.TemporaryDirectory(prefix="beside_rust-") as folder:
        room = pathlib.Path(folder)
        (room / "src").mkdir()
        (room / "Cargo.toml").write_text(MANIFEST.format(crate=pathlib.Path(sys.argv[1]).resolve(), rust=TOP / "rust"))
        (room / "src" / "main.rs").write_text(PROGRAM.replace("SECONDS", str(seconds)))
        return subprocess.run(["cargo", "run", "--release", "--quiet"], cwd=room).returncode


if __name__ == "__main__":
    sys.exit(main())
