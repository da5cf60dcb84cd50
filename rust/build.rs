//! Finds the archives: in the folder that `TLS_CODEC_ARCHIVES` names, or in `c/out` of this repository. They have to be of the
//! same headers.
use std::path::PathBuf;
use std::{env, fs, process};

// tools/check_exports.py writes the names
const VALIDATORS: &[&str] = &["libtls_codec_lengths.a", "libtls_codec_tls13.a", "libtls_codec_mls.a"];
const DECODERS: &[&str] = &["libtls_codec_tls13_decode.a", "libtls_codec_mls_decode.a"];
const HEAP: &str = "libtls_codec_heap.a";
const MARK: &str = include_str!("tls_codec.version");

fn main() {
    println!("cargo::rerun-if-env-changed=TLS_CODEC_ARCHIVES");
    let here = PathBuf::from(env::var_os("CARGO_MANIFEST_DIR").expect("cargo names the folder"));
    let folder = env::var_os("TLS_CODEC_ARCHIVES").map_or(here.join("../c/out"), PathBuf::from);
    let mut names = VALIDATORS.to_vec();
    if env::var_os("CARGO_FEATURE_DECODE").is_some() {
        names.extend(DECODERS.iter().chain([&HEAP]));
        println!("cargo::rustc-link-lib=static=tls_codec_heap");
    }
    for name in names {
        let archive = folder.join(name);
        println!("cargo::rerun-if-changed={}", archive.display());
        if !archive.is_file() {
            eprintln!("{} is not there: tools/archives.py makes it", archive.display());
            process::exit(1);
        }
    }
    let mark = folder.join("tls_codec.version");
    println!("cargo::rerun-if-changed={}", mark.display());
    let found = fs::read_to_string(&mark).unwrap_or_default();
    if found != MARK {
        eprintln!("{} has {found:?}, and the declarations are of {MARK:?}", mark.display());
        process::exit(1);
    }
    println!("cargo::rustc-link-search=native={}", folder.display());
}
