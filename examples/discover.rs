//! Finds the newest record in a dump of two copies: 40,960 bytes, the front copy and then the back.
//!
//!     rustc --edition 2021 -O -L native=target/staticlib -l static=amseokbin -o discover examples/discover.rs
//!     ./discover DUMP
//!
//! Prints one line: `found`, copy, area, length, seconds, nanoseconds, and `both` or the other copy's refusal number; or
//! `refused`, the number and its words. Exit status: 0 found, 1 refused, 2 the dump could not be read.

use std::env;
use std::fs;
use std::process::ExitCode;

const COPY: usize = 20_480;
const UUID: usize = 32;
/// Room for the words of every refusal number.
const WORDS: usize = 80;

// The structs of include/amseokbin.h that the two calls answer, field by field. Not all of them are looked at here.

#[repr(C)]
struct Refusal {
    number: u8,
    first: u64,
    second: u64,
}

#[repr(C)]
struct Device {
    sectors: u64,
    metadata: u32,
    reserved: u32,
}

#[repr(C)]
struct Time {
    seconds: u64,
    nanoseconds: u32,
}

#[repr(C)]
struct Entry {
    seconds: u64,
    nanoseconds: u32,
    bytes: u32,
    checksum: u32,
}

#[repr(C)]
struct Block {
    device: Device,
    a: Entry,
    b: Entry,
    pool: [u8; UUID],
    blockdev: [u8; UUID],
}

#[repr(C)]
struct Found {
    refusal: Refusal,
    side: u8,
    area: u8,
    other: u8,
    bytes: u32,
    time: Time,
    block: Block,
}

#[repr(C)]
struct Words {
    bytes: [u8; WORDS],
    used: usize,
}

extern "C" {
    fn amseokbin_discover(front: *const u8, front_length: usize, back: *const u8, back_length: usize) -> Found;
    fn amseokbin_refusal_words(number: u8) -> Words;
}

/// The newest whole record of two copies, or the refusal number.
fn discover(front: &[u8], back: &[u8]) -> Result<Found, u8> {
    // Both slices are there for their lengths, and the call changes nothing.
    let found = unsafe { amseokbin_discover(front.as_ptr(), front.len(), back.as_ptr(), back.len()) };
    match found.refusal.number {
        0 => Ok(found),
        number => Err(number),
    }
}

/// What a refusal number says.
fn refusal_words(number: u8) -> String {
    let words = unsafe { amseokbin_refusal_words(number) };
    String::from_utf8_lossy(&words.bytes[..words.used]).into_owned()
}

fn main() -> ExitCode {
    let mut arguments = env::args_os().skip(1);
    let (Some(name), None) = (arguments.next(), arguments.next()) else {
        eprintln!("usage: discover DUMP");
        return ExitCode::from(2);
    };
    let dump = match fs::read(&name) {
        Ok(dump) => dump,
        Err(error) => {
            eprintln!("{}: {error}", name.display());
            return ExitCode::from(2);
        }
    };
    if dump.len() != 2 * COPY {
        eprintln!("{}: not a dump, which has {} bytes", name.display(), 2 * COPY);
        return ExitCode::from(2);
    }
    let (front, back) = dump.split_at(COPY);
    match discover(front, back) {
        Ok(Found { side, area, other, bytes, time: Time { seconds, nanoseconds }, .. }) => {
            let side = if side == 0 { "front" } else { "back" };
            let area = if area == 0 { "a" } else { "b" };
            let other = if other == 0 { "both".to_string() } else { other.to_string() };
            println!("found {side} {area} {bytes} {seconds} {nanoseconds} {other}");
            ExitCode::SUCCESS
        }
        Err(refusal) => {
            println!("refused {refusal}: {}", refusal_words(refusal));
            ExitCode::from(1)
        }
    }
}
