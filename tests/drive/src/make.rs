//! Makes and changes images with right checksums, without the command, and says what an independent discovery finds.

use std::fs;
use std::os::fd::AsRawFd;
use std::os::unix::fs::FileExt;
use std::path::Path;

use crate::image::{time, Copies, Image, Stamped};
use crate::model::block::{put_entry, seal, Entry, Identity, Time};
use crate::model::layout::{Device, BLOCK_OFFSET, SECTOR};
use crate::model::record::{Head, Segment};
use crate::states::{identity, SMALL};

type Done = Result<(), String>;

/// The words that make and look at images. `None` for any other word.
pub fn word(arguments: &[&str]) -> Option<Done> {
    Some(match arguments {
        ["segments", file, head, segments @ ..] => make_record(file, head, segments),
        ["new", image, when, record, rest @ ..] => new(image, when, record, rest),
        ["update", image, when, record] => update(image, when, record, "4"),
        ["update", image, when, record, groups] => update(image, when, record, groups),
        ["lay", image, side, area, when, record] => lay(image, side, area, when, record),
        ["unuse", image, side, area] => unuse(image, side, area),
        ["field", image, side, offset, bytes] => field(image, side, offset, bytes),
        ["found", image] => found(image),
        ["hash", image] => hash(image),
        _ => return None,
    })
}

pub const USAGE: &str = "\
drive segments FILE BLOCK-SIZE[:MARK] [KIND:START:SECTORS..]  writes a record, its head with a low water mark or without
drive new IMAGE SECONDS.NANOSECONDS RECORD [sectors=N] [metadata=N] [reserved=N] [pool=UUID] [device=UUID]
                                                              makes a sparse image and formats it
drive update IMAGE SECONDS.NANOSECONDS RECORD [GROUPS]        lands an update, or its first groups only
drive lay IMAGE front|back a|b SECONDS.NANOSECONDS RECORD     lays any bytes into one area, with its entry
drive unuse IMAGE front|back a|b                              makes an entry unused
drive field IMAGE front|back OFFSET HEX                       changes bytes of a block and sets its checksum
drive found IMAGE                                             what an independent discovery finds
drive hash IMAGE                                              a hash of its length and of every sector that is not zero";

fn number<T: std::str::FromStr>(text: &str) -> Result<T, String> {
    text.parse().map_err(|_| format!("not a number: {text}"))
}

fn when(text: &str) -> Result<Time, String> {
    let (seconds, nanoseconds) = text.split_once('.').ok_or_else(|| format!("not SECONDS.NANOSECONDS: {text}"))?;
    Ok(time(number(seconds)?, number(nanoseconds)?))
}

fn choice(text: &str, names: [&str; 2]) -> Result<usize, String> {
    names.iter().position(|&name| name == text).ok_or_else(|| format!("neither {} nor {}: {text}", names[0], names[1]))
}

fn side_of(text: &str) -> Result<usize, String> {
    choice(text, ["front", "back"])
}

fn area_of(text: &str) -> Result<usize, String> {
    choice(text, ["a", "b"])
}

fn stamped(time: &str, record: &str) -> Result<Stamped, String> {
    Ok(Stamped { time: when(time)?, record: fs::read(record).map_err(|error| format!("{record}: {error}"))? })
}

fn open(image: &str) -> Result<Image, String> {
    Image::open(Path::new(image)).map_err(|error| format!("{image}: {error}"))
}

fn make_record(file: &str, head: &str, segments: &[&str]) -> Done {
    let head = match head.split_once(':') {
        Some((block_size, mark)) => Head::marked(number(block_size)?, number(mark)?),
        None => Head::plain(number(head)?),
    };
    head.check().map_err(|refusal| format!("{refusal:?}"))?;
    let mut bytes = head.item();
    for text in segments {
        let numbers: Vec<u64> = text.split(':').map(number).collect::<Result<_, _>>()?;
        let [kind, start, length] = numbers[..] else {
            return Err(format!("not KIND:START:SECTORS: {text}"));
        };
        bytes.extend_from_slice(&Segment { kind: kind as u16, start, length }.item());
    }
    fs::write(file, bytes).map_err(|error| format!("{file}: {error}"))
}

fn new(image: &str, time: &str, record: &str, rest: &[&str]) -> Done {
    let mut identity: Identity = identity(SMALL);
    for text in rest {
        let Device { sectors, metadata, reserved } = &mut identity.device;
        let uuid = |value: &str| value.as_bytes().try_into().map_err(|_| format!("not 32 bytes: {value}"));
        match text.split_once('=') {
            Some(("sectors", value)) => *sectors = number(value)?,
            Some(("metadata", value)) => *metadata = number(value)?,
            Some(("reserved", value)) => *reserved = number(value)?,
            Some(("pool", value)) => identity.pool_uuid = uuid(value)?,
            Some(("device", value)) => identity.device_uuid = uuid(value)?,
            _ => return Err(format!("not known: {text}")),
        }
    }
    let copies = Copies::formatted(&identity, &stamped(time, record)?).map_err(|refusal| format!("{refusal:?}"))?;
    let image = Image::create(Path::new(image), identity.device).map_err(|error| format!("{image}: {error}"))?;
    image.put(&copies);
    Ok(())
}

fn update(image: &str, time: &str, record: &str, groups: &str) -> Done {
    let image = open(image)?;
    let mut copies = image.read();
    let groups: u8 = number(groups)?;
    let stores = copies.update_stores(&stamped(time, record)?).map_err(|refusal| format!("{refusal:?}"))?;
    copies.land(&image.device, stores.iter().filter(|store| store.group < groups));
    image.put(&copies);
    Ok(())
}

fn lay(image: &str, side: &str, area: &str, time: &str, record: &str) -> Done {
    let image = open(image)?;
    let mut copies = image.read();
    copies.lay(side_of(side)?, area_of(area)?, &stamped(time, record)?);
    image.put(&copies);
    Ok(())
}

fn unuse(image: &str, side: &str, area: &str) -> Done {
    let image = open(image)?;
    let mut copies = image.read();
    let side = side_of(side)?;
    let mut block = copies.block_bytes(side);
    put_entry(&mut block, area_of(area)?, &Entry::UNUSED);
    copies.put_block(side, &block);
    image.put(&copies);
    Ok(())
}

fn field(image: &str, side: &str, offset: &str, bytes: &str) -> Done {
    let image = open(image)?;
    let mut copies = image.read();
    let (side, offset) = (side_of(side)?, number::<usize>(offset)?);
    if !bytes.len().is_multiple_of(2) || offset + bytes.len() / 2 > SECTOR {
        return Err(format!("not bytes of a block: {offset} {bytes}"));
    }
    for i in 0..bytes.len() / 2 {
        let byte = u8::from_str_radix(&bytes[2 * i..2 * i + 2], 16).map_err(|_| format!("not hex: {bytes}"))?;
        copies.0[side][BLOCK_OFFSET + offset + i] = byte;
    }
    let mut block = copies.block_bytes(side);
    seal(&mut block);
    copies.put_block(side, &block);
    image.put(&copies);
    Ok(())
}

fn found(image: &str) -> Done {
    let line = match Image::open(Path::new(image)) {
        Ok(image) => image.read().line(),
        Err(_) => "refused 10".to_string(),
    };
    println!("{line}");
    Ok(())
}

extern "C" {
    fn lseek(descriptor: i32, offset: i64, whence: i32) -> i64;
}
const SEEK_DATA: i32 = 3;
const SEEK_HOLE: i32 = 4;

/// Holes in the file are not read, so that a sparse image takes no time.
fn hash(image: &str) -> Done {
    let file = fs::File::open(image).map_err(|error| format!("{image}: {error}"))?;
    let length = file.metadata().map_err(|error| format!("{image}: {error}"))?.len();
    let mut hash = 0xCBF2_9CE4_8422_2325;
    let mut add = |bytes: &[u8]| {
        for &byte in bytes {
            hash = (hash ^ u64::from(byte)).wrapping_mul(0x0000_0100_0000_01B3);
        }
    };
    add(&length.to_le_bytes());
    let mut at = 0;
    loop {
        // The descriptor is the file's own, and lseek touches no memory.
        let start = unsafe { lseek(file.as_raw_fd(), at, SEEK_DATA) };
        if start < 0 {
            break;
        }
        at = unsafe { lseek(file.as_raw_fd(), start, SEEK_HOLE) };
        let mut sector = start as u64 / SECTOR as u64;
        while (sector * SECTOR as u64) < at as u64 {
            let mut bytes = [0; SECTOR];
            let read = file.read_at(&mut bytes, sector * SECTOR as u64).map_err(|error| format!("{image}: {error}"))?;
            if bytes != [0; SECTOR] {
                add(&sector.to_le_bytes());
                add(&bytes[..read]);
            }
            sector += 1;
        }
    }
    println!("{hash:016x}");
    Ok(())
}
