//! The signature block.

use std::ops::Range;

use super::crc::crc32;
use super::layout::{Device, RECORD_LIMIT, SECTOR};
use super::refusal::{require, Refusal};

pub const SIGNATURE: [u8; 16] =
    [0x21, 0x53, 0x74, 0x72, 0x61, 0x30, 0x74, 0x69, 0x73, 0x86, 0xff, 0x02, 0x5e, 0x41, 0x72, 0x68];
/// Where the entries of areas a and b begin in a block, 20 bytes each.
pub const ENTRY_OFFSET: [usize; 2] = [96, 128];
/// The flags and the zero fields of a block.
pub const ZERO_FIELDS: [Range<usize>; 4] = [28..32, 116..128, 148..160, 168..512];
pub const MAX_NANOSECONDS: u32 = 999_999_999;

pub type BlockBytes = [u8; SECTOR];

#[repr(C)]
#[derive(Clone, Copy, Debug, Default, PartialEq, Eq, PartialOrd, Ord)]
pub struct Time {
    pub seconds: u64,
    pub nanoseconds: u32,
}

/// An area's entry; unused when all its fields are zero.
#[derive(Clone, Copy, Debug, Default, PartialEq, Eq)]
pub struct Entry {
    pub time: Time,
    pub bytes: u32,
    pub crc: u32,
}

impl Entry {
    pub const UNUSED: Entry = Entry { time: Time { seconds: 0, nanoseconds: 0 }, bytes: 0, crc: 0 };

    pub fn of_record(record: &[u8], time: Time) -> Self {
        Entry { time, bytes: record.len() as u32, crc: crc32(record) }
    }

    pub fn is_used(&self) -> bool {
        *self != Self::UNUSED
    }

    fn within_limits(&self) -> bool {
        !self.is_used() || (1..=RECORD_LIMIT as u32).contains(&self.bytes) && self.time.nanoseconds <= MAX_NANOSECONDS
    }

    fn read(block: &[u8], at: usize) -> Self {
        let time = Time { seconds: u64_at(block, at), nanoseconds: u32_at(block, at + 8) };
        Entry { time, bytes: u32_at(block, at + 12), crc: u32_at(block, at + 16) }
    }

    fn write(&self, block: &mut BlockBytes, at: usize) {
        block[at..at + 8].copy_from_slice(&self.time.seconds.to_le_bytes());
        block[at + 8..at + 12].copy_from_slice(&self.time.nanoseconds.to_le_bytes());
        block[at + 12..at + 16].copy_from_slice(&self.bytes.to_le_bytes());
        block[at + 16..at + 20].copy_from_slice(&self.crc.to_le_bytes());
    }
}

/// What the two copies of one device share.
#[derive(Clone, Copy, Debug, PartialEq, Eq)]
pub struct Identity {
    pub device: Device,
    pub pool_uuid: [u8; 32],
    pub device_uuid: [u8; 32],
}

#[derive(Clone, Copy, Debug, PartialEq, Eq)]
pub struct Block {
    pub identity: Identity,
    pub entries: [Entry; 2],
}

impl Block {
    /// Reads a block. 1 to 9.
    pub fn read(block: &[u8]) -> Result<Block, Refusal> {
        require(block.len() == SECTOR, Refusal::SliceSize)?;
        require(block[4..20] == SIGNATURE, Refusal::Signature)?;
        require(u32_at(block, 0) == crc32(&block[4..]), Refusal::BlockCrc)?;
        let read = Block::fields(block);
        let device = &read.identity.device;
        device.check_sectors()?;
        let zero = ZERO_FIELDS.map(|range| all_zero(&block[range]));
        require(zero == [true; 4], Refusal::NotZero)?;
        require(is_uuid(&block[32..64]) && is_uuid(&block[64..96]), Refusal::UuidByte)?;
        device.check_metadata()?;
        device.check_reserved()?;
        check_entries(&read.entries)?;
        Ok(read)
    }

    /// The fields of a block of 512 bytes, without a test.
    pub fn fields(block: &[u8]) -> Block {
        let device = Device { sectors: u64_at(block, 20), metadata: u32_at(block, 160), reserved: u32_at(block, 164) };
        let mut identity = Identity { device, pool_uuid: [0; 32], device_uuid: [0; 32] };
        identity.pool_uuid.copy_from_slice(&block[32..64]);
        identity.device_uuid.copy_from_slice(&block[64..96]);
        Block { identity, entries: ENTRY_OFFSET.map(|at| Entry::read(block, at)) }
    }

    /// Writes a block. 4, 6 to 9.
    pub fn write(&self) -> Result<BlockBytes, Refusal> {
        let Identity { device, pool_uuid, device_uuid } = &self.identity;
        device.check_sectors()?;
        require(is_uuid(pool_uuid) && is_uuid(device_uuid), Refusal::UuidByte)?;
        device.check_metadata()?;
        device.check_reserved()?;
        check_entries(&self.entries)?;
        Ok(self.encode())
    }

    /// The block's bytes, without a test.
    pub fn encode(&self) -> BlockBytes {
        let Identity { device, pool_uuid, device_uuid } = &self.identity;
        let mut block = [0; SECTOR];
        block[4..20].copy_from_slice(&SIGNATURE);
        block[20..28].copy_from_slice(&device.sectors.to_le_bytes());
        block[32..64].copy_from_slice(pool_uuid);
        block[64..96].copy_from_slice(device_uuid);
        for (entry, at) in self.entries.iter().zip(ENTRY_OFFSET) {
            entry.write(&mut block, at);
        }
        block[160..164].copy_from_slice(&device.metadata.to_le_bytes());
        block[164..168].copy_from_slice(&device.reserved.to_le_bytes());
        seal(&mut block);
        block
    }

    /// The used entry with the later time.
    pub fn later_entry(&self) -> Option<usize> {
        let [a, b] = &self.entries;
        match (a.is_used(), b.is_used()) {
            (false, false) => None,
            (true, false) => Some(0),
            (false, true) => Some(1),
            (true, true) => Some(usize::from(b.time > a.time)),
        }
    }
}

/// Replaces one entry of a block, and its CRC.
pub fn put_entry(block: &mut BlockBytes, area: usize, entry: &Entry) {
    entry.write(block, ENTRY_OFFSET[area]);
    seal(block);
}

/// Sets a block's CRC.
pub fn seal(block: &mut BlockBytes) {
    let crc = crc32(&block[4..]);
    block[..4].copy_from_slice(&crc.to_le_bytes());
}

fn check_entries(entries: &[Entry; 2]) -> Result<(), Refusal> {
    let [a, b] = entries;
    let one_time = a.is_used() && b.is_used() && a.time == b.time;
    require(a.within_limits() && b.within_limits() && !one_time, Refusal::AreaEntry)
}

pub fn is_uuid(bytes: &[u8]) -> bool {
    bytes.iter().all(|byte| matches!(byte, b'0'..=b'9' | b'a'..=b'f'))
}

fn all_zero(bytes: &[u8]) -> bool {
    bytes.iter().fold(0, |any, byte| any | byte) == 0
}

pub fn u32_at(bytes: &[u8], at: usize) -> u32 {
    u32::from_le_bytes([bytes[at], bytes[at + 1], bytes[at + 2], bytes[at + 3]])
}

pub fn u64_at(bytes: &[u8], at: usize) -> u64 {
    u64::from(u32_at(bytes, at)) | u64::from(u32_at(bytes, at + 4)) << 32
}
