//! A device's numbers and the places that follow from them.

use super::refusal::{require, Refusal};

pub const SECTOR: usize = 512;
/// A lent copy: 8 sectors of the header, 16 of area a, 16 of area b.
pub const COPY: usize = 40 * SECTOR;
/// Where the signature block begins in a copy.
pub const BLOCK_OFFSET: usize = SECTOR;
/// Where areas a and b begin in a copy.
pub const AREA_OFFSET: [usize; 2] = [8 * SECTOR, 24 * SECTOR];
/// The most bytes of a record.
pub const RECORD_LIMIT: usize = 16 * SECTOR;

pub const FRONT: usize = 0;
pub const BACK: usize = 1;

/// S, L and R.
#[repr(C)]
#[derive(Clone, Copy, Debug, Default, PartialEq, Eq)]
pub struct Device {
    pub sectors: u64,
    pub metadata: u32,
    pub reserved: u32,
}

impl Device {
    pub const MIN_SECTORS: u64 = 2_097_152;
    pub const MIN_METADATA: u32 = 2_040;
    pub const MAX_METADATA: u32 = 16_384;
    pub const MAX_RESERVED: u32 = 65_536;

    pub fn check_sectors(&self) -> Result<(), Refusal> {
        require(self.sectors >= Self::MIN_SECTORS, Refusal::DeviceSize)
    }

    pub fn check_metadata(&self) -> Result<(), Refusal> {
        let in_range = (Self::MIN_METADATA..=Self::MAX_METADATA).contains(&self.metadata);
        require(in_range && self.metadata.is_multiple_of(2), Refusal::MetadataSize)
    }

    pub fn check_reserved(&self) -> Result<(), Refusal> {
        require(self.reserved <= Self::MAX_RESERVED, Refusal::ReservedSize)
    }

    /// 4, 7, 8.
    pub fn check(&self) -> Result<(), Refusal> {
        self.check_sectors()?;
        self.check_metadata()?;
        self.check_reserved()
    }

    // The sectors of blocks and areas are asked for any numbers, also for those of a call that is refused: a difference that
    // would be negative is 0.

    /// The sector of the signature block, front or back.
    pub fn block_sector(&self, side: usize) -> u64 {
        if side == FRONT {
            1
        } else {
            self.sectors.saturating_sub(7)
        }
    }

    /// The first sector of an area.
    pub fn area_sector(&self, side: usize, area: usize) -> u64 {
        let metadata = u64::from(self.metadata);
        match (side, area) {
            (FRONT, 0) => 8,
            (FRONT, _) => 8 + metadata / 2,
            (_, 0) => self.sectors.saturating_sub(8 + metadata),
            _ => self.sectors.saturating_sub(8 + metadata / 2),
        }
    }

    // The places below are those of a device that `check` accepts.

    /// The first of the header's 8 sectors.
    pub fn header_sector(&self, side: usize) -> u64 {
        if side == FRONT {
            0
        } else {
            self.sectors - 8
        }
    }

    /// The first sector of the reserved space.
    pub fn reserved_sector(&self, side: usize) -> u64 {
        if side == FRONT {
            8 + u64::from(self.metadata)
        } else {
            self.data_end()
        }
    }

    pub fn data_start(&self) -> u64 {
        8 + u64::from(self.metadata) + u64::from(self.reserved)
    }

    /// The first sector after the data range.
    pub fn data_end(&self) -> u64 {
        self.sectors - self.data_start()
    }

    /// The device sector of each of the 40 sectors of a lent copy.
    pub fn copy_sectors(&self, side: usize) -> [u64; 40] {
        let mut sectors = [0; 40];
        for (i, sector) in (0..).zip(&mut sectors) {
            *sector = match i {
                0..8 => self.header_sector(side) + i,
                8..24 => self.area_sector(side, 0) + (i - 8),
                _ => self.area_sector(side, 1) + (i - 24),
            };
        }
        sectors
    }
}
