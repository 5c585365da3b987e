//! A simulated device: a map from sector numbers to sectors, and stores to it.

use std::collections::HashMap;

use crate::model::block::BlockBytes;
use crate::model::layout::{Device, COPY, SECTOR};

/// A sector that was never stored to is zero.
#[derive(Clone)]
pub struct Disk {
    pub device: Device,
    sectors: HashMap<u64, BlockBytes>,
}

/// A device sector and its new bytes.
pub struct Store {
    pub sector: u64,
    pub bytes: BlockBytes,
    pub group: u8,
}

impl Disk {
    /// A disk with these two copies at their places; with what there is of them, where they are shorter.
    pub fn new(device: Device, copies: &[Vec<u8>; 2]) -> Self {
        let mut disk = Disk { device, sectors: HashMap::new() };
        for (side, copy) in copies.iter().enumerate() {
            for (sector, bytes) in device.copy_sectors(side).iter().zip(copy.chunks_exact(SECTOR)) {
                let mut stored = [0; SECTOR];
                stored.copy_from_slice(bytes);
                disk.write(*sector, &stored);
            }
        }
        disk
    }

    pub fn read(&self, sector: u64) -> BlockBytes {
        self.sectors.get(&sector).copied().unwrap_or([0; SECTOR])
    }

    /// Whether the sector had been stored to before.
    pub fn write(&mut self, sector: u64, bytes: &BlockBytes) -> bool {
        self.sectors.insert(sector, *bytes).is_some()
    }

    /// A copy, read from its places.
    pub fn copy(&self, side: usize) -> Vec<u8> {
        let mut copy = Vec::with_capacity(COPY);
        for sector in self.device.copy_sectors(side) {
            copy.extend_from_slice(&self.read(sector));
        }
        copy
    }

    pub fn copies(&self) -> [Vec<u8>; 2] {
        [self.copy(0), self.copy(1)]
    }

    pub fn land<'a>(&mut self, stores: impl IntoIterator<Item = &'a Store>) {
        for store in stores {
            self.write(store.sector, &store.bytes);
        }
    }
}
