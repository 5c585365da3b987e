//! A drive as a sparse file, and its two copies in memory.

use std::fs::{File, OpenOptions};
use std::io;
use std::os::unix::fs::FileExt;
use std::path::Path;

use crate::model::block::{put_entry, Block, BlockBytes, Entry, Identity, Time};
use crate::model::discovery::{block_of, Found, Pair};
use crate::model::format::{format, lay};
use crate::model::layout::{Device, BLOCK_OFFSET, COPY, SECTOR};
use crate::model::refusal::Refusal;
use crate::model::update::Update;
use crate::model::{mend, update};

pub const POOL: &[u8; 32] = b"0123456789abcdef0123456789abcdef";
pub const DEVICE: &[u8; 32] = b"fedcba9876543210fedcba9876543210";

/// Front and back, 40 sectors each.
#[derive(Clone, PartialEq, Eq)]
pub struct Copies(pub [Vec<u8>; 2]);

/// A sector, its new bytes, and the group that it is stored in.
#[derive(Clone, PartialEq, Eq)]
pub struct Store {
    pub sector: u64,
    pub bytes: BlockBytes,
    pub group: u8,
}

/// A record with its time.
#[derive(Clone, Debug, PartialEq, Eq)]
pub struct Stamped {
    pub time: Time,
    pub record: Vec<u8>,
}

pub struct Image {
    pub device: Device,
    file: File,
}

pub fn time(seconds: u64, nanoseconds: u32) -> Time {
    Time { seconds, nanoseconds }
}

impl Copies {
    pub fn zero() -> Self {
        Copies([vec![0; COPY], vec![0; COPY]])
    }

    pub fn formatted(identity: &Identity, first: &Stamped) -> Result<Self, Refusal> {
        let mut copies = Copies::zero();
        let [front, back] = &mut copies.0;
        format(front, back, identity, first.time, &first.record)?;
        Ok(copies)
    }

    pub fn pair(&self) -> Pair<'_> {
        Pair::read(&self.0[0], &self.0[1]).expect("two copies of the right size")
    }

    pub fn found(&self) -> Result<Found, Refusal> {
        self.pair().discover()
    }

    /// The record that discovery gives, with its time.
    pub fn newest(&self) -> Result<Stamped, Refusal> {
        let found = self.found()?;
        let record = found.record([&self.0[0], &self.0[1]]).to_vec();
        Ok(Stamped { time: found.time, record })
    }

    /// The dump's line.
    pub fn line(&self) -> String {
        match self.found() {
            Ok(found) => found_line("found", &found, None),
            Err(refusal) => format!("refused {}", refusal.number()),
        }
    }

    pub fn block(&self, side: usize) -> Result<Block, Refusal> {
        Block::read(block_of(&self.0[side]))
    }

    pub fn block_bytes(&self, side: usize) -> BlockBytes {
        let mut bytes = [0; SECTOR];
        bytes.copy_from_slice(block_of(&self.0[side]));
        bytes
    }

    pub fn put_block(&mut self, side: usize, bytes: &BlockBytes) {
        self.0[side][BLOCK_OFFSET..BLOCK_OFFSET + SECTOR].copy_from_slice(bytes);
    }

    /// Lays a record into an area, and its entry into the block.
    pub fn lay(&mut self, side: usize, area: usize, stamped: &Stamped) {
        lay(&mut self.0[side], area, &stamped.record).expect("a length within the limit");
        let mut block = self.block_bytes(side);
        put_entry(&mut block, area, &Entry::of_record(&stamped.record, stamped.time));
        self.put_block(side, &block);
    }

    pub fn update_stores(&self, new: &Stamped) -> Result<Vec<Store>, Refusal> {
        let [front, back] = &self.0;
        let plan: Update = update::plan(front, back, new.time, &new.record)?;
        let stores = (0..plan.count()).map(|number| {
            let mut bytes = [0; SECTOR];
            let sector = plan.store([front, back], &new.record, number, &mut bytes).expect("a store of the plan");
            Store { sector, bytes, group: plan.group(number) }
        });
        Ok(stores.collect())
    }

    pub fn mend_stores(&self) -> Result<Vec<Store>, Refusal> {
        let [front, back] = &self.0;
        let plan = mend::plan(front, back)?;
        let stores = (0..plan.count()).map(|number| {
            let mut bytes = [0; SECTOR];
            let sector = plan.store([front, back], number, &mut bytes).expect("a store of the plan");
            Store { sector, bytes, group: plan.group(number) }
        });
        Ok(stores.collect())
    }

    /// The bytes of a device sector that is in one of the copies.
    pub fn sector(&self, device: &Device, sector: u64) -> Option<&[u8]> {
        let (side, at) = place(device, sector)?;
        Some(&self.0[side][at..at + SECTOR])
    }

    pub fn put_sector(&mut self, device: &Device, sector: u64, bytes: &BlockBytes) {
        let (side, at) = place(device, sector).expect("a sector of the copies");
        self.0[side][at..at + SECTOR].copy_from_slice(bytes);
    }

    pub fn land<'a>(&mut self, device: &Device, stores: impl IntoIterator<Item = &'a Store>) {
        for store in stores {
            self.put_sector(device, store.sector, &store.bytes);
        }
    }
}

/// The side, and the offset in that copy, of a device sector.
pub fn place(device: &Device, sector: u64) -> Option<(usize, usize)> {
    let in_side = |side: usize| device.copy_sectors(side).iter().position(|&s| s == sector).map(|i| (side, i * SECTOR));
    in_side(0).or_else(|| in_side(1))
}

/// The dump's line, with another first word, and `unread` for the other copy where that is said.
pub fn found_line(word: &str, found: &Found, other: Option<&str>) -> String {
    let side = ["front", "back"][found.side];
    let area = ["a", "b"][found.area];
    let refusal = found.other.map_or("both".to_string(), |refusal| refusal.number().to_string());
    let other = other.map_or(refusal, str::to_string);
    let Time { seconds, nanoseconds } = found.time;
    format!("{word} {side} {area} {} {seconds} {nanoseconds} {other}", found.bytes)
}

impl Image {
    /// A new sparse file as long as the device.
    pub fn create(path: &Path, device: Device) -> io::Result<Self> {
        let file = OpenOptions::new().read(true).write(true).create(true).truncate(true).open(path)?;
        file.set_len(device.sectors * SECTOR as u64)?;
        Ok(Image { device, file })
    }

    /// An image that is there; its numbers are those of the block at its front or at its end.
    pub fn open(path: &Path) -> io::Result<Self> {
        let file = OpenOptions::new().read(true).write(true).open(path)?;
        let sectors = file.metadata()?.len() / SECTOR as u64;
        let block = |sector: u64| {
            let mut bytes = [0; SECTOR];
            file.read_exact_at(&mut bytes, sector * SECTOR as u64).ok()?;
            Block::read(&bytes).ok().map(|block| block.identity.device)
        };
        let device = block(1).or_else(|| block(sectors.saturating_sub(7)));
        let device = device.ok_or_else(|| io::Error::other("neither block is accepted"))?;
        Ok(Image { device, file })
    }

    /// The parts of a copy that lie together on the device: first sector, and the bytes of the copy.
    fn parts(&self, side: usize) -> [(u64, std::ops::Range<usize>); 3] {
        let sectors = self.device.copy_sectors(side);
        [(0, 8), (8, 24), (24, 40)].map(|(low, high)| (sectors[low], low * SECTOR..high * SECTOR))
    }

    pub fn put(&self, copies: &Copies) {
        for (side, copy) in copies.0.iter().enumerate() {
            for (sector, range) in self.parts(side) {
                self.file.write_all_at(&copy[range], sector * SECTOR as u64).expect("the image can be written to");
            }
        }
    }

    /// The copies; zeros past the file's end.
    pub fn read(&self) -> Copies {
        let mut copies = Copies::zero();
        for (side, copy) in copies.0.iter_mut().enumerate() {
            for (sector, range) in self.parts(side) {
                for (i, bytes) in copy[range].chunks_exact_mut(SECTOR).enumerate() {
                    let at = (sector + i as u64) * SECTOR as u64;
                    match self.file.read_exact_at(bytes, at) {
                        Err(error) if error.kind() == io::ErrorKind::UnexpectedEof => bytes.fill(0),
                        result => result.expect("the image can be read"),
                    }
                }
            }
        }
        copies
    }

    pub fn length(&self) -> u64 {
        self.file.metadata().map_or(0, |metadata| metadata.len())
    }
}
