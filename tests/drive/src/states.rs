//! The states of the drive that the runs begin with.

use crate::image::{time, Copies, Stamped, DEVICE, POOL};
use crate::model::block::Identity;
use crate::model::layout::{Device, AREA_OFFSET, BLOCK_OFFSET};
use crate::model::record::{Head, Segment};

pub const SMALL: Device = Device { sectors: 2_097_152, metadata: 2_040, reserved: 0 };

/// With a larger metadata area and reserved space.
pub const LARGE: Device = Device { sectors: 2_099_208, metadata: 4_096, reserved: 64 };

pub fn identity(device: Device) -> Identity {
    Identity { device, pool_uuid: *POOL, device_uuid: *DEVICE }
}

/// The head of kind 16 that most records have, and one of kind 17.
pub const PLAIN: Head = Head::plain(128);
pub const MARKED: Head = Head::marked(128, 500);

/// A record with that head and that many segments of 4 sectors, 5 sectors apart.
pub fn record(head: Head, device: &Device, segments: u64) -> Vec<u8> {
    let mut bytes = head.item();
    for i in 0..segments {
        let segment = Segment { kind: 1 + (i % 4) as u16, start: device.data_start() + 5 * i, length: 4 };
        bytes.extend_from_slice(&segment.item());
    }
    bytes
}

pub fn stamped(device: &Device, segments: u64, seconds: u64, nanoseconds: u32) -> Stamped {
    headed(PLAIN, device, segments, seconds, nanoseconds)
}

/// The same with another head.
pub fn headed(head: Head, device: &Device, segments: u64, seconds: u64, nanoseconds: u32) -> Stamped {
    Stamped { time: time(seconds, nanoseconds), record: record(head, device, segments) }
}

/// In step: area a with the older record, area b with the newer one.
pub fn in_step(device: Device, older: &Stamped, newer: &Stamped) -> Copies {
    let mut copies = Copies::formatted(&identity(device), older).expect("a first record");
    let stores = copies.update_stores(newer).expect("an update");
    copies.land(&device, &stores);
    copies
}

/// An update of copies in step whose first groups have landed.
pub fn half_updated(device: Device, before: &Copies, new: &Stamped, groups: u8) -> Copies {
    let mut copies = before.clone();
    let stores = copies.update_stores(new).expect("an update");
    copies.land(&device, stores.iter().filter(|store| store.group < groups));
    copies
}

/// One wrong byte in a block.
pub fn spoil_block(copies: &mut Copies, side: usize) {
    copies.0[side][BLOCK_OFFSET + 40] ^= 0xA5;
}

/// One wrong byte in an area.
pub fn tear(copies: &mut Copies, side: usize, area: usize) {
    copies.0[side][AREA_OFFSET[area] + 3] ^= 0xA5;
}
