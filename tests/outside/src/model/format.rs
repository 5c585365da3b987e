//! Formatting, and laying a record into a copy.

use super::block::{is_uuid, Block, Entry, Identity, Time, MAX_NANOSECONDS};
use super::layout::{AREA_OFFSET, BLOCK_OFFSET, COPY, SECTOR};
use super::record::{check_length, check_record};
use super::refusal::{require, Refusal};

/// Lays a record into an area of a copy, its last sector filled with zeros. 1, 15.
pub fn lay(copy: &mut [u8], area: usize, record: &[u8]) -> Result<(), Refusal> {
    require(copy.len() == COPY, Refusal::SliceSize)?;
    check_length(record)?;
    let (laid, rest) = copy[AREA_OFFSET[area]..].split_at_mut(record.len());
    laid.copy_from_slice(record);
    rest[..record.len().next_multiple_of(SECTOR) - record.len()].fill(0);
    Ok(())
}

/// Fills both copies. 1, 4, 6 to 9, 15, 17 to 19.
pub fn format(
    front: &mut [u8],
    back: &mut [u8],
    identity: &Identity,
    time: Time,
    record: &[u8],
) -> Result<(), Refusal> {
    require(front.len() == COPY && back.len() == COPY, Refusal::SliceSize)?;
    let Identity { device, pool_uuid, device_uuid } = identity;
    device.check_sectors()?;
    require(is_uuid(pool_uuid) && is_uuid(device_uuid), Refusal::UuidByte)?;
    device.check_metadata()?;
    device.check_reserved()?;
    require(time.nanoseconds <= MAX_NANOSECONDS, Refusal::AreaEntry)?;
    check_record(device, record)?;
    let entries = [Entry::of_record(record, time), Entry::UNUSED];
    let block = Block { identity: *identity, entries }.encode();
    for copy in [front, back] {
        copy.fill(0);
        copy[BLOCK_OFFSET..BLOCK_OFFSET + SECTOR].copy_from_slice(&block);
        lay(copy, 0, record)?;
    }
    Ok(())
}
