//! Device numbers, identities and times.

use crate::model::block::{Identity, Time, MAX_NANOSECONDS};
use crate::model::layout::Device;
use crate::rng::Rng;

/// A number from `low` to `high`, often at a limit, otherwise of any magnitude.
pub fn spread(rng: &mut Rng, low: u64, high: u64) -> u64 {
    match rng.below(8) {
        0 => low,
        1 => high,
        2 => low + rng.below(4).min(high - low),
        3 => high - rng.below(4).min(high - low),
        4 => rng.within(low, high),
        _ => {
            let magnitude = rng.next() >> rng.below(64);
            low + magnitude.min(high - low)
        }
    }
}

pub fn device(rng: &mut Rng) -> Device {
    let sectors = spread(rng, Device::MIN_SECTORS, u64::MAX);
    let (low, high) = (u64::from(Device::MIN_METADATA), u64::from(Device::MAX_METADATA));
    let metadata = spread(rng, low / 2, high / 2) as u32 * 2;
    let reserved = spread(rng, 0, u64::from(Device::MAX_RESERVED)) as u32;
    Device { sectors, metadata, reserved }
}

/// Device numbers of which some may break a limit, often by one.
pub fn any_device(rng: &mut Rng) -> Device {
    let mut device = device(rng);
    while rng.coin() {
        break_device(rng, &mut device);
    }
    device
}

/// Breaks one limit of a device's numbers.
pub fn break_device(rng: &mut Rng, device: &mut Device) {
    match rng.below(3) {
        0 => device.sectors = break_sectors(rng),
        1 => device.metadata = break_metadata(rng),
        _ => device.reserved = break_reserved(rng),
    }
}

pub fn break_sectors(rng: &mut Rng) -> u64 {
    let random = rng.below(Device::MIN_SECTORS);
    rng.one_of(&[Device::MIN_SECTORS - 1, Device::MIN_SECTORS - 2, 0, 1, random])
}

pub fn break_metadata(rng: &mut Rng) -> u32 {
    let random = rng.next() as u32 | 1;
    let odd = (rng.within(1_019, 8_192) * 2 + 1) as u32;
    let high = 1 << rng.within(15, 31);
    rng.one_of(&[2_038, 2_039, 2_041, 16_383, 16_385, 16_386, 0, u32::MAX, random, odd, high])
}

pub fn break_reserved(rng: &mut Rng) -> u32 {
    let random = rng.within(65_537, u64::from(u32::MAX)) as u32;
    rng.one_of(&[65_537, 65_538, u32::MAX, random])
}

pub fn uuid(rng: &mut Rng) -> [u8; 32] {
    let mut uuid = [0; 32];
    uuid.fill_with(|| rng.one_of(b"0123456789abcdef"));
    uuid
}

/// A byte that no UUID has, often next to an allowed one.
pub fn not_hex(rng: &mut Rng) -> u8 {
    loop {
        let random = rng.next() as u8;
        let byte = rng.one_of(&[b'/', b':', b'`', b'g', b'A', b'F', b'-', b' ', 0, 0xff, random]);
        if !matches!(byte, b'0'..=b'9' | b'a'..=b'f') {
            return byte;
        }
    }
}

pub fn identity(rng: &mut Rng) -> Identity {
    Identity { device: device(rng), pool_uuid: uuid(rng), device_uuid: uuid(rng) }
}

/// The same identity with one field changed to another allowed value.
pub fn other_identity(rng: &mut Rng, identity: &Identity) -> Identity {
    loop {
        let mut other = *identity;
        let random = self::identity(rng);
        match rng.below(5) {
            0 => other.device.sectors = random.device.sectors,
            1 => other.device.metadata = random.device.metadata,
            2 => other.device.reserved = random.device.reserved,
            3 => other.pool_uuid[rng.index(32)] = rng.one_of(b"0123456789abcdef"),
            _ => other.device_uuid[rng.index(32)] = rng.one_of(b"0123456789abcdef"),
        }
        if other != *identity {
            return other;
        }
    }
}

/// A time, often at a limit.
pub fn time(rng: &mut Rng) -> Time {
    let seconds = spread(rng, 0, u64::MAX);
    let nanoseconds = spread(rng, 0, u64::from(MAX_NANOSECONDS)) as u32;
    Time { seconds, nanoseconds }
}

/// A few times, some of them with the same seconds, some the same.
pub fn times(rng: &mut Rng, count: usize) -> Vec<Time> {
    let mut times = vec![if rng.once_in(4) { Time::default() } else { time(rng) }];
    while times.len() < count {
        let from = times[rng.index(times.len())];
        let next = match rng.below(5) {
            0 => Some(from),
            1 | 2 => later(rng, from),
            3 => earlier(rng, from),
            _ => Some(time(rng)),
        };
        times.extend(next);
    }
    times
}

/// A time that is later, if there is one.
pub fn later(rng: &mut Rng, time: Time) -> Option<Time> {
    let Time { seconds, nanoseconds } = time;
    let next_second = seconds.checked_add(1);
    if nanoseconds < MAX_NANOSECONDS && (next_second.is_none() || rng.coin()) {
        let limit = MAX_NANOSECONDS - nanoseconds;
        let nanoseconds = nanoseconds + spread(rng, 1, u64::from(limit)) as u32;
        return Some(Time { seconds, nanoseconds });
    }
    let seconds = spread(rng, next_second?, u64::MAX);
    let nanoseconds = spread(rng, 0, u64::from(MAX_NANOSECONDS)) as u32;
    Some(Time { seconds, nanoseconds })
}

/// A time that is earlier, if there is one.
pub fn earlier(rng: &mut Rng, time: Time) -> Option<Time> {
    let Time { seconds, nanoseconds } = time;
    if nanoseconds > 0 && (seconds == 0 || rng.coin()) {
        let nanoseconds = spread(rng, 0, u64::from(nanoseconds) - 1) as u32;
        return Some(Time { seconds, nanoseconds });
    }
    let seconds = spread(rng, 0, seconds.checked_sub(1)?);
    let nanoseconds = spread(rng, 0, u64::from(MAX_NANOSECONDS)) as u32;
    Some(Time { seconds, nanoseconds })
}

/// Nanoseconds past the limit.
pub fn break_nanoseconds(rng: &mut Rng) -> u32 {
    let random = rng.within(1_000_000_000, u64::from(u32::MAX)) as u32;
    rng.one_of(&[1_000_000_000, 1_000_000_001, u32::MAX, random])
}

/// A length that is not `right`.
pub fn wrong_length(rng: &mut Rng, right: usize) -> usize {
    loop {
        let random = rng.index(2 * right + 2);
        let choices = [right + 1, right.saturating_sub(1), 0, 2 * right, right / 2, random];
        let length = rng.one_of(&choices);
        if length != right {
            return length;
        }
    }
}
