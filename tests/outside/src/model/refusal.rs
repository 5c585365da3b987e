//! Refusals: their numbers, and what stands beside them.

/// Two segments of a record that share a sector, by their positions, which count from 0.
#[derive(Clone, Copy, Debug, PartialEq, Eq, PartialOrd, Ord)]
pub struct Clash {
    /// The lowest position that clashes with a later one.
    pub first: usize,
    /// The lowest such later position.
    pub second: usize,
}

#[derive(Clone, Copy, Debug, PartialEq, Eq)]
pub enum Refusal {
    SliceSize,
    Signature,
    BlockCrc,
    DeviceSize,
    NotZero,
    UuidByte,
    MetadataSize,
    ReservedSize,
    AreaEntry,
    NoBlock,
    Identity,
    NoRecord,
    TwoRecords,
    NotLater,
    RecordLength,
    NotInStep,
    RecordForm,
    SegmentPlace,
    SegmentClash(Clash),
    NoRoom,
    RecordFull,
    NoSegment,
    NoStore,
    HeadMove,
}

impl Refusal {
    pub fn number(self) -> u8 {
        match self {
            Refusal::SliceSize => 1,
            Refusal::Signature => 2,
            Refusal::BlockCrc => 3,
            Refusal::DeviceSize => 4,
            Refusal::NotZero => 5,
            Refusal::UuidByte => 6,
            Refusal::MetadataSize => 7,
            Refusal::ReservedSize => 8,
            Refusal::AreaEntry => 9,
            Refusal::NoBlock => 10,
            Refusal::Identity => 11,
            Refusal::NoRecord => 12,
            Refusal::TwoRecords => 13,
            Refusal::NotLater => 14,
            Refusal::RecordLength => 15,
            Refusal::NotInStep => 16,
            Refusal::RecordForm => 17,
            Refusal::SegmentPlace => 18,
            Refusal::SegmentClash(_) => 19,
            Refusal::NoRoom => 20,
            Refusal::RecordFull => 21,
            Refusal::NoSegment => 22,
            Refusal::NoStore => 23,
            Refusal::HeadMove => 24,
        }
    }

    /// What stands beside the number: the pair beside 19, zeros beside every other.
    pub fn beside(self) -> [u64; 2] {
        match self {
            Refusal::SegmentClash(Clash { first, second }) => [first as u64, second as u64],
            _ => [0, 0],
        }
    }
}

/// What each number says, from 0 on: the table's lines, without the values of limits.
const WORDS: [&str; 25] = [
    "nothing is refused",
    "a lent slice has the wrong size, or is too small for the answer",
    "the 16 signature bytes differ",
    "the block's CRC differs",
    "S too small",
    "flags or a zero field not zero",
    "a UUID byte not allowed",
    "L not allowed",
    "R not allowed",
    "an area entry breaks a limit, or both used entries have one time",
    "neither copy's block is accepted",
    "both accepted; S, L, R or a UUID differ",
    "no whole record in any accepted copy",
    "the newest whole records of the two copies have one time and different bytes",
    "update time not later than the present record's",
    "record length 0 or over the limit",
    "update asked while the copies are not in step",
    "record malformed, or a kind not known",
    "a segment empty or not wholly in the data range; or 0 sectors asked for",
    "two segments share a sector",
    "no free run is long enough",
    "the record already holds the most segments",
    "no segment has that position",
    "no store has that number",
    "moving the head would lose its low water mark",
];

/// What a number says.
pub fn words(number: u8) -> &'static str {
    WORDS.get(usize::from(number)).copied().unwrap_or("a number that is not known")
}

/// `Err` with the refusal where the condition does not hold.
pub fn require(condition: bool, refusal: Refusal) -> Result<(), Refusal> {
    if condition {
        Ok(())
    } else {
        Err(refusal)
    }
}
