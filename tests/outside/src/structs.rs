//! The structs of include/amseokbin.h, field by field in the header's order. `header.rs` holds them to it.
//!
//! Some of the names are shorter than the header's: a table in `header.rs` has both.

/// S, L and R; and a time. Their fields are those of the independent implementation too.
pub use crate::model::{block::Time, layout::Device};

use crate::model::layout::SECTOR;

/// Bytes of a UUID, in ASCII hex.
pub const UUID: usize = 32;
/// Room for the words of every refusal number.
pub const WORDS: usize = 80;
/// The group past the last store.
pub const NO_GROUP: u8 = 4;

/// A refusal number, and what stands beside it: the positions of two segments that clash beside 19, zeros beside every other.
#[repr(C)]
#[derive(Clone, Copy, Debug, Default, PartialEq, Eq)]
pub struct Refused {
    pub number: u8,
    pub first: u64,
    pub second: u64,
}

#[repr(C)]
#[derive(Clone, Copy, Debug, Default, PartialEq, Eq)]
pub struct EntryFields {
    pub seconds: u64,
    pub nanoseconds: u32,
    pub bytes: u32,
    pub checksum: u32,
}

#[repr(C)]
#[derive(Clone, Copy, Debug, Default, PartialEq, Eq)]
pub struct BlockFields {
    pub device: Device,
    pub a: EntryFields,
    pub b: EntryFields,
    pub pool: [u8; UUID],
    pub blockdev: [u8; UUID],
}

#[repr(C)]
#[derive(Clone, Copy, Debug, Default, PartialEq, Eq)]
pub struct CopyMap {
    pub header: u64,
    pub block: u64,
    pub a: u64,
    pub b: u64,
    pub reserved: u64,
}

#[repr(C)]
#[derive(Clone, Copy, Debug, Default, PartialEq, Eq)]
pub struct DeviceMap {
    pub front: CopyMap,
    pub back: CopyMap,
    pub start: u64,
    pub end: u64,
}

#[repr(C)]
#[derive(Clone, Copy, Debug, Default, PartialEq, Eq)]
pub struct SegmentFields {
    pub kind: u16,
    pub start: u64,
    pub sectors: u64,
}

#[repr(C)]
#[derive(Clone, Copy, Debug, Default, PartialEq, Eq)]
pub struct FreeRun {
    pub start: u64,
    pub sectors: u64,
}

#[repr(C)]
#[derive(Clone, Copy, Debug, PartialEq, Eq)]
pub struct Words {
    pub bytes: [u8; WORDS],
    pub used: usize,
}

#[repr(C)]
#[derive(Clone, Copy, Debug, Default, PartialEq, Eq)]
pub struct BlocksAnswer {
    pub refusal: Refused,
    pub front: u64,
    pub back: u64,
}

#[repr(C)]
#[derive(Clone, Copy, Debug, Default, PartialEq, Eq)]
pub struct PlacesAnswer {
    pub refusal: Refused,
    pub map: DeviceMap,
}

#[repr(C)]
#[derive(Clone, Copy, Debug, Default, PartialEq, Eq)]
pub struct BlockAnswer {
    pub refusal: Refused,
    pub block: BlockFields,
}

#[repr(C)]
#[derive(Clone, Copy, Debug, Default, PartialEq, Eq)]
pub struct CopyAnswer {
    pub refusal: Refused,
    pub block: BlockFields,
    pub a_whole: bool,
    pub b_whole: bool,
    pub present: u8,
}

/// The state of a copy that arrives in pieces.
#[repr(C)]
#[derive(Clone, Copy, PartialEq, Eq)]
pub struct Received {
    pub taken: usize,
    pub block: [u8; SECTOR],
    pub a: u32,
    pub b: u32,
}

#[repr(C)]
#[derive(Clone, Copy, Debug, PartialEq, Eq)]
pub struct ReceiveAnswer {
    pub refusal: Refused,
    pub received: Received,
}

#[repr(C)]
#[derive(Clone, Copy, Debug, Default, PartialEq, Eq)]
pub struct FoundAnswer {
    pub refusal: Refused,
    pub side: u8,
    pub area: u8,
    pub other: u8,
    pub bytes: u32,
    pub time: Time,
    pub block: BlockFields,
}

#[repr(C)]
#[derive(Clone, Copy, Debug, Default, PartialEq, Eq)]
pub struct StepAnswer {
    pub refusal: Refused,
    pub in_step: bool,
}

#[repr(C)]
#[derive(Clone, Copy, Debug, Default, PartialEq, Eq)]
pub struct StoreAnswer {
    pub refusal: Refused,
    pub sector: u64,
    pub flush: bool,
}

#[repr(C)]
#[derive(Clone, Copy, Debug, Default, PartialEq, Eq)]
pub struct UpdatePlan {
    pub entry: EntryFields,
    pub front: u8,
    pub back: u8,
}

#[repr(C)]
#[derive(Clone, Copy, Debug, Default, PartialEq, Eq)]
pub struct UpdateAnswer {
    pub refusal: Refused,
    pub plan: UpdatePlan,
}

#[repr(C)]
#[derive(Clone, Copy, Debug, Default, PartialEq, Eq)]
pub struct MendPlan {
    pub bytes: u32,
    pub needed: u8,
    pub kept: u8,
    pub area: u8,
    pub last: u8,
}

#[repr(C)]
#[derive(Clone, Copy, Debug, Default, PartialEq, Eq)]
pub struct MendAnswer {
    pub refusal: Refused,
    pub plan: MendPlan,
}

#[repr(C)]
#[derive(Clone, Copy, Debug, Default, PartialEq, Eq)]
pub struct HeadAnswer {
    pub refusal: Refused,
    pub kind: u16,
    pub block_size: u32,
    pub low_water: u32,
    pub segments: u64,
}

#[repr(C)]
#[derive(Clone, Copy, Debug, Default, PartialEq, Eq)]
pub struct SegmentAnswer {
    pub refusal: Refused,
    pub segment: SegmentFields,
}

#[repr(C)]
#[derive(Clone, Copy, Debug, Default, PartialEq, Eq)]
pub struct CountAnswer {
    pub refusal: Refused,
    pub count: u64,
}

#[repr(C)]
#[derive(Clone, Copy, Debug, Default, PartialEq, Eq)]
pub struct LengthAnswer {
    pub refusal: Refused,
    pub length: u64,
}

#[repr(C)]
#[derive(Clone, Copy, Debug, Default, PartialEq, Eq)]
pub struct TotalAnswer {
    pub refusal: Refused,
    pub sectors: u64,
}

#[repr(C)]
#[derive(Clone, Copy, Debug, Default, PartialEq, Eq)]
pub struct RunAnswer {
    pub refusal: Refused,
    pub run: FreeRun,
}

#[repr(C)]
#[derive(Clone, Copy, Debug, Default, PartialEq, Eq)]
pub struct AllocationAnswer {
    pub refusal: Refused,
    pub start: u64,
    pub length: u64,
}

/// What a call answers.
pub trait Answer: Copy + std::fmt::Debug + PartialEq {
    /// Its refusal number; of an answer that has none, the answer itself.
    fn number(&self) -> u64;

    /// Its refusal, where it has one.
    fn refused(&self) -> Option<Refused>;

    /// Its refusal with zero in every other field, where the answer has a refusal. The state of a copy in pieces stays beside it: it is no other
    /// field, and comes back from a piece that is refused.
    fn alone(&self) -> Option<Self>;
}

/// An answer that begins with a refusal.
pub trait Refusable: Answer + Default {
    fn refusal_mut(&mut self) -> &mut Refused;

    /// The answer with this refusal and zero in every other field.
    fn refusing(refusal: Refused) -> Self {
        let mut answer = Self::default();
        *answer.refusal_mut() = refusal;
        answer
    }
}

impl Refused {
    /// A number that nothing stands beside.
    pub fn numbered(number: u8) -> Self {
        Refused { number, ..Self::default() }
    }
}

impl Answer for Refused {
    fn number(&self) -> u64 {
        self.number.into()
    }

    fn refused(&self) -> Option<Refused> {
        Some(*self)
    }

    fn alone(&self) -> Option<Self> {
        Some(*self)
    }
}

impl Refusable for Refused {
    fn refusal_mut(&mut self) -> &mut Refused {
        self
    }
}

macro_rules! begin_with_a_refusal {
    ($($answer:ty),* $(,)?) => {$(
        impl Answer for $answer {
            fn number(&self) -> u64 {
                self.refusal.number.into()
            }

            fn refused(&self) -> Option<Refused> {
                Some(self.refusal)
            }

            fn alone(&self) -> Option<Self> {
                Some(Self::refusing(self.refusal))
            }
        }

        impl Refusable for $answer {
            fn refusal_mut(&mut self) -> &mut Refused {
                &mut self.refusal
            }
        }
    )*};
}

begin_with_a_refusal!(
    BlocksAnswer,
    PlacesAnswer,
    BlockAnswer,
    CopyAnswer,
    FoundAnswer,
    StepAnswer,
    StoreAnswer,
    UpdateAnswer,
    MendAnswer,
    HeadAnswer,
    SegmentAnswer,
    CountAnswer,
    LengthAnswer,
    TotalAnswer,
    RunAnswer,
    AllocationAnswer,
);

macro_rules! numbers {
    ($($answer:ty),*) => {$(
        impl Answer for $answer {
            fn number(&self) -> u64 {
                u64::from(*self)
            }

            fn refused(&self) -> Option<Refused> {
                None
            }

            fn alone(&self) -> Option<Self> {
                None
            }
        }
    )*};
}

numbers!(bool, u8, u32, u64);

/// Words are counted by their length.
impl Answer for Words {
    fn number(&self) -> u64 {
        self.used as u64
    }

    fn refused(&self) -> Option<Refused> {
        None
    }

    fn alone(&self) -> Option<Self> {
        None
    }
}

/// A state is counted by how many bytes were taken.
impl Answer for Received {
    fn number(&self) -> u64 {
        self.taken as u64
    }

    fn refused(&self) -> Option<Refused> {
        None
    }

    fn alone(&self) -> Option<Self> {
        None
    }
}

impl Answer for ReceiveAnswer {
    fn number(&self) -> u64 {
        self.refusal.number.into()
    }

    fn refused(&self) -> Option<Refused> {
        Some(self.refusal)
    }

    fn alone(&self) -> Option<Self> {
        Some(*self)
    }
}

/// The block in hex, without the zeros at its end.
impl std::fmt::Debug for Received {
    fn fmt(&self, f: &mut std::fmt::Formatter) -> std::fmt::Result {
        let Received { taken, block, a, b } = self;
        let length = block.iter().rposition(|&byte| byte != 0).map_or(0, |last| last + 1);
        let block: String = block[..length].iter().map(|byte| format!("{byte:02x}")).collect();
        write!(f, "Received {{ taken: {taken}, block: {block}, a: {a:08x}, b: {b:08x} }}")
    }
}

impl Words {
    pub fn text(&self) -> &[u8] {
        &self.bytes[..self.used.min(WORDS)]
    }
}

impl BlockFields {
    pub fn entry(&self, area: usize) -> &EntryFields {
        if area == 0 {
            &self.a
        } else {
            &self.b
        }
    }
}

impl EntryFields {
    pub fn time(&self) -> Time {
        Time { seconds: self.seconds, nanoseconds: self.nanoseconds }
    }
}

/// Numbers as the runs that they are the fields of; one that is left over is not lent.
pub fn as_runs(numbers: &mut [u64]) -> &mut [FreeRun] {
    let (start, count) = (numbers.as_mut_ptr(), numbers.len() / 2);
    // A run is two numbers, in their alignment, and borrowed as long as they are.
    unsafe { std::slice::from_raw_parts_mut(start.cast::<FreeRun>(), count) }
}
