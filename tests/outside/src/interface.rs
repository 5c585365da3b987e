//! The calls of the C interface, over slices. The library and the independent implementation both have them.
//!
//! Argument order and answers are those of include/amseokbin.h.

pub use crate::structs::*;

#[allow(clippy::too_many_arguments)]
pub trait Interface {
    fn name(&self) -> &'static str;

    fn version(&self) -> u32;
    fn refusal_words(&self, number: u8) -> Words;
    fn checksum(&self, bytes: &[u8]) -> u32;
    fn checksum_continued(&self, before: u32, bytes: &[u8]) -> u32;
    fn later(&self, time: Time, than: Time) -> bool;

    fn locate_blocks(&self, sectors: u64) -> BlocksAnswer;
    fn places(&self, device: Device) -> PlacesAnswer;

    fn block_read(&self, bytes: &[u8]) -> BlockAnswer;
    fn block_write(&self, block: BlockFields, bytes: &mut [u8]) -> Refused;
    fn copy_read(&self, copy: &[u8]) -> CopyAnswer;

    fn receive_begin(&self) -> Received;
    fn receive_piece(&self, received: Received, piece: &[u8]) -> ReceiveAnswer;
    fn receive_end(&self, received: Received) -> CopyAnswer;

    fn discover(&self, front: &[u8], back: &[u8]) -> FoundAnswer;
    fn read_found(&self, front: &[u8], back: &[u8], buffer: &mut [u8]) -> FoundAnswer;
    fn in_step(&self, front: &[u8], back: &[u8]) -> StepAnswer;
    fn settled(&self, front: &[u8], back: &[u8], front_marks: &[u8], back_marks: &[u8]) -> bool;

    fn apply(&self, device: Device, sector: u64, bytes: &[u8], front: &mut [u8], back: &mut [u8]) -> Refused;
    fn lay(&self, copy: &mut [u8], area: u8, record: &[u8]) -> Refused;

    fn update_check(&self, front: &[u8], back: &[u8], time: Time, record: &[u8]) -> Refused;
    fn update_plan(&self, front: &[u8], back: &[u8], time: Time, record: &[u8]) -> UpdateAnswer;
    fn update_count(&self, plan: UpdatePlan) -> u64;
    fn update_group(&self, plan: UpdatePlan, number: u64) -> u8;
    fn update_store(
        &self,
        plan: UpdatePlan,
        front: &[u8],
        back: &[u8],
        record: &[u8],
        number: u64,
        bytes: &mut [u8],
    ) -> StoreAnswer;

    fn format(
        &self,
        front: &mut [u8],
        back: &mut [u8],
        device: Device,
        pool: &[u8],
        blockdev: &[u8],
        time: Time,
        record: &[u8],
    ) -> Refused;
    fn format_count(&self) -> u64;
    fn format_group(&self, number: u64) -> u8;
    fn format_store(&self, device: Device, front: &[u8], back: &[u8], number: u64, bytes: &mut [u8]) -> StoreAnswer;

    fn mend_plan(&self, front: &[u8], back: &[u8]) -> MendAnswer;
    fn mend_count(&self, plan: MendPlan) -> u64;
    fn mend_group(&self, plan: MendPlan, number: u64) -> u8;
    fn mend_store(&self, plan: MendPlan, front: &[u8], back: &[u8], number: u64, bytes: &mut [u8]) -> StoreAnswer;

    fn record_check(&self, device: Device, record: &[u8]) -> Refused;
    fn record_head(&self, device: Device, record: &[u8]) -> HeadAnswer;
    fn record_segment(&self, device: Device, record: &[u8], position: u64) -> SegmentAnswer;
    fn record_segments(&self, device: Device, record: &[u8], position: u64, table: &mut [u64]) -> CountAnswer;
    fn record_begin(&self, buffer: &mut [u8], block_size: u32) -> Refused;
    fn record_begin_marked(&self, buffer: &mut [u8], block_size: u32, low_water: u32) -> Refused;
    fn record_put(&self, buffer: &mut [u8], position: u64, segment: SegmentFields) -> LengthAnswer;

    fn head_up(&self, device: Device, record: &[u8], changed: &mut [u8]) -> LengthAnswer;
    fn head_back(&self, device: Device, record: &[u8], changed: &mut [u8]) -> LengthAnswer;
    fn head_mark(&self, device: Device, record: &[u8], low_water: u32, changed: &mut [u8]) -> LengthAnswer;

    fn free_total(&self, device: Device, record: &[u8]) -> TotalAnswer;
    fn free_runs(&self, device: Device, record: &[u8], table: &mut [FreeRun]) -> CountAnswer;
    fn run_count(&self, device: Device, record: &[u8]) -> CountAnswer;
    fn run_at(&self, device: Device, record: &[u8], number: u64) -> RunAnswer;
    fn first_fit(&self, device: Device, record: &[u8], sectors: u64) -> RunAnswer;
    fn allocate(&self, device: Device, record: &[u8], kind: u16, sectors: u64, changed: &mut [u8]) -> AllocationAnswer;
    fn release(&self, device: Device, record: &[u8], position: u64, changed: &mut [u8]) -> LengthAnswer;
}
