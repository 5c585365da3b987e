//! The library's C interface: the declarations of include/amseokbin.h, and safe wrappers over slices.

use std::ptr::{null, null_mut};

use crate::interface::*;

extern "C" {
    fn amseokbin_version() -> u32;
    fn amseokbin_refusal_words(number: u8) -> Words;
    fn amseokbin_checksum(bytes: *const u8, bytes_length: usize) -> u32;
    fn amseokbin_checksum_continued(before: u32, bytes: *const u8, bytes_length: usize) -> u32;
    fn amseokbin_later(time: Time, than: Time) -> bool;
    fn amseokbin_locate_blocks(sectors: u64) -> BlocksAnswer;
    fn amseokbin_places(device: Device) -> PlacesAnswer;
    fn amseokbin_block_read(bytes: *const u8, bytes_length: usize) -> BlockAnswer;
    fn amseokbin_block_write(block: BlockFields, bytes: *mut u8, bytes_length: usize) -> Refused;
    fn amseokbin_copy_read(copy: *const u8, copy_length: usize) -> CopyAnswer;
    fn amseokbin_receive_begin() -> Received;
    fn amseokbin_receive_piece(received: Received, piece: *const u8, piece_length: usize) -> ReceiveAnswer;
    fn amseokbin_receive_end(received: Received) -> CopyAnswer;
    fn amseokbin_discover(front: *const u8, front_length: usize, back: *const u8, back_length: usize) -> FoundAnswer;
    fn amseokbin_read_found(
        front: *const u8,
        front_length: usize,
        back: *const u8,
        back_length: usize,
        buffer: *mut u8,
        buffer_length: usize,
    ) -> FoundAnswer;
    fn amseokbin_in_step(front: *const u8, front_length: usize, back: *const u8, back_length: usize) -> StepAnswer;
    fn amseokbin_settled(
        front: *const u8,
        front_length: usize,
        back: *const u8,
        back_length: usize,
        front_marks: *const u8,
        front_marks_length: usize,
        back_marks: *const u8,
        back_marks_length: usize,
    ) -> bool;
    fn amseokbin_apply(
        device: Device,
        sector: u64,
        bytes: *const u8,
        bytes_length: usize,
        front: *mut u8,
        front_length: usize,
        back: *mut u8,
        back_length: usize,
    ) -> Refused;
    fn amseokbin_lay(copy: *mut u8, copy_length: usize, area: u8, record: *const u8, record_length: usize) -> Refused;
    fn amseokbin_update_check(
        front: *const u8,
        front_length: usize,
        back: *const u8,
        back_length: usize,
        time: Time,
        record: *const u8,
        record_length: usize,
    ) -> Refused;
    fn amseokbin_update_plan(
        front: *const u8,
        front_length: usize,
        back: *const u8,
        back_length: usize,
        time: Time,
        record: *const u8,
        record_length: usize,
    ) -> UpdateAnswer;
    fn amseokbin_update_count(plan: UpdatePlan) -> u64;
    fn amseokbin_update_group(plan: UpdatePlan, number: u64) -> u8;
    fn amseokbin_update_store(
        plan: UpdatePlan,
        front: *const u8,
        front_length: usize,
        back: *const u8,
        back_length: usize,
        record: *const u8,
        record_length: usize,
        number: u64,
        bytes: *mut u8,
        bytes_length: usize,
    ) -> StoreAnswer;
    fn amseokbin_format(
        front: *mut u8,
        front_length: usize,
        back: *mut u8,
        back_length: usize,
        device: Device,
        pool: *const u8,
        pool_length: usize,
        blockdev: *const u8,
        blockdev_length: usize,
        time: Time,
        record: *const u8,
        record_length: usize,
    ) -> Refused;
    fn amseokbin_format_count() -> u64;
    fn amseokbin_format_group(number: u64) -> u8;
    fn amseokbin_format_store(
        device: Device,
        front: *const u8,
        front_length: usize,
        back: *const u8,
        back_length: usize,
        number: u64,
        bytes: *mut u8,
        bytes_length: usize,
    ) -> StoreAnswer;
    fn amseokbin_mend_plan(front: *const u8, front_length: usize, back: *const u8, back_length: usize) -> MendAnswer;
    fn amseokbin_mend_count(plan: MendPlan) -> u64;
    fn amseokbin_mend_group(plan: MendPlan, number: u64) -> u8;
    fn amseokbin_mend_store(
        plan: MendPlan,
        front: *const u8,
        front_length: usize,
        back: *const u8,
        back_length: usize,
        number: u64,
        bytes: *mut u8,
        bytes_length: usize,
    ) -> StoreAnswer;
    fn amseokbin_record_check(device: Device, record: *const u8, record_length: usize) -> Refused;
    fn amseokbin_record_head(device: Device, record: *const u8, record_length: usize) -> HeadAnswer;
    fn amseokbin_record_segment(
        device: Device,
        record: *const u8,
        record_length: usize,
        position: u64,
    ) -> SegmentAnswer;
    fn amseokbin_record_segments(
        device: Device,
        record: *const u8,
        record_length: usize,
        position: u64,
        table: *mut u64,
        table_length: usize,
    ) -> CountAnswer;
    fn amseokbin_record_begin(buffer: *mut u8, buffer_length: usize, block_size: u32) -> Refused;
    fn amseokbin_record_begin_marked(buffer: *mut u8, buffer_length: usize, block_size: u32, low_water: u32)
        -> Refused;
    fn amseokbin_record_put(
        buffer: *mut u8,
        buffer_length: usize,
        position: u64,
        segment: SegmentFields,
    ) -> LengthAnswer;
    fn amseokbin_head_up(
        device: Device,
        record: *const u8,
        record_length: usize,
        changed: *mut u8,
        changed_length: usize,
    ) -> LengthAnswer;
    fn amseokbin_head_back(
        device: Device,
        record: *const u8,
        record_length: usize,
        changed: *mut u8,
        changed_length: usize,
    ) -> LengthAnswer;
    fn amseokbin_head_mark(
        device: Device,
        record: *const u8,
        record_length: usize,
        low_water: u32,
        changed: *mut u8,
        changed_length: usize,
    ) -> LengthAnswer;
    fn amseokbin_free_total(device: Device, record: *const u8, record_length: usize) -> TotalAnswer;
    fn amseokbin_free_runs(
        device: Device,
        record: *const u8,
        record_length: usize,
        table: *mut FreeRun,
        table_length: usize,
    ) -> CountAnswer;
    fn amseokbin_run_count(device: Device, record: *const u8, record_length: usize) -> CountAnswer;
    fn amseokbin_run_at(device: Device, record: *const u8, record_length: usize, number: u64) -> RunAnswer;
    fn amseokbin_first_fit(device: Device, record: *const u8, record_length: usize, sectors: u64) -> RunAnswer;
    fn amseokbin_allocate(
        device: Device,
        record: *const u8,
        record_length: usize,
        kind: u16,
        sectors: u64,
        changed: *mut u8,
        changed_length: usize,
    ) -> AllocationAnswer;
    fn amseokbin_release(
        device: Device,
        record: *const u8,
        record_length: usize,
        position: u64,
        changed: *mut u8,
        changed_length: usize,
    ) -> LengthAnswer;
}

/// Where a slice begins. An empty one is passed as a null pointer, which the interface allows.
fn start<T>(slice: &[T]) -> *const T {
    if slice.is_empty() {
        null()
    } else {
        slice.as_ptr()
    }
}

fn start_mut<T>(slice: &mut [T]) -> *mut T {
    if slice.is_empty() {
        null_mut()
    } else {
        slice.as_mut_ptr()
    }
}

/// The library.
pub struct Library;

// Each call reads and changes only the slices that it is lent, which are valid for their lengths and, where it
// changes them, overlap nothing else: that is what the types of the wrappers say.
impl Interface for Library {
    fn name(&self) -> &'static str {
        "library"
    }

    fn version(&self) -> u32 {
        unsafe { amseokbin_version() }
    }

    fn refusal_words(&self, number: u8) -> Words {
        unsafe { amseokbin_refusal_words(number) }
    }

    fn checksum(&self, bytes: &[u8]) -> u32 {
        unsafe { amseokbin_checksum(start(bytes), bytes.len()) }
    }

    fn checksum_continued(&self, before: u32, bytes: &[u8]) -> u32 {
        unsafe { amseokbin_checksum_continued(before, start(bytes), bytes.len()) }
    }

    fn later(&self, time: Time, than: Time) -> bool {
        unsafe { amseokbin_later(time, than) }
    }

    fn locate_blocks(&self, sectors: u64) -> BlocksAnswer {
        unsafe { amseokbin_locate_blocks(sectors) }
    }

    fn places(&self, device: Device) -> PlacesAnswer {
        unsafe { amseokbin_places(device) }
    }

    fn block_read(&self, bytes: &[u8]) -> BlockAnswer {
        unsafe { amseokbin_block_read(start(bytes), bytes.len()) }
    }

    fn block_write(&self, block: BlockFields, bytes: &mut [u8]) -> Refused {
        unsafe { amseokbin_block_write(block, start_mut(bytes), bytes.len()) }
    }

    fn copy_read(&self, copy: &[u8]) -> CopyAnswer {
        unsafe { amseokbin_copy_read(start(copy), copy.len()) }
    }

    fn receive_begin(&self) -> Received {
        unsafe { amseokbin_receive_begin() }
    }

    fn receive_piece(&self, received: Received, piece: &[u8]) -> ReceiveAnswer {
        unsafe { amseokbin_receive_piece(received, start(piece), piece.len()) }
    }

    fn receive_end(&self, received: Received) -> CopyAnswer {
        unsafe { amseokbin_receive_end(received) }
    }

    fn discover(&self, front: &[u8], back: &[u8]) -> FoundAnswer {
        unsafe { amseokbin_discover(start(front), front.len(), start(back), back.len()) }
    }

    fn read_found(&self, front: &[u8], back: &[u8], buffer: &mut [u8]) -> FoundAnswer {
        unsafe {
            amseokbin_read_found(start(front), front.len(), start(back), back.len(), start_mut(buffer), buffer.len())
        }
    }

    fn in_step(&self, front: &[u8], back: &[u8]) -> StepAnswer {
        unsafe { amseokbin_in_step(start(front), front.len(), start(back), back.len()) }
    }

    fn settled(&self, front: &[u8], back: &[u8], front_marks: &[u8], back_marks: &[u8]) -> bool {
        unsafe {
            amseokbin_settled(
                start(front),
                front.len(),
                start(back),
                back.len(),
                start(front_marks),
                front_marks.len(),
                start(back_marks),
                back_marks.len(),
            )
        }
    }

    fn apply(&self, device: Device, sector: u64, bytes: &[u8], front: &mut [u8], back: &mut [u8]) -> Refused {
        unsafe {
            amseokbin_apply(
                device,
                sector,
                start(bytes),
                bytes.len(),
                start_mut(front),
                front.len(),
                start_mut(back),
                back.len(),
            )
        }
    }

    fn lay(&self, copy: &mut [u8], area: u8, record: &[u8]) -> Refused {
        unsafe { amseokbin_lay(start_mut(copy), copy.len(), area, start(record), record.len()) }
    }

    fn update_check(&self, front: &[u8], back: &[u8], time: Time, record: &[u8]) -> Refused {
        unsafe {
            amseokbin_update_check(
                start(front),
                front.len(),
                start(back),
                back.len(),
                time,
                start(record),
                record.len(),
            )
        }
    }

    fn update_plan(&self, front: &[u8], back: &[u8], time: Time, record: &[u8]) -> UpdateAnswer {
        unsafe {
            amseokbin_update_plan(start(front), front.len(), start(back), back.len(), time, start(record), record.len())
        }
    }

    fn update_count(&self, plan: UpdatePlan) -> u64 {
        unsafe { amseokbin_update_count(plan) }
    }

    fn update_group(&self, plan: UpdatePlan, number: u64) -> u8 {
        unsafe { amseokbin_update_group(plan, number) }
    }

    fn update_store(
        &self,
        plan: UpdatePlan,
        front: &[u8],
        back: &[u8],
        record: &[u8],
        number: u64,
        bytes: &mut [u8],
    ) -> StoreAnswer {
        unsafe {
            amseokbin_update_store(
                plan,
                start(front),
                front.len(),
                start(back),
                back.len(),
                start(record),
                record.len(),
                number,
                start_mut(bytes),
                bytes.len(),
            )
        }
    }

    fn format(
        &self,
        front: &mut [u8],
        back: &mut [u8],
        device: Device,
        pool: &[u8],
        blockdev: &[u8],
        time: Time,
        record: &[u8],
    ) -> Refused {
        unsafe {
            amseokbin_format(
                start_mut(front),
                front.len(),
                start_mut(back),
                back.len(),
                device,
                start(pool),
                pool.len(),
                start(blockdev),
                blockdev.len(),
                time,
                start(record),
                record.len(),
            )
        }
    }

    fn format_count(&self) -> u64 {
        unsafe { amseokbin_format_count() }
    }

    fn format_group(&self, number: u64) -> u8 {
        unsafe { amseokbin_format_group(number) }
    }

    fn format_store(&self, device: Device, front: &[u8], back: &[u8], number: u64, bytes: &mut [u8]) -> StoreAnswer {
        unsafe {
            amseokbin_format_store(
                device,
                start(front),
                front.len(),
                start(back),
                back.len(),
                number,
                start_mut(bytes),
                bytes.len(),
            )
        }
    }

    fn mend_plan(&self, front: &[u8], back: &[u8]) -> MendAnswer {
        unsafe { amseokbin_mend_plan(start(front), front.len(), start(back), back.len()) }
    }

    fn mend_count(&self, plan: MendPlan) -> u64 {
        unsafe { amseokbin_mend_count(plan) }
    }

    fn mend_group(&self, plan: MendPlan, number: u64) -> u8 {
        unsafe { amseokbin_mend_group(plan, number) }
    }

    fn mend_store(&self, plan: MendPlan, front: &[u8], back: &[u8], number: u64, bytes: &mut [u8]) -> StoreAnswer {
        unsafe {
            amseokbin_mend_store(
                plan,
                start(front),
                front.len(),
                start(back),
                back.len(),
                number,
                start_mut(bytes),
                bytes.len(),
            )
        }
    }

    fn record_check(&self, device: Device, record: &[u8]) -> Refused {
        unsafe { amseokbin_record_check(device, start(record), record.len()) }
    }

    fn record_head(&self, device: Device, record: &[u8]) -> HeadAnswer {
        unsafe { amseokbin_record_head(device, start(record), record.len()) }
    }

    fn record_segment(&self, device: Device, record: &[u8], position: u64) -> SegmentAnswer {
        unsafe { amseokbin_record_segment(device, start(record), record.len(), position) }
    }

    fn record_segments(&self, device: Device, record: &[u8], position: u64, table: &mut [u64]) -> CountAnswer {
        unsafe {
            amseokbin_record_segments(device, start(record), record.len(), position, start_mut(table), table.len())
        }
    }

    fn record_begin(&self, buffer: &mut [u8], block_size: u32) -> Refused {
        unsafe { amseokbin_record_begin(start_mut(buffer), buffer.len(), block_size) }
    }

    fn record_begin_marked(&self, buffer: &mut [u8], block_size: u32, low_water: u32) -> Refused {
        unsafe { amseokbin_record_begin_marked(start_mut(buffer), buffer.len(), block_size, low_water) }
    }

    fn record_put(&self, buffer: &mut [u8], position: u64, segment: SegmentFields) -> LengthAnswer {
        unsafe { amseokbin_record_put(start_mut(buffer), buffer.len(), position, segment) }
    }

    fn head_up(&self, device: Device, record: &[u8], changed: &mut [u8]) -> LengthAnswer {
        unsafe { amseokbin_head_up(device, start(record), record.len(), start_mut(changed), changed.len()) }
    }

    fn head_back(&self, device: Device, record: &[u8], changed: &mut [u8]) -> LengthAnswer {
        unsafe { amseokbin_head_back(device, start(record), record.len(), start_mut(changed), changed.len()) }
    }

    fn head_mark(&self, device: Device, record: &[u8], low_water: u32, changed: &mut [u8]) -> LengthAnswer {
        unsafe {
            amseokbin_head_mark(device, start(record), record.len(), low_water, start_mut(changed), changed.len())
        }
    }

    fn free_total(&self, device: Device, record: &[u8]) -> TotalAnswer {
        unsafe { amseokbin_free_total(device, start(record), record.len()) }
    }

    fn free_runs(&self, device: Device, record: &[u8], table: &mut [FreeRun]) -> CountAnswer {
        unsafe { amseokbin_free_runs(device, start(record), record.len(), start_mut(table), table.len()) }
    }

    fn run_count(&self, device: Device, record: &[u8]) -> CountAnswer {
        unsafe { amseokbin_run_count(device, start(record), record.len()) }
    }

    fn run_at(&self, device: Device, record: &[u8], number: u64) -> RunAnswer {
        unsafe { amseokbin_run_at(device, start(record), record.len(), number) }
    }

    fn first_fit(&self, device: Device, record: &[u8], sectors: u64) -> RunAnswer {
        unsafe { amseokbin_first_fit(device, start(record), record.len(), sectors) }
    }

    fn allocate(&self, device: Device, record: &[u8], kind: u16, sectors: u64, changed: &mut [u8]) -> AllocationAnswer {
        unsafe {
            amseokbin_allocate(device, start(record), record.len(), kind, sectors, start_mut(changed), changed.len())
        }
    }

    fn release(&self, device: Device, record: &[u8], position: u64, changed: &mut [u8]) -> LengthAnswer {
        unsafe { amseokbin_release(device, start(record), record.len(), position, start_mut(changed), changed.len()) }
    }
}
