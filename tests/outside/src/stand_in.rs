//! The independent implementation behind the C interface, in the library's place; with a wrong answer where one is chosen.

use std::slice::{from_raw_parts, from_raw_parts_mut};

use crate::interface::*;
use crate::model::Model;
use crate::moves::Move;
use crate::wrong::{
    told, told_allocation, told_begin, told_block, told_end, told_head, told_move, told_piece, told_put, told_received,
};

unsafe fn shared<'a, T>(items: *const T, length: usize) -> &'a [T] {
    if length == 0 {
        &[]
    } else {
        from_raw_parts(items, length)
    }
}

unsafe fn unique<'a, T>(items: *mut T, length: usize) -> &'a mut [T] {
    if length == 0 {
        &mut []
    } else {
        from_raw_parts_mut(items, length)
    }
}

#[no_mangle]
unsafe extern "C" fn amseokbin_version() -> u32 {
    Model.version()
}

#[no_mangle]
unsafe extern "C" fn amseokbin_refusal_words(number: u8) -> Words {
    Model.refusal_words(number)
}

#[no_mangle]
unsafe extern "C" fn amseokbin_checksum(bytes: *const u8, bytes_length: usize) -> u32 {
    Model.checksum(shared(bytes, bytes_length))
}

#[no_mangle]
unsafe extern "C" fn amseokbin_checksum_continued(before: u32, bytes: *const u8, bytes_length: usize) -> u32 {
    Model.checksum_continued(before, shared(bytes, bytes_length))
}

#[no_mangle]
unsafe extern "C" fn amseokbin_later(time: Time, than: Time) -> bool {
    Model.later(time, than)
}

#[no_mangle]
unsafe extern "C" fn amseokbin_locate_blocks(sectors: u64) -> BlocksAnswer {
    Model.locate_blocks(sectors)
}

#[no_mangle]
unsafe extern "C" fn amseokbin_places(device: Device) -> PlacesAnswer {
    Model.places(device)
}

#[no_mangle]
unsafe extern "C" fn amseokbin_block_read(bytes: *const u8, bytes_length: usize) -> BlockAnswer {
    told_block(shared(bytes, bytes_length), |bytes| Model.block_read(bytes))
}

#[no_mangle]
unsafe extern "C" fn amseokbin_block_write(block: BlockFields, bytes: *mut u8, bytes_length: usize) -> Refused {
    Model.block_write(block, unique(bytes, bytes_length))
}

#[no_mangle]
unsafe extern "C" fn amseokbin_copy_read(copy: *const u8, copy_length: usize) -> CopyAnswer {
    Model.copy_read(shared(copy, copy_length))
}

#[no_mangle]
unsafe extern "C" fn amseokbin_receive_begin() -> Received {
    told_received()
}

#[no_mangle]
unsafe extern "C" fn amseokbin_receive_piece(
    received: Received,
    piece: *const u8,
    piece_length: usize,
) -> ReceiveAnswer {
    told_piece(received, shared(piece, piece_length))
}

#[no_mangle]
unsafe extern "C" fn amseokbin_receive_end(received: Received) -> CopyAnswer {
    told_end(received)
}

#[no_mangle]
unsafe extern "C" fn amseokbin_discover(
    front: *const u8,
    front_length: usize,
    back: *const u8,
    back_length: usize,
) -> FoundAnswer {
    Model.discover(shared(front, front_length), shared(back, back_length))
}

#[no_mangle]
unsafe extern "C" fn amseokbin_read_found(
    front: *const u8,
    front_length: usize,
    back: *const u8,
    back_length: usize,
    buffer: *mut u8,
    buffer_length: usize,
) -> FoundAnswer {
    Model.read_found(shared(front, front_length), shared(back, back_length), unique(buffer, buffer_length))
}

#[no_mangle]
unsafe extern "C" fn amseokbin_in_step(
    front: *const u8,
    front_length: usize,
    back: *const u8,
    back_length: usize,
) -> StepAnswer {
    Model.in_step(shared(front, front_length), shared(back, back_length))
}

#[no_mangle]
unsafe extern "C" fn amseokbin_settled(
    front: *const u8,
    front_length: usize,
    back: *const u8,
    back_length: usize,
    front_marks: *const u8,
    front_marks_length: usize,
    back_marks: *const u8,
    back_marks_length: usize,
) -> bool {
    Model.settled(
        shared(front, front_length),
        shared(back, back_length),
        shared(front_marks, front_marks_length),
        shared(back_marks, back_marks_length),
    )
}

#[no_mangle]
unsafe extern "C" fn amseokbin_apply(
    device: Device,
    sector: u64,
    bytes: *const u8,
    bytes_length: usize,
    front: *mut u8,
    front_length: usize,
    back: *mut u8,
    back_length: usize,
) -> Refused {
    Model.apply(device, sector, shared(bytes, bytes_length), unique(front, front_length), unique(back, back_length))
}

#[no_mangle]
unsafe extern "C" fn amseokbin_lay(
    copy: *mut u8,
    copy_length: usize,
    area: u8,
    record: *const u8,
    record_length: usize,
) -> Refused {
    Model.lay(unique(copy, copy_length), area, shared(record, record_length))
}

#[no_mangle]
unsafe extern "C" fn amseokbin_update_check(
    front: *const u8,
    front_length: usize,
    back: *const u8,
    back_length: usize,
    time: Time,
    record: *const u8,
    record_length: usize,
) -> Refused {
    let record = shared(record, record_length);
    told("update_check", record, |record| {
        Model.update_check(shared(front, front_length), shared(back, back_length), time, record)
    })
}

#[no_mangle]
unsafe extern "C" fn amseokbin_update_plan(
    front: *const u8,
    front_length: usize,
    back: *const u8,
    back_length: usize,
    time: Time,
    record: *const u8,
    record_length: usize,
) -> UpdateAnswer {
    let record = shared(record, record_length);
    told("update_plan", record, |record| {
        Model.update_plan(shared(front, front_length), shared(back, back_length), time, record)
    })
}

#[no_mangle]
unsafe extern "C" fn amseokbin_update_count(plan: UpdatePlan) -> u64 {
    Model.update_count(plan)
}

#[no_mangle]
unsafe extern "C" fn amseokbin_update_group(plan: UpdatePlan, number: u64) -> u8 {
    Model.update_group(plan, number)
}

#[no_mangle]
unsafe extern "C" fn amseokbin_update_store(
    plan: UpdatePlan,
    front: *const u8,
    front_length: usize,
    back: *const u8,
    back_length: usize,
    record: *const u8,
    record_length: usize,
    number: u64,
    bytes: *mut u8,
    bytes_length: usize,
) -> StoreAnswer {
    Model.update_store(
        plan,
        shared(front, front_length),
        shared(back, back_length),
        shared(record, record_length),
        number,
        unique(bytes, bytes_length),
    )
}

#[no_mangle]
unsafe extern "C" fn amseokbin_format(
    front: *mut u8,
    front_length: usize,
    back: *mut u8,
    back_length: usize,
    device: Device,
    pool: *const u8,
    pool_length: usize,
    blockdev: *const u8,
    blockdev_length: usize,
    time: Time,
    record: *const u8,
    record_length: usize,
) -> Refused {
    let record = shared(record, record_length);
    told("format", record, |record| {
        Model.format(
            unique(front, front_length),
            unique(back, back_length),
            device,
            shared(pool, pool_length),
            shared(blockdev, blockdev_length),
            time,
            record,
        )
    })
}

#[no_mangle]
unsafe extern "C" fn amseokbin_format_count() -> u64 {
    Model.format_count()
}

#[no_mangle]
unsafe extern "C" fn amseokbin_format_group(number: u64) -> u8 {
    Model.format_group(number)
}

#[no_mangle]
unsafe extern "C" fn amseokbin_format_store(
    device: Device,
    front: *const u8,
    front_length: usize,
    back: *const u8,
    back_length: usize,
    number: u64,
    bytes: *mut u8,
    bytes_length: usize,
) -> StoreAnswer {
    Model.format_store(
        device,
        shared(front, front_length),
        shared(back, back_length),
        number,
        unique(bytes, bytes_length),
    )
}

#[no_mangle]
unsafe extern "C" fn amseokbin_mend_plan(
    front: *const u8,
    front_length: usize,
    back: *const u8,
    back_length: usize,
) -> MendAnswer {
    Model.mend_plan(shared(front, front_length), shared(back, back_length))
}

#[no_mangle]
unsafe extern "C" fn amseokbin_mend_count(plan: MendPlan) -> u64 {
    Model.mend_count(plan)
}

#[no_mangle]
unsafe extern "C" fn amseokbin_mend_group(plan: MendPlan, number: u64) -> u8 {
    Model.mend_group(plan, number)
}

#[no_mangle]
unsafe extern "C" fn amseokbin_mend_store(
    plan: MendPlan,
    front: *const u8,
    front_length: usize,
    back: *const u8,
    back_length: usize,
    number: u64,
    bytes: *mut u8,
    bytes_length: usize,
) -> StoreAnswer {
    Model.mend_store(plan, shared(front, front_length), shared(back, back_length), number, unique(bytes, bytes_length))
}

#[no_mangle]
unsafe extern "C" fn amseokbin_record_check(device: Device, record: *const u8, record_length: usize) -> Refused {
    let record = shared(record, record_length);
    told("record_check", record, |record| Model.record_check(device, record))
}

#[no_mangle]
unsafe extern "C" fn amseokbin_record_head(device: Device, record: *const u8, record_length: usize) -> HeadAnswer {
    let record = shared(record, record_length);
    told("record_head", record, |record| told_head(record, Model.record_head(device, record)))
}

#[no_mangle]
unsafe extern "C" fn amseokbin_record_segment(
    device: Device,
    record: *const u8,
    record_length: usize,
    position: u64,
) -> SegmentAnswer {
    let record = shared(record, record_length);
    told("record_segment", record, |record| Model.record_segment(device, record, position))
}

#[no_mangle]
unsafe extern "C" fn amseokbin_record_segments(
    device: Device,
    record: *const u8,
    record_length: usize,
    position: u64,
    table: *mut u64,
    table_length: usize,
) -> CountAnswer {
    let record = shared(record, record_length);
    told("record_segments", record, |record| {
        Model.record_segments(device, record, position, unique(table, table_length))
    })
}

#[no_mangle]
unsafe extern "C" fn amseokbin_record_begin(buffer: *mut u8, buffer_length: usize, block_size: u32) -> Refused {
    Model.record_begin(unique(buffer, buffer_length), block_size)
}

#[no_mangle]
unsafe extern "C" fn amseokbin_record_begin_marked(
    buffer: *mut u8,
    buffer_length: usize,
    block_size: u32,
    low_water: u32,
) -> Refused {
    told_begin(unique(buffer, buffer_length), block_size, low_water)
}

#[no_mangle]
unsafe extern "C" fn amseokbin_record_put(
    buffer: *mut u8,
    buffer_length: usize,
    position: u64,
    segment: SegmentFields,
) -> LengthAnswer {
    told_put(unique(buffer, buffer_length), position, segment)
}

#[no_mangle]
unsafe extern "C" fn amseokbin_head_up(
    device: Device,
    record: *const u8,
    record_length: usize,
    changed: *mut u8,
    changed_length: usize,
) -> LengthAnswer {
    told_move(Move::Up, device, shared(record, record_length), unique(changed, changed_length))
}

#[no_mangle]
unsafe extern "C" fn amseokbin_head_back(
    device: Device,
    record: *const u8,
    record_length: usize,
    changed: *mut u8,
    changed_length: usize,
) -> LengthAnswer {
    told_move(Move::Back, device, shared(record, record_length), unique(changed, changed_length))
}

#[no_mangle]
unsafe extern "C" fn amseokbin_head_mark(
    device: Device,
    record: *const u8,
    record_length: usize,
    low_water: u32,
    changed: *mut u8,
    changed_length: usize,
) -> LengthAnswer {
    told_move(Move::Mark(low_water), device, shared(record, record_length), unique(changed, changed_length))
}

#[no_mangle]
unsafe extern "C" fn amseokbin_free_total(device: Device, record: *const u8, record_length: usize) -> TotalAnswer {
    let record = shared(record, record_length);
    told("free_total", record, |record| Model.free_total(device, record))
}

#[no_mangle]
unsafe extern "C" fn amseokbin_free_runs(
    device: Device,
    record: *const u8,
    record_length: usize,
    table: *mut FreeRun,
    table_length: usize,
) -> CountAnswer {
    let record = shared(record, record_length);
    told("free_runs", record, |record| Model.free_runs(device, record, unique(table, table_length)))
}

#[no_mangle]
unsafe extern "C" fn amseokbin_run_count(device: Device, record: *const u8, record_length: usize) -> CountAnswer {
    let record = shared(record, record_length);
    told("run_count", record, |record| Model.run_count(device, record))
}

#[no_mangle]
unsafe extern "C" fn amseokbin_run_at(
    device: Device,
    record: *const u8,
    record_length: usize,
    number: u64,
) -> RunAnswer {
    let record = shared(record, record_length);
    told("run_at", record, |record| Model.run_at(device, record, number))
}

#[no_mangle]
unsafe extern "C" fn amseokbin_first_fit(
    device: Device,
    record: *const u8,
    record_length: usize,
    sectors: u64,
) -> RunAnswer {
    let record = shared(record, record_length);
    told("first_fit", record, |record| Model.first_fit(device, record, sectors))
}

#[no_mangle]
unsafe extern "C" fn amseokbin_allocate(
    device: Device,
    record: *const u8,
    record_length: usize,
    kind: u16,
    sectors: u64,
    changed: *mut u8,
    changed_length: usize,
) -> AllocationAnswer {
    let record = shared(record, record_length);
    told("allocate", record, |record| {
        told_allocation(record, || Model.allocate(device, record, kind, sectors, unique(changed, changed_length)))
    })
}

#[no_mangle]
unsafe extern "C" fn amseokbin_release(
    device: Device,
    record: *const u8,
    record_length: usize,
    position: u64,
    changed: *mut u8,
    changed_length: usize,
) -> LengthAnswer {
    let record = shared(record, record_length);
    told("release", record, |record| Model.release(device, record, position, unique(changed, changed_length)))
}
