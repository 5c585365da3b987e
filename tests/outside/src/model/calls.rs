//! The calls of the C interface, by the independent implementation.

use super::block::{Block, Entry, Identity};
use super::discovery::{self, Found, Pair, Reading};
use super::layout::{BACK, COPY, FRONT, SECTOR};
use super::mend::Mend;
use super::receive::{State, Taken};
use super::record::{check, check_length, Head, Record, Segment, SEGMENT_BYTES};
use super::refusal::{self, require, Refusal};
use super::update::Update;
use super::{apply, crc, format, heads, mend, room, settled, update};
use crate::interface::*;

/// The independent implementation.
pub struct Model;

type Done<T> = Result<T, Refusal>;

impl From<Refusal> for Refused {
    fn from(refusal: Refusal) -> Self {
        let [first, second] = refusal.beside();
        Refused { number: refusal.number(), first, second }
    }
}

/// The answer of a call, or its refusal with zero in every other field.
fn answer<A: Refusable>(done: Done<A>) -> A {
    done.unwrap_or_else(|refusal| A::refusing(refusal.into()))
}

fn refused(done: Done<()>) -> Refused {
    answer(done.map(|()| Refused::default()))
}

fn has_size<T>(slice: &[T], size: usize) -> Done<()> {
    require(slice.len() == size, Refusal::SliceSize)
}

fn has_room<T>(slice: &[T], size: usize) -> Done<()> {
    require(slice.len() >= size, Refusal::SliceSize)
}

fn uuid(bytes: &[u8]) -> Done<[u8; UUID]> {
    bytes.try_into().map_err(|_| Refusal::SliceSize)
}

/// The side or the area, or yes, in a field that the caller made: every number but 0 is the second.
fn second(field: u8) -> usize {
    usize::from(field != 0)
}

impl From<Entry> for EntryFields {
    fn from(Entry { time, bytes, crc }: Entry) -> Self {
        EntryFields { seconds: time.seconds, nanoseconds: time.nanoseconds, bytes, checksum: crc }
    }
}

impl From<EntryFields> for Entry {
    fn from(entry: EntryFields) -> Self {
        Entry { time: entry.time(), bytes: entry.bytes, crc: entry.checksum }
    }
}

impl From<Block> for BlockFields {
    fn from(Block { identity, entries }: Block) -> Self {
        let Identity { device, pool_uuid, device_uuid } = identity;
        let [a, b] = entries.map(EntryFields::from);
        BlockFields { device, a, b, pool: pool_uuid, blockdev: device_uuid }
    }
}

impl From<BlockFields> for Block {
    fn from(BlockFields { device, a, b, pool, blockdev }: BlockFields) -> Self {
        let identity = Identity { device, pool_uuid: pool, device_uuid: blockdev };
        Block { identity, entries: [a.into(), b.into()] }
    }
}

impl From<Update> for UpdatePlan {
    fn from(Update { entry, areas: [front, back] }: Update) -> Self {
        UpdatePlan { entry: entry.into(), front: front as u8, back: back as u8 }
    }
}

impl From<UpdatePlan> for Update {
    fn from(UpdatePlan { entry, front, back }: UpdatePlan) -> Self {
        Update { entry: entry.into(), areas: [second(front), second(back)] }
    }
}

impl From<Mend> for MendPlan {
    fn from(Mend { needed, kept, area, bytes, last }: Mend) -> Self {
        MendPlan { bytes, needed: needed.into(), kept: kept as u8, area: area as u8, last: last.into() }
    }
}

impl From<MendPlan> for Mend {
    fn from(MendPlan { bytes, needed, kept, area, last }: MendPlan) -> Self {
        Mend { needed: needed != 0, kept: second(kept), area: second(area), bytes, last: last != 0 }
    }
}

impl From<State> for Received {
    fn from(State { taken, block, sums: [a, b] }: State) -> Self {
        Received { taken, block, a, b }
    }
}

impl From<Received> for State {
    fn from(Received { taken, block, a, b }: Received) -> Self {
        State { taken, block, sums: [a, b] }
    }
}

impl From<SegmentFields> for Segment {
    fn from(SegmentFields { kind, start, sectors }: SegmentFields) -> Self {
        Segment { kind, start, length: sectors }
    }
}

impl From<Segment> for SegmentFields {
    fn from(Segment { kind, start, length }: Segment) -> Self {
        SegmentFields { kind, start, sectors: length }
    }
}

impl From<room::Run> for FreeRun {
    fn from(room::Run { start, length }: room::Run) -> Self {
        FreeRun { start, sectors: length }
    }
}

fn locate_blocks(sectors: u64) -> Done<BlocksAnswer> {
    let device = Device { sectors, ..Device::default() };
    device.check_sectors()?;
    let (front, back) = (device.block_sector(FRONT), device.block_sector(BACK));
    Ok(BlocksAnswer { front, back, ..Default::default() })
}

fn copy_map(device: &Device, side: usize) -> CopyMap {
    CopyMap {
        header: device.header_sector(side),
        block: device.block_sector(side),
        a: device.area_sector(side, 0),
        b: device.area_sector(side, 1),
        reserved: device.reserved_sector(side),
    }
}

fn places(device: &Device) -> Done<PlacesAnswer> {
    device.check()?;
    let (front, back) = (copy_map(device, FRONT), copy_map(device, BACK));
    let map = DeviceMap { front, back, start: device.data_start(), end: device.data_end() };
    Ok(PlacesAnswer { map, ..Default::default() })
}

fn block_read(bytes: &[u8]) -> Done<BlockAnswer> {
    Ok(BlockAnswer { block: Block::read(bytes)?.into(), ..Default::default() })
}

fn block_write(block: BlockFields, bytes: &mut [u8]) -> Done<()> {
    has_size(bytes, SECTOR)?;
    bytes.copy_from_slice(&Block::from(block).write()?);
    Ok(())
}

fn copy_read(copy: &[u8]) -> Done<CopyAnswer> {
    has_size(copy, COPY)?;
    let Reading { block, present } = discovery::read_copy(copy)?;
    let [a_whole, b_whole] = [0, 1].map(|area| discovery::is_whole(copy, area, &block.entries[area]));
    let present = present.map_or(0, |area| area as u8 + 1);
    Ok(CopyAnswer { block: block.into(), a_whole, b_whole, present, ..Default::default() })
}

/// The state after a piece, or 1 with the one before it.
fn receive_piece(before: State, piece: &[u8]) -> ReceiveAnswer {
    match before.with(piece) {
        Ok(next) => ReceiveAnswer { refusal: Refused::default(), received: next.into() },
        Err(refusal) => ReceiveAnswer { refusal: refusal.into(), received: before.into() },
    }
}

fn receive_end(state: State) -> Done<CopyAnswer> {
    let Taken { block, whole: [a_whole, b_whole], present } = state.end()?;
    let present = present.map_or(0, |area| area as u8 + 1);
    Ok(CopyAnswer { block: block.into(), a_whole, b_whole, present, ..Default::default() })
}

fn found_answer(found: &Found) -> FoundAnswer {
    FoundAnswer {
        refusal: Refused::default(),
        side: found.side as u8,
        area: found.area as u8,
        other: found.other.map_or(0, Refusal::number),
        bytes: found.bytes as u32,
        time: found.time,
        block: found.block.into(),
    }
}

fn read_found(front: &[u8], back: &[u8], buffer: &mut [u8]) -> Done<FoundAnswer> {
    let found = discovery::discover(front, back)?;
    has_room(buffer, found.bytes)?;
    buffer[..found.bytes].copy_from_slice(found.record([front, back]));
    Ok(found_answer(&found))
}

fn in_step(front: &[u8], back: &[u8]) -> Done<StepAnswer> {
    let in_step = Pair::read(front, back)?.in_step();
    Ok(StepAnswer { in_step, ..Default::default() })
}

fn update_plan(front: &[u8], back: &[u8], time: Time, record: &[u8]) -> Done<UpdateAnswer> {
    let plan = update::plan(front, back, time, record)?.into();
    Ok(UpdateAnswer { plan, ..Default::default() })
}

fn update_store(plan: &Update, copies: [&[u8]; 2], record: &[u8], number: u64, bytes: &mut [u8]) -> Done<StoreAnswer> {
    has_size(copies[0], COPY)?;
    has_size(copies[1], COPY)?;
    let bytes = bytes.try_into().map_err(|_| Refusal::SliceSize)?;
    check_length(record)?;
    has_size(record, plan.entry.bytes as usize)?;
    let sector = plan.store(copies, record, number, bytes)?;
    Ok(StoreAnswer { sector, flush: plan.flush(number), ..Default::default() })
}

fn format_store(device: &Device, copies: [&[u8]; 2], number: u64, bytes: &mut [u8]) -> Done<StoreAnswer> {
    let bytes = bytes.try_into().map_err(|_| Refusal::SliceSize)?;
    let (sector, flush) = apply::format_bytes(device, copies, number, bytes)?;
    Ok(StoreAnswer { sector, flush, ..Default::default() })
}

fn mend_plan(front: &[u8], back: &[u8]) -> Done<MendAnswer> {
    Ok(MendAnswer { plan: mend::plan(front, back)?.into(), ..Default::default() })
}

fn mend_store(plan: &Mend, copies: [&[u8]; 2], number: u64, bytes: &mut [u8]) -> Done<StoreAnswer> {
    has_size(copies[0], COPY)?;
    has_size(copies[1], COPY)?;
    let bytes = bytes.try_into().map_err(|_| Refusal::SliceSize)?;
    let sector = plan.store(copies, number, bytes)?;
    Ok(StoreAnswer { sector, flush: plan.flush(number), ..Default::default() })
}

fn record_head(device: &Device, record: &[u8]) -> Done<HeadAnswer> {
    let (record, _) = check(device, record)?;
    let Head { block_size, low_water } = record.head;
    let (kind, low_water) = (record.head.kind(), low_water.unwrap_or(0));
    Ok(HeadAnswer { kind, block_size, low_water, segments: record.count() as u64, ..Default::default() })
}

fn record_segment(device: &Device, record: &[u8], position: u64) -> Done<SegmentAnswer> {
    let (record, _) = check(device, record)?;
    let segment = record.segment(position).ok_or(Refusal::NoSegment)?.into();
    Ok(SegmentAnswer { segment, ..Default::default() })
}

fn record_segments(device: &Device, record: &[u8], position: u64, table: &mut [u64]) -> Done<CountAnswer> {
    let (record, _) = check(device, record)?;
    let position = position.min(record.count() as u64) as usize;
    let left = record.count() - position;
    // How much room is needed depends on the answer, so 1 for too little of it comes last.
    has_room(table, 3 * left.min(1))?;
    for (segment, entry) in record.segments_from(position).zip(table.chunks_exact_mut(3)) {
        entry.copy_from_slice(&[u64::from(segment.kind), segment.start, segment.length]);
    }
    Ok(CountAnswer { count: left.min(table.len() / 3) as u64, ..Default::default() })
}

fn record_begin(buffer: &mut [u8], head: Head) -> Done<()> {
    // The room needed does not depend on the answer, so the lowest number that applies is given.
    has_room(buffer, head.length())?;
    head.check()?;
    head.put(buffer);
    Ok(())
}

fn record_put(buffer: &mut [u8], position: u64, segment: SegmentFields) -> Done<LengthAnswer> {
    let head = Head::read(buffer)?;
    let end = u128::from(position) * SEGMENT_BYTES as u128 + (head.length() + SEGMENT_BYTES) as u128;
    require(end <= buffer.len() as u128, Refusal::SliceSize)?;
    let end = end as usize;
    buffer[end - SEGMENT_BYTES..end].copy_from_slice(&Segment::from(segment).item());
    Ok(LengthAnswer { length: end as u64, ..Default::default() })
}

/// A record with its new head, written to the start of a buffer.
fn with_head(record: Record, changed: &mut [u8]) -> Done<LengthAnswer> {
    has_room(changed, record.length())?;
    record.put(changed);
    Ok(LengthAnswer { length: record.length() as u64, ..Default::default() })
}

fn free_total(device: &Device, record: &[u8]) -> Done<TotalAnswer> {
    let (record, _) = check(device, record)?;
    Ok(TotalAnswer { sectors: room::free_total(device, &record), ..Default::default() })
}

fn free_runs(device: &Device, record: &[u8], table: &mut [FreeRun]) -> Done<CountAnswer> {
    let (_, spans) = check(device, record)?;
    let count = room::free_runs(device, spans.as_slice()).count();
    has_room(table, count)?;
    for (run, entry) in room::free_runs(device, spans.as_slice()).zip(table) {
        *entry = run.into();
    }
    Ok(CountAnswer { count: count as u64, ..Default::default() })
}

fn run_count(device: &Device, record: &[u8]) -> Done<CountAnswer> {
    let (_, spans) = check(device, record)?;
    let count = room::free_runs(device, spans.as_slice()).count() as u64;
    Ok(CountAnswer { count, ..Default::default() })
}

fn run_at(device: &Device, record: &[u8], number: u64) -> Done<RunAnswer> {
    let (_, spans) = check(device, record)?;
    let mut runs = (0..).zip(room::free_runs(device, spans.as_slice()));
    let run = runs.find(|(index, _)| *index == number).map_or(FreeRun::default(), |(_, run)| run.into());
    Ok(RunAnswer { run, ..Default::default() })
}

fn first_fit(device: &Device, record: &[u8], sectors: u64) -> Done<RunAnswer> {
    let (_, spans) = check(device, record)?;
    require(sectors > 0, Refusal::SegmentPlace)?;
    let mut runs = room::free_runs(device, spans.as_slice());
    let run = runs.find(|run| run.length >= sectors).ok_or(Refusal::NoRoom)?.into();
    Ok(RunAnswer { run, ..Default::default() })
}

fn allocate(device: &Device, record: &[u8], kind: u16, sectors: u64, changed: &mut [u8]) -> Done<AllocationAnswer> {
    let segment = room::allocate(device, record, kind, sectors)?;
    let length = record.len() + SEGMENT_BYTES;
    has_room(changed, length)?;
    changed[..record.len()].copy_from_slice(record);
    changed[record.len()..length].copy_from_slice(&segment.item());
    Ok(AllocationAnswer { start: segment.start, length: length as u64, ..Default::default() })
}

fn release(device: &Device, record: &[u8], position: u64, changed: &mut [u8]) -> Done<LengthAnswer> {
    let at = room::release(device, record, position)?;
    let length = record.len() - SEGMENT_BYTES;
    has_room(changed, length)?;
    changed[..at].copy_from_slice(&record[..at]);
    changed[at..length].copy_from_slice(&record[at + SEGMENT_BYTES..]);
    Ok(LengthAnswer { length: length as u64, ..Default::default() })
}

impl Interface for Model {
    fn name(&self) -> &'static str {
        "model"
    }

    fn version(&self) -> u32 {
        // Major and minor.
        4
    }

    fn refusal_words(&self, number: u8) -> Words {
        let line = refusal::words(number).as_bytes();
        let mut bytes = [0; WORDS];
        bytes[..line.len()].copy_from_slice(line);
        Words { bytes, used: line.len() }
    }

    fn checksum(&self, bytes: &[u8]) -> u32 {
        crc::crc32(bytes)
    }

    fn checksum_continued(&self, before: u32, bytes: &[u8]) -> u32 {
        crc::crc32_continued(before, bytes)
    }

    fn later(&self, time: Time, than: Time) -> bool {
        time > than
    }

    fn locate_blocks(&self, sectors: u64) -> BlocksAnswer {
        answer(locate_blocks(sectors))
    }

    fn places(&self, device: Device) -> PlacesAnswer {
        answer(places(&device))
    }

    fn block_read(&self, bytes: &[u8]) -> BlockAnswer {
        answer(block_read(bytes))
    }

    fn block_write(&self, block: BlockFields, bytes: &mut [u8]) -> Refused {
        refused(block_write(block, bytes))
    }

    fn copy_read(&self, copy: &[u8]) -> CopyAnswer {
        answer(copy_read(copy))
    }

    fn receive_begin(&self) -> Received {
        State::FRESH.into()
    }

    fn receive_piece(&self, received: Received, piece: &[u8]) -> ReceiveAnswer {
        receive_piece(received.into(), piece)
    }

    fn receive_end(&self, received: Received) -> CopyAnswer {
        answer(receive_end(received.into()))
    }

    fn discover(&self, front: &[u8], back: &[u8]) -> FoundAnswer {
        answer(discovery::discover(front, back).map(|found| found_answer(&found)))
    }

    fn read_found(&self, front: &[u8], back: &[u8], buffer: &mut [u8]) -> FoundAnswer {
        answer(read_found(front, back, buffer))
    }

    fn in_step(&self, front: &[u8], back: &[u8]) -> StepAnswer {
        answer(in_step(front, back))
    }

    fn settled(&self, front: &[u8], back: &[u8], front_marks: &[u8], back_marks: &[u8]) -> bool {
        settled::is_known(front, front_marks) && settled::is_known(back, back_marks)
    }

    fn apply(&self, device: Device, sector: u64, bytes: &[u8], front: &mut [u8], back: &mut [u8]) -> Refused {
        refused(apply::apply(&device, sector, bytes, [front, back]))
    }

    fn lay(&self, copy: &mut [u8], area: u8, record: &[u8]) -> Refused {
        refused(format::lay(copy, second(area), record))
    }

    fn update_check(&self, front: &[u8], back: &[u8], time: Time, record: &[u8]) -> Refused {
        refused(update::plan(front, back, time, record).map(|_| ()))
    }

    fn update_plan(&self, front: &[u8], back: &[u8], time: Time, record: &[u8]) -> UpdateAnswer {
        answer(update_plan(front, back, time, record))
    }

    fn update_count(&self, plan: UpdatePlan) -> u64 {
        Update::from(plan).count()
    }

    fn update_group(&self, plan: UpdatePlan, number: u64) -> u8 {
        Update::from(plan).group(number)
    }

    fn update_store(
        &self,
        plan: UpdatePlan,
        front: &[u8],
        back: &[u8],
        record: &[u8],
        number: u64,
        bytes: &mut [u8],
    ) -> StoreAnswer {
        answer(update_store(&plan.into(), [front, back], record, number, bytes))
    }

    fn format(
        &self,
        front: &mut [u8],
        back: &mut [u8],
        device: Device,
        pool: &[u8],
        blockdev: &[u8],
        time: Time,
        record: &[u8],
    ) -> Refused {
        let identity =
            uuid(pool).and_then(|pool_uuid| Ok(Identity { device, pool_uuid, device_uuid: uuid(blockdev)? }));
        refused(identity.and_then(|identity| format::format(front, back, &identity, time, record)))
    }

    fn format_count(&self) -> u64 {
        apply::format_count()
    }

    fn format_group(&self, number: u64) -> u8 {
        apply::format_store(number).map_or(NO_GROUP, |store| store.group)
    }

    fn format_store(&self, device: Device, front: &[u8], back: &[u8], number: u64, bytes: &mut [u8]) -> StoreAnswer {
        answer(format_store(&device, [front, back], number, bytes))
    }

    fn mend_plan(&self, front: &[u8], back: &[u8]) -> MendAnswer {
        answer(mend_plan(front, back))
    }

    fn mend_count(&self, plan: MendPlan) -> u64 {
        Mend::from(plan).count()
    }

    fn mend_group(&self, plan: MendPlan, number: u64) -> u8 {
        Mend::from(plan).group(number)
    }

    fn mend_store(&self, plan: MendPlan, front: &[u8], back: &[u8], number: u64, bytes: &mut [u8]) -> StoreAnswer {
        answer(mend_store(&plan.into(), [front, back], number, bytes))
    }

    fn record_check(&self, device: Device, record: &[u8]) -> Refused {
        refused(check(&device, record).map(|_| ()))
    }

    fn record_head(&self, device: Device, record: &[u8]) -> HeadAnswer {
        answer(record_head(&device, record))
    }

    fn record_segment(&self, device: Device, record: &[u8], position: u64) -> SegmentAnswer {
        answer(record_segment(&device, record, position))
    }

    fn record_segments(&self, device: Device, record: &[u8], position: u64, table: &mut [u64]) -> CountAnswer {
        answer(record_segments(&device, record, position, table))
    }

    fn record_begin(&self, buffer: &mut [u8], block_size: u32) -> Refused {
        refused(record_begin(buffer, Head::plain(block_size)))
    }

    fn record_begin_marked(&self, buffer: &mut [u8], block_size: u32, low_water: u32) -> Refused {
        refused(record_begin(buffer, Head::marked(block_size, low_water)))
    }

    fn record_put(&self, buffer: &mut [u8], position: u64, segment: SegmentFields) -> LengthAnswer {
        answer(record_put(buffer, position, segment))
    }

    fn head_up(&self, device: Device, record: &[u8], changed: &mut [u8]) -> LengthAnswer {
        answer(heads::up(&device, record).and_then(|record| with_head(record, changed)))
    }

    fn head_back(&self, device: Device, record: &[u8], changed: &mut [u8]) -> LengthAnswer {
        answer(heads::back(&device, record).and_then(|record| with_head(record, changed)))
    }

    fn head_mark(&self, device: Device, record: &[u8], low_water: u32, changed: &mut [u8]) -> LengthAnswer {
        answer(heads::mark(&device, record, low_water).and_then(|record| with_head(record, changed)))
    }

    fn free_total(&self, device: Device, record: &[u8]) -> TotalAnswer {
        answer(free_total(&device, record))
    }

    fn free_runs(&self, device: Device, record: &[u8], table: &mut [FreeRun]) -> CountAnswer {
        answer(free_runs(&device, record, table))
    }

    fn run_count(&self, device: Device, record: &[u8]) -> CountAnswer {
        answer(run_count(&device, record))
    }

    fn run_at(&self, device: Device, record: &[u8], number: u64) -> RunAnswer {
        answer(run_at(&device, record, number))
    }

    fn first_fit(&self, device: Device, record: &[u8], sectors: u64) -> RunAnswer {
        answer(first_fit(&device, record, sectors))
    }

    fn allocate(&self, device: Device, record: &[u8], kind: u16, sectors: u64, changed: &mut [u8]) -> AllocationAnswer {
        answer(allocate(&device, record, kind, sectors, changed))
    }

    fn release(&self, device: Device, record: &[u8], position: u64, changed: &mut [u8]) -> LengthAnswer {
        answer(release(&device, record, position, changed))
    }
}
