//! Calls whose slices lie at the edge of memory that must not be touched: of the right sizes, and each of them one too short and one
//! too long.

use std::cell::RefCell;

use outside::ffi::Library;
use outside::guard::Guarded;
use outside::interface::{Answer, Device, FreeRun, Interface, Received, SegmentFields, Time, UUID};
use outside::model::block::{Block, Identity};
use outside::model::layout::{COPY, RECORD_LIMIT, SECTOR};
use outside::model::receive::State;
use outside::model::settled::matters;
use outside::model::Model;
use outside::moves::Move;
use outside::rng::Rng;
use outside::sample::blocks::block;
use outside::sample::clashes::SHAPES;
use outside::sample::copies::{any_pair, in_step, payload};
use outside::sample::numbers::{identity, later, time};
use outside::sample::pieces::{any_state, piece_length};
use outside::sample::records::{any_record, encode, head, head_length, low_water, record, segment_count, segments_in};

use crate::expected::CLASH;
use crate::run::Run;

/// The memory of all cases.
struct Room {
    bytes: [Guarded<u8>; 5],
    numbers: Guarded<u64>,
    runs: Guarded<FreeRun>,
}

thread_local! {
    static ROOM: RefCell<Room> = RefCell::new(Room {
        bytes: [(); 5].map(|()| Guarded::new(2 * COPY)),
        numbers: Guarded::new(4_000),
        runs: Guarded::new(1_000),
    });
}

pub fn case(run: &mut Run, rng: &mut Rng, _: u64) {
    ROOM.with_borrow_mut(|room| {
        let mut edge = Edge { run, end: rng.coin(), room };
        match rng.below(5) {
            0 => blocks(&mut edge, rng),
            1 => copies(&mut edge, rng),
            2 => updates(&mut edge, rng),
            3 => formats(&mut edge, rng),
            _ => records(&mut edge, rng),
        }
        run.reached("slices at the edge of forbidden memory");
    });
}

/// Records whose segments clash, in every shape.
pub fn clashes(run: &mut Run, rng: &mut Rng, number: u64) {
    let (_, shape) = SHAPES[number as usize % SHAPES.len()];
    let identity = identity(rng);
    let (segments, _) = shape(rng, &identity.device);
    let record = encode(head(rng), &segments);
    ROOM.with_borrow_mut(|room| {
        let mut edge = Edge { run, end: rng.coin(), room };
        on_record(&mut edge, rng, identity.device, &record);
        let (present, old) = (time(rng), payload(rng, &identity));
        format_with(&mut edge, &identity, present, &record);
        if let Some(time) = later(rng, present) {
            let [front, back] = in_step(rng, &identity, present, &old);
            update_with(&mut edge, rng, [&front, &back], time, &record);
        }
        if Model.record_check(identity.device, &record).number == CLASH {
            run.reached("a clash in slices at the edge of forbidden memory");
        }
    });
}

struct Edge<'a> {
    run: &'a mut Run,
    /// The slices end at the forbidden page, or begin at it.
    end: bool,
    room: &'a mut Room,
}

/// Slices as they are, then each of them one shorter and one longer.
fn sized(slices: &[&[u8]]) -> Vec<Vec<Vec<u8>>> {
    let right: Vec<Vec<u8>> = slices.iter().map(|slice| slice.to_vec()).collect();
    let mut all = vec![right.clone()];
    for which in 0..slices.len() {
        for length in [slices[which].len().checked_sub(1), Some(slices[which].len() + 1)] {
            let Some(length) = length else {
                continue;
            };
            let mut slices = right.clone();
            slices[which].resize(length, 0);
            all.push(slices);
        }
    }
    all
}

impl Edge<'_> {
    /// A call by both with these slices, and with each of them off by one. The answers and what is left in the slices are the same.
    fn bytes<A: Answer, const N: usize>(
        &mut self,
        call: &str,
        slices: [&[u8]; N],
        f: impl Fn(&dyn Interface, [&mut [u8]; N]) -> A,
    ) {
        for slices in sized(&slices) {
            let mut held = self.room.bytes.iter_mut().zip(&slices).map(|(room, slice)| room.hold(slice, self.end));
            let mut held: [&mut [u8]; N] = std::array::from_fn(|_| held.next().expect("a slice"));
            let library = f(&Library, held.each_mut().map(|slice| &mut **slice));
            let mut left = slices.clone();
            let mut parts = left.iter_mut();
            let model = f(&Model, std::array::from_fn(|_| &mut parts.next().expect("a slice")[..]));
            let same = held.iter().zip(&left).all(|(held, left)| **held == left[..]);
            let sizes: Vec<usize> = slices.iter().map(Vec::len).collect();
            same_answers(self.run, call, library, model, &sizes);
            self.run.require(call, same, "leaves other bytes in a slice at an edge");
        }
    }

    /// The same with a table of numbers.
    fn numbers<A: Answer>(
        &mut self,
        call: &str,
        slice: &[u8],
        right: usize,
        f: impl Fn(&dyn Interface, &[u8], &mut [u64]) -> A,
    ) {
        for length in [right.saturating_sub(1), right, right + 1] {
            let mut table = vec![7; length];
            let held_table = self.room.numbers.hold(&table, self.end);
            let library = f(&Library, self.room.bytes[0].hold(slice, self.end), held_table);
            let model = f(&Model, slice, &mut table);
            same_answers(self.run, call, library, model, &[slice.len(), length]);
            self.run.require(call, held_table == table, "leaves other numbers in a table at an edge");
        }
    }

    /// The same with a table of runs.
    fn runs<A: Answer>(
        &mut self,
        call: &str,
        slice: &[u8],
        right: usize,
        f: impl Fn(&dyn Interface, &[u8], &mut [FreeRun]) -> A,
    ) {
        for length in [right.saturating_sub(1), right, right + 1] {
            let mut table = vec![FreeRun { start: 7, sectors: 8 }; length];
            let held_table = self.room.runs.hold(&table, self.end);
            let library = f(&Library, self.room.bytes[0].hold(slice, self.end), held_table);
            let model = f(&Model, slice, &mut table);
            same_answers(self.run, call, library, model, &[slice.len(), length]);
            self.run.require(call, held_table == table, "leaves other runs in a table at an edge");
        }
    }
}

fn same_answers<A: Answer>(run: &mut Run, call: &str, library: A, model: A, sizes: &[usize]) {
    if library != model {
        let what = format!("library answers {library:?}, model {model:?} (slices at an edge, sizes {sizes:?})");
        run.require(call, false, &what);
    }
}

fn blocks(edge: &mut Edge, rng: &mut Rng) {
    let block: Block = block(rng);
    edge.bytes("block_read", [&block.encode()], |api, [bytes]| api.block_read(bytes));
    edge.bytes("block_write", [&[7; SECTOR]], |api, [bytes]| api.block_write(block.into(), bytes));
    let length = rng.index(2 * COPY - 1);
    let bytes = rng.bytes(length);
    let before = rng.next() as u32;
    edge.bytes("checksum", [&bytes], |api, [bytes]| api.checksum(bytes));
    edge.bytes("checksum_continued", [&bytes], |api, [bytes]| api.checksum_continued(before, bytes));
    let copy = rng.bytes(COPY);
    let (area, length) = (rng.next() as u8 & 1, rng.index(RECORD_LIMIT + 1));
    let record = rng.bytes(length);
    edge.bytes("lay", [&copy, &record], |api, [copy, record]| api.lay(copy, area, record));
    let device = block.identity.device;
    let sector = device.copy_sectors(rng.index(2))[rng.index(40)];
    let sector_bytes = rng.bytes(SECTOR);
    edge.bytes("apply", [&sector_bytes, &copy, &copy], |api, [bytes, front, back]| {
        api.apply(device, sector, bytes, front, back)
    });
}

fn copies(edge: &mut Edge, rng: &mut Rng) {
    let (_, [front, back]) = any_pair(rng);
    edge.bytes("copy_read", [&front], |api, [copy]| api.copy_read(copy));
    pieces(edge, rng, &front);
    edge.bytes("discover", [&front, &back], |api, [front, back]| api.discover(front, back));
    edge.bytes("in_step", [&front, &back], |api, [front, back]| api.in_step(front, back));
    marks(edge, rng, [&front, &back]);
    edge.bytes("mend_plan", [&front, &back], |api, [front, back]| api.mend_plan(front, back));
    let found = Model.discover(&front, &back);
    let record = vec![7; if found.number() == 0 { found.bytes as usize } else { rng.index(RECORD_LIMIT) }];
    edge.bytes("read_found", [&front, &back, &record], |api, [front, back, record]| {
        api.read_found(front, back, record)
    });
    let plan = Model.mend_plan(&front, &back).plan;
    let count = Model.mend_count(plan);
    for number in [0, rng.below(count + 1), count.saturating_sub(1), count] {
        edge.bytes("mend_store", [&front, &back, &[7; SECTOR]], |api, [front, back, bytes]| {
            api.mend_store(plan, front, back, number, bytes)
        });
    }
}

/// A piece of a copy up to its end, and one within it; then one after a state that no call made.
fn pieces(edge: &mut Edge, rng: &mut Rng, copy: &[u8]) {
    let cut = rng.index(COPY + 1);
    let state = Received::from(State::of_joined(&copy[..cut]));
    let within = &copy[cut..][..rng.index(COPY - cut + 1)];
    for piece in [&copy[cut..], within] {
        edge.bytes("receive_piece", [piece], |api, [piece]| api.receive_piece(state, piece));
    }
    let state = any_state(rng);
    let length = piece_length(rng, state.taken).min(2 * COPY - 1);
    let piece = rng.bytes(length);
    edge.bytes("receive_piece", [&piece], |api, [piece]| api.receive_piece(state.into(), piece));
    edge.run.reached("pieces in slices at the edge of forbidden memory");
}

/// Marks at an edge, as many as are right; then each of the four slices empty, which is lent as a null pointer, in all ways.
fn marks(edge: &mut Edge, rng: &mut Rng, copies: [&[u8]; 2]) {
    let marks = copies.map(|copy| {
        let unread = rng.coin();
        matters(copy).map(|matters| u8::from(unread && !matters))
    });
    let slices: [&[u8]; 4] = [copies[0], copies[1], &marks[0], &marks[1]];
    for empty in 0..16 {
        let slices = [0, 1, 2, 3].map(|which| if empty >> which & 1 == 1 { &[] } else { slices[which] });
        edge.bytes("settled", slices, |api, [front, back, front_marks, back_marks]| {
            api.settled(front, back, front_marks, back_marks)
        });
    }
    edge.run.reached("settled, empty slices");
}

fn updates(edge: &mut Edge, rng: &mut Rng) {
    let identity = identity(rng);
    let (time, present) = (time(rng), payload(rng, &identity));
    let [front, back] = in_step(rng, &identity, time, &present);
    let Some(time) = later(rng, time) else {
        return;
    };
    let record = any_record(rng, &identity.device);
    update_with(edge, rng, [&front, &back], time, &record);
}

fn update_with(edge: &mut Edge, rng: &mut Rng, [front, back]: [&[u8]; 2], time: Time, record: &[u8]) {
    edge.bytes("update_check", [front, back, record], |api, [front, back, record]| {
        api.update_check(front, back, time, record)
    });
    edge.bytes("update_plan", [front, back, record], |api, [front, back, record]| {
        api.update_plan(front, back, time, record)
    });
    let answer = Model.update_plan(front, back, time, record);
    if answer.number() != 0 {
        return;
    }
    let plan = answer.plan;
    let count = Model.update_count(plan);
    for number in [0, rng.below(count), count / 2 - 1, count - 1, count] {
        edge.bytes("update_store", [front, back, record, &[7; SECTOR]], |api, [front, back, record, bytes]| {
            api.update_store(plan, front, back, record, number, bytes)
        });
    }
}

fn formats(edge: &mut Edge, rng: &mut Rng) {
    let identity = identity(rng);
    let (device, time) = (identity.device, time(rng));
    let count = segment_count(rng);
    let record = record(rng, &device, count);
    format_with(edge, &identity, time, &record);
    let [front, back] = [rng.bytes(COPY), rng.bytes(COPY)];
    for number in [rng.below(80), 79, 80] {
        edge.bytes("format_store", [&front, &back, &[7; SECTOR]], |api, [front, back, bytes]| {
            api.format_store(device, front, back, number, bytes)
        });
    }
}

fn format_with(edge: &mut Edge, identity: &Identity, time: Time, record: &[u8]) {
    let copy = [7; COPY];
    let uuids: [&[u8; UUID]; 2] = [&identity.pool_uuid, &identity.device_uuid];
    edge.bytes("format", [&copy, &copy, uuids[0], uuids[1], record], |api, [front, back, pool, blockdev, record]| {
        api.format(front, back, identity.device, pool, blockdev, time, record)
    });
}

fn records(edge: &mut Edge, rng: &mut Rng) {
    let device = identity(rng).device;
    let record = any_record(rng, &device);
    on_record(edge, rng, device, &record);
}

fn on_record(edge: &mut Edge, rng: &mut Rng, device: Device, record: &[u8]) {
    let slice = [record];
    let (position, sectors) = (rng.below(410), rng.next() >> rng.below(64));
    edge.bytes("record_check", slice, |api, [record]| api.record_check(device, record));
    edge.bytes("record_head", slice, |api, [record]| api.record_head(device, record));
    edge.bytes("record_segment", slice, |api, [record]| api.record_segment(device, record, position));
    edge.bytes("free_total", slice, |api, [record]| api.free_total(device, record));
    edge.bytes("run_count", slice, |api, [record]| api.run_count(device, record));
    edge.bytes("run_at", slice, |api, [record]| api.run_at(device, record, position));
    edge.bytes("first_fit", slice, |api, [record]| api.first_fit(device, record, sectors));

    let left = segments_in(record).saturating_sub(position as usize);
    let some = rng.index(left + 1);
    let right = 3 * rng.one_of(&[left, left, some, 0]);
    edge.numbers("record_segments", record, right, |api, record, table| {
        api.record_segments(device, record, position, table)
    });
    let runs = Model.run_count(device, record).count as usize;
    edge.runs("free_runs", record, runs, |api, record, table| api.free_runs(device, record, table));

    let changed = vec![7; record.len() + 20];
    edge.bytes("allocate", [record, &changed], |api, [record, changed]| {
        api.allocate(device, record, 2, sectors, changed)
    });
    let changed = vec![7; record.len().saturating_sub(20)];
    edge.bytes("release", [record, &changed], |api, [record, changed]| api.release(device, record, position, changed));
    // A buffer that is right for either head, for the record as it is or with the other.
    for to in [Move::Up, Move::Back, Move::Mark(low_water(rng))] {
        for length in [record.len(), record.len() + 4, record.len().saturating_sub(4)] {
            let changed = vec![7; length];
            edge.bytes(to.call(), [record, &changed], |api, [record, changed]| to.ask(api, device, record, changed));
        }
    }
    edge.run.reached("heads in slices at the edge of forbidden memory");
    edge.bytes("record_begin", [&[7; 8]], |api, [record]| api.record_begin(record, 128));
    edge.bytes("record_begin_marked", [&[7; 12]], |api, [record]| api.record_begin_marked(record, 128, 5));
    let mut buffer = head(rng).item();
    buffer.resize(head_length(&buffer) + 20 * (position as usize + 1), 7);
    let segment = SegmentFields { kind: 2, start: rng.next(), sectors };
    edge.bytes("record_put", [&buffer], |api, [record]| api.record_put(record, position, segment));
    // Less than a head, and no more than one.
    for length in [1, 3, 5, 7, 9, 11, 13] {
        edge.bytes("record_put", [&buffer[..length]], |api, [record]| api.record_put(record, 0, segment));
        edge.bytes("record_begin", [&buffer[..length]], |api, [record]| api.record_begin(record, 256));
        edge.bytes("record_begin_marked", [&buffer[..length]], |api, [record]| api.record_begin_marked(record, 256, 9));
        edge.bytes("record_check", [&buffer[..length]], |api, [record]| api.record_check(device, record));
        edge.bytes("record_head", [&buffer[..length]], |api, [record]| api.record_head(device, record));
    }
}
