//! Compares the library's speed with the independent implementation's: the same input, in the same run, in turn.
//!
//! Build it for release and run it on an idle machine. It is no part of the tests. The checksum's rows have zlib's `crc32` beside them
//! where `libz.so.1` is installed: another polynomial, the same work.

use std::ffi::{c_char, c_int, c_uint, c_ulong, c_void, CStr};
use std::hint::black_box;
use std::time::Instant;

use outside::ffi::Library;
use outside::interface::{Answer, CopyAnswer, FreeRun, Interface, Refused};
use outside::model::block::{Identity, Time};
use outside::model::layout::{Device, BLOCK_OFFSET, COPY, RECORD_LIMIT, SECTOR};
use outside::model::receive::{State, Taken};
use outside::model::record::{Head, Segment, MAX_SEGMENTS};
use outside::model::refusal::Refusal;
use outside::model::{stream, sweep, Model};
use outside::moves::Move;
use outside::rng::Rng;
use outside::sample::copies::{copy, get_block, Area};
use outside::sample::records::encode;

const ROUNDS: usize = 21;
/// How long one sample takes at least, in seconds.
const SAMPLE: f64 = 0.004;
const DEVICE: Device = Device { sectors: 1 << 40, metadata: 16_384, reserved: 65_536 };

fn main() {
    println!("Output buffers are zeroed once, before the first call, and not cleared between calls.");
    println!("Median of {ROUNDS} rounds, library and model in turn; the model is plain Rust.");
    println!("Of a record refused with 19 the model's search sorts and sweeps; both name the pair.");
    println!("Of a copy in pieces the model takes whole parts; both hand the state on by value.");
    println!();
    println!("{:48} {:>12} {:>12} {:>8}", "call", "library", "model", "ratio");
    let mut rng = Rng::new(1);
    checksums(&mut rng);
    block(&mut rng);
    pieces(&mut rng);
    discovery(&mut rng);
    record_check(&mut rng);
    record_segments(&mut rng);
    allocation(&mut rng);
    heads(&mut rng);
    update(&mut rng);
    mend(&mut rng);
    record_clash(&mut rng);
    free_runs(&mut rng);
    apply(&mut rng);
}

/// Times a call by both and prints a row.
fn row(name: &str, mut call: impl FnMut(&dyn Interface)) {
    let times = in_turn(2, |index| call([&Library as &dyn Interface, &Model][index]));
    print_row(name, times[0], times[1]);
}

fn print_row(name: &str, library: f64, other: f64) {
    println!("{name:48} {library:>9.1} ns {other:>9.1} ns {:>8.2}", library / other);
}

/// Nanoseconds for one call by each of so many, who take turns.
fn in_turn(count: usize, mut call: impl FnMut(usize)) -> Vec<f64> {
    let repeats: Vec<u64> = (0..count).map(|index| repeats(index, &mut call)).collect();
    let mut samples = vec![Vec::new(); count];
    for round in 0..ROUNDS {
        for turn in 0..count {
            let index = if round % 2 == 0 { turn } else { count - 1 - turn };
            samples[index].push(sample(index, repeats[index], &mut call));
        }
    }
    samples.into_iter().map(median).collect()
}

/// Nanoseconds for one call.
fn sample(index: usize, repeats: u64, call: &mut impl FnMut(usize)) -> f64 {
    let start = Instant::now();
    for _ in 0..repeats {
        call(index);
    }
    start.elapsed().as_secs_f64() * 1e9 / repeats as f64
}

/// How many calls make a sample long enough.
fn repeats(index: usize, call: &mut impl FnMut(usize)) -> u64 {
    let mut repeats = 1;
    while sample(index, repeats, call) * (repeats as f64) < SAMPLE * 1e9 {
        repeats *= 2;
    }
    repeats
}

fn median(mut samples: Vec<f64>) -> f64 {
    samples.sort_by(f64::total_cmp);
    samples[samples.len() / 2]
}

/// The answer of a call that must not be refused.
fn answered<A: Answer>(answer: A) -> A {
    let answer = black_box(answer);
    assert_eq!(answer.number(), 0, "the call is refused");
    answer
}

fn identity() -> Identity {
    let uuid = *b"0123456789abcdef0123456789abcdef";
    Identity { device: DEVICE, pool_uuid: uuid, device_uuid: uuid }
}

fn time(seconds: u64) -> Time {
    Time { seconds, nanoseconds: 0 }
}

/// Scattered segments in random order, with free sectors after each.
fn scattered_segments(rng: &mut Rng, count: usize) -> Vec<Segment> {
    let start = DEVICE.data_start();
    let mut segments: Vec<Segment> = (0..count as u64)
        .map(|i| Segment { kind: 2, start: start + 10_000 * i, length: rng.within(1, 9_000) })
        .collect();
    rng.shuffle(&mut segments);
    segments
}

/// A record of scattered segments in random order.
fn scattered(rng: &mut Rng, count: usize) -> Vec<u8> {
    encode(Head::plain(128), &scattered_segments(rng, count))
}

/// A record of scattered segments in which only those at these two positions share a sector.
fn clashing(rng: &mut Rng, count: usize, (first, second): (usize, usize)) -> Vec<u8> {
    let mut segments = scattered_segments(rng, count);
    let Segment { start, length, .. } = segments[first];
    segments[second] = Segment { kind: 2, start: start + length - 1, length: 100 };
    clashing_alone(&segments, (first, second))
}

/// A record of scattered segments in which the first, as long as one is, lies over the last and shares a sector with no other.
fn covering(rng: &mut Rng, count: usize) -> Vec<u8> {
    let mut segments = scattered_segments(rng, count);
    segments[0].length = 9_000;
    segments[count - 1] = Segment { kind: 2, start: segments[0].start + 4_000, length: 100 };
    clashing_alone(&segments, (0, count - 1))
}

/// The record of segments of which only those at these two positions share a sector.
fn clashing_alone(segments: &[Segment], clash: (usize, usize)) -> Vec<u8> {
    let count = segments.len();
    let pairs = (0..count).flat_map(|i| (i + 1..count).map(move |j| (i, j)));
    let shares = |a: &Segment, b: &Segment| a.start < b.start + b.length && b.start < a.start + a.length;
    let found: Vec<(usize, usize)> = pairs.filter(|&(i, j)| shares(&segments[i], &segments[j])).collect();
    assert_eq!(found, [clash]);
    encode(Head::plain(128), segments)
}

fn checksums(rng: &mut Rng) {
    let zlib = Zlib::installed();
    for length in [SECTOR, RECORD_LIMIT] {
        let bytes = rng.bytes(length);
        let count = if zlib.is_some() { 3 } else { 2 };
        let times = in_turn(count, |index| {
            let bytes = black_box(&bytes);
            black_box(match index {
                0 => Library.checksum(bytes),
                1 => Model.checksum(bytes),
                _ => zlib.as_ref().map_or(0, |zlib| zlib.checksum(bytes)),
            });
        });
        let name = format!("checksum of {length} bytes");
        print_row(&name, times[0], times[1]);
        match &zlib {
            Some(zlib) => print_row(&format!("{name}, zlib {} as model", zlib.version), times[0], times[2]),
            None => println!("{name}: no zlib beside it, libz.so.1 is not installed"),
        }
    }
}

extern "C" {
    fn dlopen(name: *const c_char, flags: c_int) -> *mut c_void;
    fn dlsym(library: *mut c_void, name: *const c_char) -> *mut c_void;
}

/// zlib as it is installed, found when the program runs, so that it builds without it.
struct Zlib {
    version: String,
    crc32: unsafe extern "C" fn(c_ulong, *const u8, c_uint) -> c_ulong,
}

impl Zlib {
    fn installed() -> Option<Zlib> {
        const RTLD_NOW: c_int = 2;
        // SAFETY: the names end in zero, and the two functions have these types in every zlib that has this soname.
        unsafe {
            let library = dlopen(c"libz.so.1".as_ptr(), RTLD_NOW);
            if library.is_null() {
                return None;
            }
            let [crc32, version] = [c"crc32", c"zlibVersion"].map(|name| dlsym(library, name.as_ptr()));
            if crc32.is_null() || version.is_null() {
                return None;
            }
            let version: extern "C" fn() -> *const c_char = std::mem::transmute(version);
            let zlib = Zlib {
                version: CStr::from_ptr(version()).to_string_lossy().into_owned(),
                crc32: std::mem::transmute::<*mut c_void, unsafe extern "C" fn(c_ulong, *const u8, c_uint) -> c_ulong>(
                    crc32,
                ),
            };
            assert_eq!(zlib.checksum(b"123456789"), 0xCBF4_3926, "zlib's check value");
            Some(zlib)
        }
    }

    fn checksum(&self, bytes: &[u8]) -> u32 {
        // SAFETY: reads `bytes` alone.
        unsafe { (self.crc32)(0, bytes.as_ptr(), bytes.len() as c_uint) as u32 }
    }
}

/// Two copies with a record of 8,192 bytes in each of the four areas.
fn full_copies(rng: &mut Rng) -> [Vec<u8>; 2] {
    let [old, new] = [rng.bytes(RECORD_LIMIT), rng.bytes(RECORD_LIMIT)];
    let areas = [Area::Whole(time(10), old), Area::Whole(time(11), new)];
    [copy(rng, &identity(), &areas), copy(rng, &identity(), &areas)]
}

fn block(rng: &mut Rng) {
    let block = get_block(&full_copies(rng)[0]);
    row("reading a block", |api| {
        answered(api.block_read(black_box(&block)));
    });
}

/// A copy at once and in pieces: with 8,192 bytes in both areas, with 28, and with a block whose checksum is wrong.
fn pieces(rng: &mut Rng) {
    let [full, _] = full_copies(rng);
    let areas = [10, 11].map(|seconds| Area::Whole(time(seconds), rng.bytes(28)));
    let small = copy(rng, &identity(), &areas);
    let mut refused = full.clone();
    refused[BLOCK_OFFSET] ^= 1;
    row("a copy at once, full areas", |api| {
        answered(api.copy_read(black_box(&full)));
    });
    piece_rows("full areas", &full, 4_096, 0);
    piece_rows("full areas", &full, 512, 0);
    piece_rows("full areas", &full, 1, 0);
    piece_rows("records of 28", &small, 4_096, 0);
    piece_rows("refused block", &refused, 4_096, 3);
}

/// A row beside the model, and one beside the library's own call for the copy at once.
fn piece_rows(what: &str, copy: &[u8], length: usize, number: u64) {
    let ended = |answer: CopyAnswer| assert_eq!(black_box(answer).number(), number);
    let times = in_turn(3, |index| {
        let copy = black_box(copy);
        match index {
            0 => ended(in_pieces(copy, length)),
            1 => match parts_in_pieces(copy, length) {
                Ok(taken) => assert_eq!((number, black_box(taken).present), (0, Some(1))),
                Err(refusal) => assert_eq!(u64::from(black_box(refusal).number()), number),
            },
            _ => ended(Library.copy_read(copy)),
        }
    });
    let name = format!("pieces of {length}, {what}");
    print_row(&name, times[0], times[1]);
    print_row(&format!("{name}, at once as model"), times[0], times[2]);
    if length == 1 {
        let each = |time: f64| time / COPY as f64;
        print_row(&format!("{name}, each byte"), each(times[0]), each(times[1]));
    }
}

fn in_pieces(copy: &[u8], length: usize) -> CopyAnswer {
    let mut received = Library.receive_begin();
    for piece in copy.chunks(length) {
        let answer = Library.receive_piece(received, piece);
        assert_eq!(answer.number(), 0);
        received = answer.received;
    }
    Library.receive_end(received)
}

/// The same by the model. Its calls are not put in line, as the library's are not.
fn parts_in_pieces(copy: &[u8], length: usize) -> Result<Taken, Refusal> {
    let with: fn(State, &[u8]) -> Result<State, Refusal> = black_box(stream::with);
    let mut state = State::FRESH;
    for piece in copy.chunks(length) {
        state = with(state, piece)?;
    }
    state.end()
}

fn discovery(rng: &mut Rng) {
    let [front, back] = full_copies(rng);
    row("discovery, 8192 bytes in all four areas", |api| {
        answered(api.discover(black_box(&front), black_box(&back)));
    });
}

fn record_check(rng: &mut Rng) {
    let record = scattered(rng, MAX_SEGMENTS);
    row("checking a record of 409 segments", |api| {
        answered(api.record_check(DEVICE, black_box(&record)));
    });
}

fn record_segments(rng: &mut Rng) {
    let record = scattered(rng, MAX_SEGMENTS);
    let tables = [&Library as &dyn Interface, &Model].map(|api| {
        let mut table = [0; 3 * MAX_SEGMENTS];
        let answer = answered(api.record_segments(DEVICE, &record, 0, &mut table));
        (table, answer.count)
    });
    assert_eq!(tables[0], tables[1]);
    assert_eq!(tables[0].1, MAX_SEGMENTS as u64);
    let mut table = [0; 3 * MAX_SEGMENTS];
    row("all 409 segments by one call", |api| {
        answered(api.record_segments(DEVICE, black_box(&record), 0, &mut table));
        black_box(&table);
    });
}

fn allocation(rng: &mut Rng) {
    let record = scattered(rng, MAX_SEGMENTS - 1);
    let mut changed = [0; RECORD_LIMIT];
    // Only the last free run is long enough.
    row("allocation, 408 scattered segments, last run", |api| {
        answered(api.allocate(DEVICE, black_box(&record), 2, 20_000, &mut changed));
        black_box(&changed);
    });
}

fn heads(rng: &mut Rng) {
    for (count, name) in [(1, "1 segment"), (MAX_SEGMENTS, "409 segments")] {
        let segments = scattered_segments(rng, count);
        let [plain, marked] = [Head::plain(128), Head::marked(128, 0)].map(|head| encode(head, &segments));
        for (to, way, from, wanted) in [(Move::Up, "up", &plain, &marked), (Move::Back, "back", &marked, &plain)] {
            let mut changed = [0; RECORD_LIMIT];
            row(&format!("head moved {way}, {name}"), |api| {
                answered(to.ask(api, DEVICE, black_box(from), &mut changed));
                black_box(&changed);
            });
            assert!(changed.starts_with(wanted));
        }
    }
}

fn update(rng: &mut Rng) {
    let [front, back] = full_copies(rng);
    assert_eq!(front.len(), COPY);
    let record = scattered(rng, MAX_SEGMENTS);
    let name = format!("update of {} bytes: plan and all 34 stores", record.len());
    let mut bytes = [0; SECTOR];
    row(&name, |api| {
        let (front, back, record) = (black_box(&front), black_box(&back), black_box(&record));
        let plan = answered(api.update_plan(front, back, time(12), record)).plan;
        let count = api.update_count(plan);
        assert_eq!(count, 34);
        for number in 0..count {
            answered(api.update_store(plan, front, back, record, number, &mut bytes));
            black_box(&bytes);
        }
    });
    // Into copies that have the record already: each store is asked for and applied as it would be to others.
    let plan = Model.update_plan(&front, &back, time(12), &record).plan;
    let (mut front, mut back) = (front, back);
    row("update, stores applied", |api| {
        let record = black_box(&record);
        for number in 0..34 {
            let store = answered(api.update_store(plan, &front, &back, record, number, &mut bytes));
            answered(api.apply(DEVICE, store.sector, &bytes, &mut front, &mut back));
        }
        black_box((&front, &back));
    });
}

fn mend(rng: &mut Rng) {
    let [old, new, older] = [rng.bytes(RECORD_LIMIT), rng.bytes(RECORD_LIMIT), rng.bytes(RECORD_LIMIT)];
    let back = copy(rng, &identity(), &[Area::Whole(time(9), older), Area::Unused]);
    let front = copy(rng, &identity(), &[Area::Whole(time(10), old.clone()), Area::Whole(time(11), new.clone())]);
    // The front's later entry is torn, so that its older record is found and its block has a last store.
    let torn = copy(rng, &identity(), &[Area::Whole(time(10), old), Area::Torn(time(11), new)]);
    for (front, state, stores) in [(front, "later record in front", 18), (torn, "later entry torn", 19)] {
        let name = format!("mend, {state}: plan and all {stores} stores");
        let mut bytes = [0; SECTOR];
        row(&name, |api| {
            let (front, back) = (black_box(&front), black_box(&back));
            let plan = answered(api.mend_plan(front, back)).plan;
            let count = api.mend_count(plan);
            assert_eq!(count, stores);
            for number in 0..count {
                answered(api.mend_store(plan, front, back, number, &mut bytes));
                black_box(&bytes);
            }
        });
    }
}

/// Beside the library a sort and a sweep that name the pair as well, since the model's two nested loops take the square of the segments.
fn record_clash(rng: &mut Rng) {
    let last = MAX_SEGMENTS - 1;
    let middle = (last - 1) / 2;
    for ((first, second), place) in [((last - 1, last), "last two"), ((middle, middle + 1), "middle two")] {
        let record = clashing(rng, MAX_SEGMENTS, (first, second));
        clash_row(&format!("record refused with 19, {place} of 409"), &record, (first, second));
    }
    clash_row("record refused with 19, first over last of 409", &covering(rng, MAX_SEGMENTS), (0, last));
}

/// Both have to name this pair in every call.
fn clash_row(name: &str, record: &[u8], (first, second): (usize, usize)) {
    let pair = Refused { number: 19, first: first as u64, second: second as u64 };
    let times = in_turn(2, |index| {
        let record = black_box(record);
        let refused = match index {
            0 => Library.record_check(DEVICE, record),
            _ => sweep::check(&DEVICE, record).map_or_else(Refused::from, |()| Refused::default()),
        };
        assert_eq!(black_box(refused), pair);
    });
    print_row(name, times[0], times[1]);
}

fn free_runs(rng: &mut Rng) {
    let record = scattered(rng, MAX_SEGMENTS);
    let tables = [&Library as &dyn Interface, &Model].map(|api| {
        let mut table = [FreeRun::default(); MAX_SEGMENTS + 1];
        let answer = answered(api.free_runs(DEVICE, &record, &mut table));
        (table, answer.count)
    });
    assert_eq!(tables[0], tables[1]);
    assert_eq!(tables[0].1, MAX_SEGMENTS as u64);
    let mut table = [FreeRun::default(); MAX_SEGMENTS + 1];
    row("free runs as structs, 409 scattered segments", |api| {
        answered(api.free_runs(DEVICE, black_box(&record), &mut table));
        black_box(&table);
    });
}

fn apply(rng: &mut Rng) {
    let [mut front, mut back] = full_copies(rng);
    let bytes = rng.bytes(SECTOR);
    let sector = DEVICE.area_sector(1, 1) + 7;
    row("apply", |api| {
        answered(api.apply(DEVICE, black_box(sector), black_box(&bytes), &mut front, &mut back));
        black_box((&front, &back));
    });
}
