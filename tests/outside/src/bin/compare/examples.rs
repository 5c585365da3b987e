//! Published check values and the worked examples of the layout's rules, with what they must give.

use outside::ffi::Library;
use outside::interface::{
    Answer, BlockFields, Device, EntryFields, FreeRun, Interface, Received, Refused, SegmentFields, Time, WORDS,
};
use outside::model::layout::{COPY, SECTOR};
use outside::model::record::{Head, Segment, MAX_SEGMENTS};
use outside::model::Model;
use outside::moves::Move;
use outside::rng::Rng;
use outside::sample::records::encode as encode_with;

use crate::run::Run;

const DEVICE: Device = Device { sectors: 2_097_152, metadata: 2_040, reserved: 0 };
const UUID: &[u8; 32] = b"0123456789abcdef0123456789abcdef";
/// Block size 128 and a data segment of 100 sectors at 2,048.
const RECORD: [u8; 28] =
    [0x08, 0, 0x10, 0, 0x80, 0, 0, 0, 0x14, 0, 2, 0, 0, 8, 0, 0, 0, 0, 0, 0, 0x64, 0, 0, 0, 0, 0, 0, 0];

/// The same with a head of kind 17 and the mark 0.
const UP: [u8; 32] =
    [0x0c, 0, 0x11, 0, 0x80, 0, 0, 0, 0, 0, 0, 0, 0x14, 0, 2, 0, 0, 8, 0, 0, 0, 0, 0, 0, 0x64, 0, 0, 0, 0, 0, 0, 0];

/// A record in blocks of 128 sectors, with a head of kind 16.
fn encode(segments: &[Segment]) -> Vec<u8> {
    encode_with(Head::plain(128), segments)
}

/// The implementations are held to the examples each for itself.
pub fn case(run: &mut Run, _: &mut Rng, _: u64) {
    for api in [&Library as &dyn Interface, &Model] {
        let mut expect = |what: &str, holds: bool| {
            run.require(what, holds, &format!("not as published, by the {}", api.name()));
        };
        check_values(api, &mut expect);
        words(api, &mut expect);
        devices(api, &mut expect);
        heads(api, &mut expect);
        moves(api, &mut expect);
        segments(api, &mut expect);
        free_room(api, &mut expect);
        clashes(api, &mut expect);
        stores(api, &mut expect);
        worked(api, &mut expect);
        unread(api, &mut expect);
        received(api, &mut expect);
    }
}

type Expect<'a> = dyn FnMut(&str, bool) + 'a;

fn check_values(api: &dyn Interface, expect: &mut Expect) {
    let mut ascending = [0; 32];
    (0..).zip(&mut ascending).for_each(|(value, byte)| *byte = value);
    let mut descending = ascending;
    descending.reverse();
    // The read command of RFC 3720, appendix B.4: its bytes that are not zero.
    let mut read = [0; 48];
    for (at, byte) in [(0, 0x01), (1, 0xc0), (16, 0x14), (22, 0x04), (27, 0x14), (31, 0x18), (32, 0x28), (40, 0x02)] {
        read[at] = byte;
    }
    let published: [(&str, &[u8], u32); 8] = [
        ("123456789", b"123456789", 0xE306_9283),
        ("nothing", b"", 0),
        ("32 zero bytes", &[0; 32], 0x8A91_36AA),
        ("32 bytes 255", &[0xff; 32], 0x62A8_AB43),
        ("32 bytes from 0 up", &ascending, 0x46DD_794E),
        ("32 bytes from 31 down", &descending, 0x113F_DB5C),
        ("a read command", &read, 0xD996_3A56),
        ("a sentence", b"The quick brown fox jumps over the lazy dog", 0x2262_0404),
    ];
    for (name, bytes, value) in published {
        expect(&format!("CRC32 of {name}"), api.checksum(bytes) == value);
    }
}

/// The head of a record: the lowest number that applies, for too little room and a block size that is not allowed.
fn heads(api: &dyn Interface, expect: &mut Expect) {
    let begin = |room, block_size| api.record_begin(&mut vec![0; room], block_size).number;
    for block_size in [0, 127, 129, 2_097_151, 2_097_280, u32::MAX] {
        expect("a head of 17 in too little room is 1", begin(0, block_size) == 1 && begin(7, block_size) == 1);
        expect("a head of a size that is not allowed", begin(8, block_size) == 17 && begin(9, block_size) == 17);
    }
    for block_size in [128, 256, 2_097_152] {
        expect("a head in too little room", begin(0, block_size) == 1 && begin(7, block_size) == 1);
        expect("a head", begin(8, block_size) == 0 && begin(9, block_size) == 0);
    }
    let begin = |room, block_size, low_water| {
        let mut buffer = vec![9; room];
        (api.record_begin_marked(&mut buffer, block_size, low_water).number, buffer)
    };
    for low_water in [0, 1, 0x0403_0201, u32::MAX] {
        let mut head = [12, 0, 17, 0, 0, 1, 0, 0, 0, 0, 0, 0, 9];
        head[8..12].copy_from_slice(&low_water.to_le_bytes());
        expect("a head with a mark", begin(13, 256, low_water) == (0, head.to_vec()));
        expect("a head with a mark, exact", begin(12, 256, low_water) == (0, head[..12].to_vec()));
        for block_size in [256, 0, 127, 2_097_280] {
            expect("a head with a mark in too little room", begin(11, block_size, low_water) == (1, vec![9; 11]));
        }
        expect("a head with a mark and no block size", begin(13, 192, low_water) == (17, vec![9; 13]));
    }
}

/// The printed record moved up and back, with marks, and what is no record with either head. All worked out by hand.
fn moves(api: &dyn Interface, expect: &mut Expect) {
    let moved = |to: Move, record: &[u8], room| {
        let mut changed = vec![9; room];
        let answer = to.ask(api, DEVICE, record, &mut changed);
        (answer.number(), answer.length, changed)
    };
    let up = |record: &[u8], room| moved(Move::Up, record, room);
    let back = |record: &[u8], room| moved(Move::Back, record, room);
    let mark = |record: &[u8], low_water, room| moved(Move::Mark(low_water), record, room);
    let marked = |low_water: u32| {
        let mut record = UP;
        record[8..12].copy_from_slice(&low_water.to_le_bytes());
        record
    };
    let lent = |record: &[u8], rest: usize| [record, &vec![9; rest]].concat();
    let refused = |number, room| (number, 0, vec![9; room]);
    expect("moved up", up(&RECORD, 32) == (0, 32, UP.to_vec()) && up(&RECORD, 35) == (0, 32, lent(&UP, 3)));
    expect("moved up in too little room", [0, 28, 31].iter().all(|&room| up(&RECORD, room) == refused(1, room)));
    expect("moved back", back(&UP, 28) == (0, 28, RECORD.to_vec()) && back(&UP, 35) == (0, 28, lent(&RECORD, 7)));
    expect("moved back in too little room", [0, 27].iter().all(|&room| back(&UP, room) == refused(1, room)));
    expect("moved back from kind 16", back(&RECORD, 29) == (0, 28, lent(&RECORD, 1)) && back(&RECORD, 27).0 == 1);
    expect("a mark for kind 16", [0, 28, 40].iter().all(|&room| mark(&RECORD, 0, room) == refused(17, room)));
    for low_water in [1, 255, 256, 65_535, 65_536, 1 << 24, 1 << 31, u32::MAX] {
        let record = marked(low_water);
        expect("24", [0, 27, 28, 32, 40].iter().all(|&room| back(&record, room) == refused(24, room)));
        expect("moved up from kind 17", up(&record, 33) == (0, 32, lent(&record, 1)) && up(&record, 31).0 == 1);
        expect("a mark set", mark(&UP, low_water, 33) == (0, 32, lent(&record, 1)));
        expect("a mark set to 0", mark(&record, 0, 32) == (0, 32, UP.to_vec()) && mark(&record, 0, 31).0 == 1);
        let head = api.record_head(DEVICE, &record);
        let fields = (head.kind, head.block_size, head.low_water, head.segments);
        expect("a marked head", head.number() == 0 && fields == (17, 128, low_water, 1));
    }
    let head = api.record_head(DEVICE, &RECORD);
    let fields = (head.kind, head.block_size, head.low_water, head.segments);
    expect("a plain head", head.number() == 0 && fields == (16, 128, 0, 1));

    // 409 segments fill the limit with kind 17: 12 + 409 x 20 is 8,192.
    let row: Vec<Segment> = (0..409).map(|i| Segment { kind: 2, start: 2_048 + i, length: 1 }).collect();
    let full = [Head::plain(128), Head::marked(128, 0)].map(|head| encode_with(head, &row));
    expect("full records", full[0].len() == 8_188 && full[1].len() == 8_192);
    expect("a full record moved", up(&full[0], 8_192) == (0, 8_192, full[1].clone()));
    expect("a full record moved back", back(&full[1], 8_188) == (0, 8_188, full[0].clone()));
    for record in &full {
        let mut changed = [0; 9_000];
        expect("a full record", api.record_check(DEVICE, record).number == 0);
        expect("21 with either head", api.allocate(DEVICE, record, 2, 1, &mut changed).number() == 21);
        let one_less = &record[..record.len() - 20];
        let answer = api.allocate(DEVICE, one_less, 2, 1, &mut changed);
        expect("the last segment", (answer.number(), answer.start, answer.length) == (0, 2_456, record.len() as u64));
        let more = [record, &record[record.len() - 20..]].concat();
        expect("410 segments", api.record_check(DEVICE, &more).number == 15);
    }

    // Another kind or length in the first item, and a second head.
    let first = |record: &[u8], length, kind| {
        let mut record = record.to_vec();
        (record[0], record[2]) = (length, kind);
        record
    };
    let malformed = [
        first(&RECORD, 8, 17),
        first(&RECORD, 12, 16),
        first(&RECORD, 12, 17),
        first(&UP, 8, 17),
        first(&UP, 8, 16),
        first(&UP, 12, 16),
        first(&UP, 12, 18),
        first(&UP, 28, 18),
        UP[..11].to_vec(),
        UP[..8].to_vec(),
        [&UP[..12], &RECORD].concat(),
        [&RECORD[..8], &UP].concat(),
        [&RECORD[..], &UP[..12]].concat(),
        [&UP[..], &RECORD[..8]].concat(),
        UP[12..].to_vec(),
        [&UP[12..], &UP].concat(),
    ];
    for record in malformed {
        let refusals = refusals(api, &record);
        expect("a record without its one head", refusals.iter().all(|(_, refusal)| *refusal == Refused::numbered(17)));
    }
    // What is tested first: the length, the items, the places, the clash; each in no room, with a mark that would be lost.
    let lossy = |places: &[(u64, u64)]| {
        let segment = |&(start, length)| Segment { kind: 2, start, length };
        encode_with(Head::marked(128, 5), &places.iter().map(segment).collect::<Vec<_>>())
    };
    let order = [
        (vec![], 15),
        (vec![0; 8_193], 15),
        (lossy(&[])[..11].to_vec(), 17),
        (lossy(&[(2_048, 0)]), 18),
        (lossy(&[(2_048, 2), (2_049, 1)]), 19),
        (lossy(&[(2_048, 2), (2_050, 1)]), 24),
    ];
    for (record, number) in order {
        expect("the order on the way back", back(&record, 0) == refused(number, 0));
    }
}

/// The segments of a record of three from a position on: what a table of so many numbers then holds, and the count.
fn segments(api: &dyn Interface, expect: &mut Expect) {
    let three =
        [(2, 2_048, 100), (4, 3_000, 50), (1, 2_200, 7)].map(|(kind, start, length)| Segment { kind, start, length });
    let record = encode(&three);
    let left = |room: usize, position| {
        let mut table = vec![9; room];
        let answer = api.record_segments(DEVICE, &record, position, &mut table);
        (answer.number(), table, answer.count)
    };
    let all = vec![2, 2_048, 100, 4, 3_000, 50, 1, 2_200, 7];
    expect("all segments", left(9, 0) == (0, all.clone(), 3));
    expect("all segments, more room", left(12, 0) == (0, [&all[..], &[9; 3]].concat(), 3));
    expect("segments, two numbers over", left(8, 0) == (0, [&all[..6], &[9; 2]].concat(), 2));
    expect("segments from 1", left(7, 1) == (0, [&all[3..], &[9]].concat(), 2));
    expect("the last segment", left(3, 2) == (0, all[6..].to_vec(), 1));
    expect("no room for a segment", left(0, 0) == (1, vec![], 0) && left(2, 2) == (1, vec![9; 2], 0));
    for position in [3, 4, 1 << 62, u64::MAX] {
        expect("no segment left", left(0, position) == (0, vec![], 0) && left(4, position) == (0, vec![9; 4], 0));
    }
    let refused = api.record_segments(DEVICE, &record[..27], 0, &mut []);
    expect("a refused record before too little room", refused.number() == 17);

    // The same record, put segment by segment.
    let mut buffer = vec![9; 70];
    api.record_begin(&mut buffer, 128);
    for (position, segment) in (0..).zip(three) {
        let answer = api.record_put(&mut buffer, position, segment.into());
        expect("a segment put", answer.number() == 0 && answer.length == 28 + 20 * position);
    }
    expect("three segments put", buffer[..68] == record && buffer[68..] == [9, 9]);
    let put = |length: usize, position| {
        let mut buffer = record[..length].to_vec();
        api.record_put(&mut buffer, position, SegmentFields::default()).number()
    };
    expect("a segment put in no room", put(68, 3) == 1 && put(67, 2) == 1 && put(68, 2) == 0);
    expect("a segment put without a head", put(7, 0) == 17 && put(0, 0) == 17);
    expect("a position that wraps", put(68, 1 << 62) == 1 && put(68, u64::MAX) == 1 && put(68, u64::MAX / 20) == 1);
}

/// The version, and what some numbers say.
fn words(api: &dyn Interface, expect: &mut Expect) {
    expect("version", api.version() == 4);
    let says = |number, line: &str| {
        let words = api.refusal_words(number);
        words.text() == line.as_bytes() && words.bytes[words.used..].iter().all(|&byte| byte == 0)
    };
    expect("words of 0", says(0, "nothing is refused"));
    expect("words of 10", says(10, "neither copy's block is accepted"));
    expect("words of 23", says(23, "no store has that number"));
    expect("words of 24", says(24, "moving the head would lose its low water mark"));
    expect("words of 25", says(25, "a number that is not known") && says(255, "a number that is not known"));
    expect("room for words", (0..=255).all(|number| api.refusal_words(number).used < WORDS));
}

/// Examples 1 to 6 and 8.
fn devices(api: &dyn Interface, expect: &mut Expect) {
    let answer = api.places(DEVICE);
    let map = answer.map;
    expect("example device", answer.number() == 0);
    expect("example 1", map.back.block == 2_097_145);
    expect("example 2", map.back.a == 2_095_104 && map.back.b == 2_096_124);
    expect("example 3", (map.start, map.end) == (2_048, 2_095_104) && map.end - map.start == 2_093_056);
    let located = api.locate_blocks(DEVICE.sectors);
    expect("blocks located", (located.number(), located.front, located.back) == (0, 1, 2_097_145));
    expect("no blocks located", api.locate_blocks(2_097_151).number() == 4);
    let places = |sectors, metadata, reserved| api.places(Device { sectors, metadata, reserved }).number();
    expect("example 4", places(2_097_151, 2_040, 0) == 4);
    expect("example 5", places(2_097_152, 2_041, 0) == 7 && places(2_097_152, 2_038, 0) == 7);
    expect("example 6", places(2_097_152, 16_384, 65_536) == 0);
    let (mut front, mut back) = (vec![0; COPY], vec![0; COPY]);
    let mut format = |nanoseconds| {
        let time = Time { seconds: 10, nanoseconds };
        api.format(&mut front, &mut back, DEVICE, UUID, UUID, time, &RECORD).number
    };
    expect("example 8", format(1_000_000_000) == 9 && format(999_999_999) == 0);
}

/// Examples 9 to 11.
fn free_room(api: &dyn Interface, expect: &mut Expect) {
    let record = |spans: &[(u64, u64)]| {
        let segment = |&(start, length)| Segment { kind: 2, start, length };
        encode(&spans.iter().map(segment).collect::<Vec<_>>())
    };
    expect("printed record", record(&[(2_048, 100)]) == RECORD);
    let two = record(&[(2_048, 100), (3_000, 50)]);
    let runs = [(2_148, 852), (3_050, 2_092_054)].map(|(start, sectors)| FreeRun { start, sectors });
    let mut table = [FreeRun::default(); 2];
    let answer = api.free_runs(DEVICE, &two, &mut table);
    expect("example 9, runs", answer.number() == 0 && answer.count == 2 && table == runs);
    expect("example 9, count of runs", api.run_count(DEVICE, &two).count == 2);
    let run = |number| api.run_at(DEVICE, &two, number).run;
    expect("example 9, single runs", [run(0), run(1), run(2)] == [runs[0], runs[1], FreeRun::default()]);
    let total = api.free_total(DEVICE, &two);
    expect("example 9, total", total.number() == 0 && total.sectors == 2_092_906);
    let allocate = |length| {
        let mut changed = [0; 68];
        let answer = api.allocate(DEVICE, &two, 2, length, &mut changed);
        (answer.number(), answer.start)
    };
    expect("example 10", allocate(852) == (0, 2_148) && allocate(853) == (0, 3_050));
    let fit = |length| {
        let answer = api.first_fit(DEVICE, &two, length);
        (answer.number(), answer.run)
    };
    expect("example 10, first fit", fit(852) == (0, runs[0]) && fit(853) == (0, runs[1]));
    expect("no fit", fit(0).0 == 18 && fit(2_092_055).0 == 20);
    let clash = record(&[(2_048, 100), (2_147, 1)]);
    let beside = record(&[(2_048, 100), (2_148, 1)]);
    expect("example 11, 19", api.record_check(DEVICE, &clash).number == 19);
    expect("example 11, accepted", api.record_check(DEVICE, &beside).number == 0);
}

/// What every call that takes a record and tests it refuses it with.
fn refusals(api: &dyn Interface, record: &[u8]) -> [(&'static str, Refused); 17] {
    let time = |seconds| Time { seconds, nanoseconds: 0 };
    let (mut front, mut back) = (vec![0; COPY], vec![0; COPY]);
    api.format(&mut front, &mut back, DEVICE, UUID, UUID, time(10), &RECORD);
    let check = api.update_check(&front, &back, time(11), record);
    let plan = api.update_plan(&front, &back, time(11), record).refusal;
    let mut bytes = vec![0; record.len() + 20];
    [
        ("record_check", api.record_check(DEVICE, record)),
        ("record_head", api.record_head(DEVICE, record).refusal),
        ("record_segment", api.record_segment(DEVICE, record, 0).refusal),
        ("record_segments", api.record_segments(DEVICE, record, 0, &mut [0; 3]).refusal),
        ("free_total", api.free_total(DEVICE, record).refusal),
        ("free_runs", api.free_runs(DEVICE, record, &mut [FreeRun::default(); MAX_SEGMENTS + 1]).refusal),
        ("run_count", api.run_count(DEVICE, record).refusal),
        ("run_at", api.run_at(DEVICE, record, 0).refusal),
        ("first_fit", api.first_fit(DEVICE, record, 1).refusal),
        ("allocate", api.allocate(DEVICE, record, 2, 1, &mut bytes).refusal),
        ("release", api.release(DEVICE, record, 0, &mut bytes).refusal),
        ("head_up", api.head_up(DEVICE, record, &mut bytes).refusal),
        ("head_back", api.head_back(DEVICE, record, &mut bytes).refusal),
        ("head_mark", api.head_mark(DEVICE, record, 7, &mut bytes).refusal),
        ("update_check", check),
        ("update_plan", plan),
        ("format", api.format(&mut front, &mut back, DEVICE, UUID, UUID, time(10), record)),
    ]
}

/// The first sectors and the lengths of a record's segments.
type Places<'a> = &'a [(u64, u64)];

/// The two segments that clash, with either head: the lowest position that clashes with a later one, and the lowest such later position. The pairs were
/// worked out by hand.
fn clashes(api: &dyn Interface, expect: &mut Expect) {
    let pair = |first, second| Refused { number: 19, first, second };
    let none = Refused::numbered;
    let few: &[(&str, Places, Refused)] = &[
        ("example 11", &[(2_048, 100), (2_147, 1)], pair(0, 1)),
        ("example 11, beside", &[(2_048, 100), (2_148, 1)], none(0)),
        ("the first two", &[(2_048, 10), (2_057, 1), (3_000, 5)], pair(0, 1)),
        ("the last two", &[(5_000, 1), (2_048, 10), (2_050, 2)], pair(1, 2)),
        ("the earlier starts later", &[(2_100, 10), (2_095, 10)], pair(0, 1)),
        ("the later lies in the earlier", &[(2_048, 100), (4_000, 1), (2_100, 1)], pair(0, 2)),
        ("the earlier lies in the later", &[(2_100, 1), (4_000, 1), (2_048, 100)], pair(0, 2)),
        ("two equal", &[(3_000, 5), (2_048, 10), (3_000, 5)], pair(0, 2)),
        ("three equal", &[(2_048, 10), (3_000, 5), (3_000, 5), (3_000, 5)], pair(1, 2)),
        ("one over several", &[(2_048, 1), (2_060, 1), (2_070, 1), (2_055, 100)], pair(1, 3)),
        ("one over several, first", &[(2_055, 100), (2_048, 1), (2_070, 1), (2_060, 1)], pair(0, 2)),
        ("one over all", &[(2_048, 1), (2_095_103, 1), (2_048, 2_093_056)], pair(0, 2)),
        ("two pairs, one after the other", &[(9_000, 1), (2_048, 10), (2_050, 1), (5_000, 9), (5_001, 1)], pair(1, 2)),
        ("two pairs in turn", &[(9_000, 1), (2_048, 10), (5_000, 10), (5_001, 1), (2_050, 1)], pair(1, 4)),
        ("a pair inside a pair", &[(2_048, 100), (5_000, 10), (5_005, 1), (2_100, 1)], pair(0, 3)),
        ("one with two later ones", &[(2_048, 100), (2_500, 1), (2_140, 9), (2_050, 1)], pair(0, 2)),
        ("a chain from the left", &[(2_048, 10), (2_057, 10), (2_066, 10)], pair(0, 1)),
        ("a chain, the ends first", &[(2_048, 10), (2_066, 10), (2_057, 10)], pair(0, 2)),
        ("a chain, the right end first", &[(2_066, 10), (2_048, 10), (2_057, 10)], pair(0, 2)),
        ("a row without gaps", &[(2_148, 10), (2_048, 100), (2_158, 1)], none(0)),
        ("a row, one sector too long", &[(2_148, 10), (2_048, 100), (2_157, 1)], pair(0, 2)),
        ("an empty segment after a clash", &[(2_048, 10), (2_048, 10), (3_000, 0)], none(18)),
        ("an empty segment before a clash", &[(3_000, 0), (2_048, 10), (2_048, 10)], none(18)),
        ("a segment before the data range", &[(2_048, 10), (2_048, 10), (2_047, 1)], none(18)),
        ("a segment past the data range", &[(2_095_103, 2), (2_048, 10), (2_048, 10)], none(18)),
    ];
    let segment = |&(start, length): &(u64, u64)| Segment { kind: 2, start, length };
    let mut holds = |name: &str, segments: &[Segment], refusal: Refused| {
        for head in [Head::plain(128), Head::marked(128, 1)] {
            for (call, answer) in refusals(api, &encode_with(head, segments)) {
                // A call may have another number for a record without a clash, as an allocation has for one that is full.
                let other = answer.number != 19 && answer == none(answer.number);
                let same = if refusal.number == 0 { other } else { answer == refusal };
                expect(&format!("{call} of {name}, kind {}", head.kind()), same);
            }
        }
    };
    for (name, places, refusal) in few {
        holds(name, &places.iter().map(segment).collect::<Vec<_>>(), *refusal);
    }

    // 409 segments in a row; then some of them elsewhere.
    let row: Vec<Segment> = (0..409).map(|i| segment(&(2_048 + 10 * i, 10))).collect();
    let moved = |places: &[(usize, usize)]| {
        let mut segments = row.clone();
        for &(position, to) in places {
            segments[position].start = row[to].start;
        }
        segments
    };
    holds("409 in a row", &row, none(0));
    holds("the last two of 409", &moved(&[(408, 407)]), pair(407, 408));
    holds("the first two of 409", &moved(&[(0, 1)]), pair(0, 1));
    holds("the first and the last of 409", &moved(&[(0, 408)]), pair(0, 408));
    holds("two far apart of 409", &moved(&[(300, 3)]), pair(3, 300));
    holds("two past 255 of 409", &moved(&[(256, 391)]), pair(256, 391));
    holds("several pairs of 409", &moved(&[(408, 200), (100, 150), (120, 407)]), pair(100, 150));
    let more = [&row[..], &[segment(&(2_048, 1))]].concat();
    holds("a clash of 410", &more, none(15));
    let mut faults = moved(&[(10, 20)]);
    faults[408].length = 0;
    holds("a clash and an empty segment of 409", &faults, none(18));
    faults[300].kind = 5;
    holds("a clash, an empty segment and a kind not known of 409", &faults, none(17));
}

/// Examples 7 and 12, and the dump of the printed record.
fn stores(api: &dyn Interface, expect: &mut Expect) {
    let time = |nanoseconds| Time { seconds: 10, nanoseconds };
    expect("example 7, times", api.later(time(5), time(4)) && !api.later(time(4), time(5)));
    let (mut front, mut back) = (vec![0; COPY], vec![0; COPY]);
    let number = api.format(&mut front, &mut back, DEVICE, UUID, UUID, time(5), &RECORD).number;
    let found = api.discover(&front, &back);
    expect("found", number == 0 && found.number() == 0);
    let numbers = (found.side, found.area, found.bytes, found.time, found.other);
    expect("found front a 28 10 5 both", numbers == (0, 0, 28, time(5), 0));
    expect(
        "the found block",
        found.block.device == DEVICE && found.block.pool == *UUID && found.block.b == Default::default(),
    );
    let segments: Vec<Segment> = (0..26).map(|i| Segment { kind: 1, start: 2_048 + i, length: 1 }).collect();
    let count = |segments: &[Segment], time: Time| {
        let record = encode(segments);
        let answer = api.update_plan(&front, &back, time, &record);
        let count = if answer.number() == 0 { api.update_count(answer.plan) } else { 0 };
        (answer.number(), record.len(), count)
    };
    expect("example 12, 4 stores", count(&segments[..25], time(6)) == (0, 508, 4));
    expect("example 12, 6 stores", count(&segments, time(6)) == (0, 528, 6));
    expect("example 7", count(&segments, time(4)).0 == 14 && count(&segments, time(5)).0 == 14);
}

/// An update of the printed record, store by store: sectors, flushes, and what is left in memory.
fn worked(api: &dyn Interface, expect: &mut Expect) {
    let time = |seconds| Time { seconds, nanoseconds: 0 };
    let (mut front, mut back) = (vec![0; COPY], vec![0; COPY]);
    api.format(&mut front, &mut back, DEVICE, UUID, UUID, time(10), &RECORD[..8]);
    expect("stores of formatting", api.format_count() == 80);
    let mut bytes = [0; SECTOR];
    let mut format = |number| {
        let answer = api.format_store(DEVICE, &front, &back, number, &mut bytes);
        (answer.number(), answer.sector, answer.flush)
    };
    expect("back's areas", format(0) == (0, 2_095_104, false) && format(31) == (0, 2_096_124 + 15, true));
    expect("back's header", format(32) == (0, 2_097_144, false) && format(39) == (0, 2_097_151, true));
    expect("front's areas", format(40) == (0, 8, false) && format(71) == (0, 1_028 + 15, true));
    expect("front's header", format(72) == (0, 0, false) && format(79) == (0, 7, true));
    expect("no further store", format(80) == (23, 0, false));

    let plan = api.update_plan(&front, &back, time(11), &RECORD).plan;
    expect("areas", (plan.front, plan.back) == (1, 1));
    let entry = plan.entry;
    let fields = (entry.seconds, entry.nanoseconds, entry.bytes, entry.checksum);
    expect("entry", fields == (11, 0, 28, api.checksum(&RECORD)));
    let sectors = [1_028, 1, 2_096_124, 2_097_145];
    for (number, sector) in (0..).zip(sectors) {
        let answer = api.update_store(plan, &front, &back, &RECORD, number, &mut bytes);
        expect("store", (answer.number(), answer.sector, answer.flush) == (0, sector, true));
        let applied = api.apply(DEVICE, sector, &bytes, &mut front, &mut back);
        expect("applied", applied.number == 0);
    }
    let found = api.discover(&front, &back);
    expect("updated in memory", found.number() == 0 && found.time == time(11) && api.in_step(&front, &back).in_step);
    expect("the same in both", front == back);
}

/// Sectors that could not be read, one at a time: of copies with a record of 8 bytes in area a, and a later one of 28 in area b.
fn unread(api: &dyn Interface, expect: &mut Expect) {
    let time = |seconds| Time { seconds, nanoseconds: 0 };
    let (mut front, mut back) = (vec![0; COPY], vec![0; COPY]);
    api.format(&mut front, &mut back, DEVICE, UUID, UUID, time(10), &RECORD[..8]);
    let matter = |front: &[u8], back: &[u8]| -> Vec<usize> {
        let settled = |sector: usize| {
            let mut marks = [0; 80];
            marks[sector] = 1;
            api.settled(front, back, &marks[..40], &marks[40..])
        };
        (0..80).filter(|&sector| !settled(sector)).collect()
    };
    expect("unread, a record in area a", matter(&front, &back) == [1, 8, 41, 48]);
    let plan = api.update_plan(&front, &back, time(11), &RECORD).plan;
    for number in 0..4 {
        let mut bytes = [0; SECTOR];
        let answer = api.update_store(plan, &front, &back, &RECORD, number, &mut bytes);
        api.apply(DEVICE, answer.sector, &bytes, &mut front, &mut back);
    }
    expect("unread, a later record in area b", matter(&front, &back) == [1, 24, 41, 64]);
    front[24 * SECTOR] ^= 1;
    expect("unread, the later record torn in the front", matter(&front, &back) == [1, 8, 24, 41, 64]);
    expect("unread, a slice that is no copy", matter(&front[1..], &back) == [1, 41, 64]);
    expect("unread, no copies", matter(&[], &[]) == [1, 41]);
    let marks = [0; 41];
    let settled = |first, second| api.settled(&front, &back, &marks[..first], &marks[..second]);
    expect("marks enough", settled(25, 25) && settled(40, 40) && settled(41, 41));
    expect("marks too few", !settled(24, 25) && !settled(25, 24) && !settled(0, 40) && !settled(40, 0));

    // S of 0 in the front's block, then L and R of 2^32 - 1 too: the lowest number that applies.
    let mut bytes = [0; SECTOR];
    let mut numbers = |front: &[u8]| -> Vec<u64> {
        let mut store = |number| api.update_store(plan, front, &back, &RECORD, number, &mut bytes).number();
        (0..5).map(&mut store).collect()
    };
    let (sectors, sizes) = (SECTOR + 20..SECTOR + 28, SECTOR + 160..SECTOR + 168);
    let right = front[sectors.clone()].to_vec();
    front[sectors.clone()].fill(0);
    front[sizes.clone()].fill(0xff);
    expect("stores where S, L and R are not allowed", numbers(&front) == [4, 4, 0, 0, 23]);
    front[sectors].copy_from_slice(&right);
    expect("stores where L and R are not allowed", numbers(&front) == [7, 7, 0, 0, 23]);
    front[sizes.start..sizes.start + 4].copy_from_slice(&DEVICE.metadata.to_le_bytes());
    front[SECTOR + 32] = b'g';
    expect("stores where R and a UUID are not allowed", numbers(&front) == [8, 8, 0, 0, 23]);
    front[sizes].copy_from_slice(&[DEVICE.metadata.to_le_bytes(), [0; 4]].concat());
    expect("stores where a UUID is not allowed", numbers(&front) == [0, 6, 0, 0, 23]);
}

/// A copy in pieces whose two records are texts with published checksums, and a state that no call made.
fn received(api: &dyn Interface, expect: &mut Expect) {
    let texts: [&[u8]; 2] = [b"123456789", b"The quick brown fox jumps over the lazy dog"];
    let entry = |area: usize, checksum| EntryFields {
        seconds: 10 + area as u64,
        nanoseconds: 0,
        bytes: texts[area].len() as u32,
        checksum,
    };
    let (a, b) = (entry(0, 0xE306_9283), entry(1, 0x2262_0404));
    let block = BlockFields { device: DEVICE, a, b, pool: *UUID, blockdev: *UUID };
    let mut copy = vec![7; COPY];
    let written = api.block_write(block, &mut copy[512..1_024]).number;
    copy[4_096..4_105].copy_from_slice(texts[0]);
    copy[12_288..12_331].copy_from_slice(texts[1]);
    let fresh = Received { taken: 0, block: [0; SECTOR], a: 0, b: 0 };
    expect("begun", written == 0 && api.receive_begin() == fresh);

    // The state after so many bytes, in one piece.
    let after = |count: usize| api.receive_piece(fresh, &copy[..count]);
    let full: [u8; SECTOR] = copy[512..1_024].try_into().expect("a block");
    let mut half = [0; SECTOR];
    half[..100].copy_from_slice(&full[..100]);
    let kept = |taken, block, a, b| Received { taken, block, a, b };
    expect("before the block", after(512).received == kept(512, [0; SECTOR], 0, 0));
    expect("in the block", after(612).received == kept(612, half, 0, 0));
    expect("before area a", after(4_096).received == kept(4_096, full, 0, 0));
    expect("after area a", after(4_105).received == kept(4_105, full, 0xE306_9283, 0));
    expect("before area b", after(12_288).received == kept(12_288, full, 0xE306_9283, 0));
    expect("after area b", after(12_331).received == kept(12_331, full, 0xE306_9283, 0x2262_0404));
    let last = after(COPY);
    expect("at the end", last.number() == 0 && last.received == kept(COPY, full, 0xE306_9283, 0x2262_0404));
    let ended = api.receive_end(last.received);
    expect("ended", ended == api.copy_read(&copy) && ended.block == block && ended.number() == 0);
    expect("what is whole", ended.a_whole && ended.b_whole && ended.present == 2);

    // Each area in two pieces, and no more bytes than a copy has.
    let mut state = fresh;
    for piece in [&copy[..4_100], &copy[4_100..12_300], &copy[12_300..20_479]] {
        state = api.receive_piece(state, piece).received;
    }
    expect("in pieces", state == kept(20_479, full, 0xE306_9283, 0x2262_0404));
    expect("one byte too few", api.receive_end(state).number() == 1 && !api.receive_end(state).a_whole);
    let long = api.receive_piece(state, &[7, 7]);
    expect("one byte too many", long.number() == 1 && long.received == state);
    expect("the last byte", api.receive_piece(long.received, &[7]).received == last.received);
    let more = api.receive_piece(last.received, &[7]);
    expect("one byte after the last", more.number() == 1 && more.received == last.received);
    let nothing = api.receive_piece(last.received, &[]);
    expect("nothing after the last", nothing.number() == 0 && nothing.received == last.received);

    // The published 32 zero bytes in area a, after a block that is none; its entries have 32 and 8,193 bytes.
    let mut made = kept(4_000, [0; SECTOR], 0, 5);
    (made.block[108], made.block[140], made.block[141]) = (32, 1, 32);
    let next = api.receive_piece(made, &[0; 16_480]);
    expect("a state that no call made", next.received == Received { taken: COPY, a: 0x8A91_36AA, ..made });
    expect("its end", api.receive_end(next.received).number() == 2);
    for taken in [COPY + 1, 1 << 32, usize::MAX - 1, usize::MAX] {
        let past = Received { taken, ..made };
        let answers = [0, 1, 2, 3].map(|length| api.receive_piece(past, &copy[..length]));
        expect("taken past the end", answers.iter().all(|answer| answer.number() == 1 && answer.received == past));
        expect("ended past the end", api.receive_end(Received { taken, ..last.received }).number() == 1);
    }
}
