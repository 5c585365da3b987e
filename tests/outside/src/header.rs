//! The declarations of the library's functions, its structs, its numbers and its sizes are those of the C header.

use std::mem::size_of;

use crate::interface::*;
use crate::model::apply::format_count;
use crate::model::block::MAX_NANOSECONDS;
use crate::model::layout::{AREA_OFFSET, BACK, BLOCK_OFFSET, COPY, FRONT, RECORD_LIMIT, SECTOR};
use crate::model::record::{
    is_block_size, Head, HEAD_BYTES, MARKED_HEAD_BYTES, MARKED_KIND, MAX_SEGMENTS, PLAIN_KIND, SEGMENT_BYTES,
};
use crate::model::refusal::{Clash, Refusal};
use crate::model::settled::COPY_SECTORS;
use crate::model::Model;

const HEADER: &str = include_str!("../../../include/amseokbin.h");
const SIZES: &str = include_str!("../../sizes.c");
/// Where the structs are in Rust.
const STRUCTS: [&str; 3] =
    [include_str!("structs.rs"), include_str!("model/layout.rs"), include_str!("model/block.rs")];

macro_rules! structs {
    ($(($c:literal, $rust:ident, $size:literal)),* $(,)?) => {
        /// Each struct: its name in C after `amseokbin_`, its name in Rust, and its size in bytes, as tests/sizes.c has it too.
        const NAMES: &[(&str, &str, usize)] = &[$(($c, stringify!($rust), $size)),*];

        #[test]
        fn sizes_are_those_of_c() {
            $(assert_eq!(size_of::<$rust>(), $size, "{}", $c);)*
        }
    };
}

structs![
    ("refusal", Refused, 24),
    ("device", Device, 16),
    ("time", Time, 16),
    ("entry", EntryFields, 24),
    ("block", BlockFields, 128),
    ("copy_map", CopyMap, 40),
    ("device_map", DeviceMap, 96),
    ("segment", SegmentFields, 24),
    ("run", FreeRun, 16),
    ("words", Words, 88),
    ("blocks_answer", BlocksAnswer, 40),
    ("places_answer", PlacesAnswer, 120),
    ("block_answer", BlockAnswer, 152),
    ("copy_answer", CopyAnswer, 160),
    ("received", Received, 528),
    ("receive_answer", ReceiveAnswer, 552),
    ("found_answer", FoundAnswer, 176),
    ("step_answer", StepAnswer, 32),
    ("store_answer", StoreAnswer, 40),
    ("update", UpdatePlan, 32),
    ("update_answer", UpdateAnswer, 56),
    ("mend", MendPlan, 8),
    ("mend_answer", MendAnswer, 32),
    ("head_answer", HeadAnswer, 48),
    ("segment_answer", SegmentAnswer, 48),
    ("count_answer", CountAnswer, 32),
    ("length_answer", LengthAnswer, 32),
    ("total_answer", TotalAnswer, 32),
    ("run_answer", RunAnswer, 40),
    ("allocation_answer", AllocationAnswer, 40),
];

/// Between two pieces of a copy at most 1,024 bytes are kept.
#[test]
fn no_more_is_kept_between_pieces() {
    assert!(size_of::<Received>() <= 1_024);
}

/// The header without comments and without what is for C++ alone.
fn code() -> String {
    let mut parts = HEADER.split("/*");
    let mut code = parts.next().unwrap_or_default().to_string();
    for part in parts {
        code.push_str(part.split_once("*/").map_or("", |(_, rest)| rest));
    }
    let mut parts = code.split("#ifdef __cplusplus");
    let mut plain = parts.next().unwrap_or_default().to_string();
    for part in parts {
        plain.push_str(part.split_once("#endif").map_or("", |(_, rest)| rest));
    }
    plain
}

/// The header's statements: what ends with a semicolon outside of braces.
fn statements() -> Vec<String> {
    let code = code();
    let lines = code.lines().filter(|line| !line.trim_start().starts_with('#'));
    let (mut statements, mut statement, mut depth) = (Vec::new(), String::new(), 0);
    for character in lines.flat_map(|line| line.chars().chain([' '])) {
        match character {
            '{' => depth += 1,
            '}' => depth -= 1,
            ';' if depth == 0 => {
                statements.push(statement.split_whitespace().collect::<Vec<_>>().join(" "));
                statement.clear();
                continue;
            }
            _ => {}
        }
        statement.push(character);
    }
    assert_eq!((depth, statement.trim()), (0, ""), "the header does not end with a statement");
    statements
}

/// `uint8_t name(const uint8_t *bytes, size_t length)` as `fnname(bytes:*constu8,length:usize)->u8`.
fn function(statement: &str) -> Option<String> {
    let (before, arguments) = statement.split_once('(')?;
    let arguments = arguments.strip_suffix(')')?;
    let (answer, name) = before.rsplit_once(' ')?;
    let arguments: Vec<String> = match arguments {
        "void" => Vec::new(),
        _ => arguments.split(',').map(|text| declared(text.trim())).collect(),
    };
    Some(format!("fn{name}({})->{}", arguments.join(","), rust_type(answer)))
}

/// `struct amseokbin_run { uint64_t start; uint64_t sectors; }` as `structFreeRun{start:u64,sectors:u64}`.
fn structure(statement: &str) -> Option<String> {
    let (name, fields) = statement.strip_prefix("struct ")?.split_once('{')?;
    let fields = fields.strip_suffix('}')?;
    let fields: Vec<String> = fields.split(';').map(str::trim).filter(|f| !f.is_empty()).map(declared).collect();
    Some(format!("struct{}{{{}}}", rust_type(&format!("struct {}", name.trim())), fields.join(",")))
}

/// An argument or a field: a type and a name, perhaps with a star before it or a length after it.
fn declared(text: &str) -> String {
    let (text, length) = match text.split_once('[') {
        Some((text, length)) => (text, Some(length.trim_end_matches(']'))),
        None => (text, None),
    };
    let (kind, name) = text.rsplit_once([' ', '*']).expect("a type and a name");
    let plain = rust_type(kind.trim_start_matches("const ").trim_end_matches([' ', '*']));
    match (text.contains('*'), kind.starts_with("const "), length) {
        (false, false, None) => format!("{name}:{plain}"),
        (false, false, Some(length)) => {
            format!("{name}:[{plain};{}]", length.strip_prefix("AMSEOKBIN_").expect("a length by its name"))
        }
        (true, true, None) => format!("{name}:*const{plain}"),
        (true, false, None) => format!("{name}:*mut{plain}"),
        _ => panic!("not known: {text}"),
    }
}

fn rust_type(c_type: &str) -> &str {
    match c_type {
        "uint8_t" => "u8",
        "uint16_t" => "u16",
        "uint32_t" => "u32",
        "uint64_t" => "u64",
        "size_t" => "usize",
        "bool" => "bool",
        _ => {
            let name = c_type.strip_prefix("struct amseokbin_").unwrap_or(c_type);
            NAMES.iter().find(|(c, ..)| *c == name).unwrap_or_else(|| panic!("no struct for {c_type}")).1
        }
    }
}

fn plain(text: &str) -> String {
    text.split_whitespace().collect::<String>().replace(",)", ")").replace(",}", "}")
}

/// Each declaration in the first `extern "C"` of the source, without blanks.
fn functions_of(source: &str) -> Vec<String> {
    let block = source.split_once("extern \"C\" {").map_or("", |(_, rest)| rest);
    let block = block.split_once("\n}").map_or("", |(block, _)| block);
    block.split(';').map(plain).filter(|text| !text.is_empty()).collect()
}

/// Each struct of the source that is laid out as in C, without blanks, comments and attributes.
fn structs_of(source: &str) -> Vec<String> {
    let parts = source.split("#[repr(C)]\n").skip(1);
    let whole = parts.map(|part| part.split_once("\n}").map_or("", |(whole, _)| whole));
    let is_code = |line: &&str| !line.trim_start().starts_with("///") && !line.starts_with("#[");
    whole
        .map(|whole| whole.lines().filter(is_code).map(|line| line.replace("pub ", "")).collect::<String>() + "}")
        .map(|whole| plain(&whole))
        .collect()
}

#[test]
fn declarations_are_those_of_the_header() {
    let statements = statements();
    let header: Vec<String> = statements.iter().filter_map(|statement| function(statement)).collect();
    assert_eq!(header.len(), 49, "the header could not be read");
    assert_eq!(header, functions_of(include_str!("ffi.rs")));
}

#[test]
fn structs_are_those_of_the_header() {
    let statements = statements();
    let mut header: Vec<String> = statements.iter().filter_map(|statement| structure(statement)).collect();
    assert_eq!(header.len(), NAMES.len(), "the table has other structs than the header");
    let mut source: Vec<String> = STRUCTS.iter().flat_map(|source| structs_of(source)).collect();
    header.sort();
    source.sort();
    assert_eq!(header, source);
}

/// The example in Rust repeats some of the header, with names of its own.
#[test]
fn the_example_is_as_the_header() {
    let example = include_str!("../../../examples/discover.rs");
    let own = [("Refused", "Refusal"), ("EntryFields", "Entry"), ("BlockFields", "Block"), ("FoundAnswer", "Found")];
    let renamed = |text: String| own.iter().fold(text, |text, (ours, own)| text.replace(ours, own));
    let statements = statements();
    let structs: Vec<String> = statements.iter().filter_map(|statement| structure(statement)).map(renamed).collect();
    let functions: Vec<String> = statements.iter().filter_map(|statement| function(statement)).map(renamed).collect();
    let (own_structs, own_functions) = (structs_of(example), functions_of(example));
    assert_eq!((own_structs.len(), own_functions.len()), (7, 2), "the example could not be read");
    for structure in own_structs {
        assert!(structs.contains(&structure), "not as in the header: {structure}");
    }
    for function in own_functions {
        assert!(functions.contains(&function), "not as in the header: {function}");
    }
}

#[test]
fn every_statement_of_the_header_was_read() {
    for statement in statements() {
        let known = function(&statement).is_some() || structure(&statement).is_some() || statement.starts_with("enum ");
        assert!(known, "not read: {statement}");
    }
}

/// tests/sizes.c has the sizes of the table, and a line for each field.
#[test]
fn sizes_in_c_are_those_of_the_table() {
    for (name, _, size) in NAMES {
        let line = format!("SIZE({name}, {size});");
        assert!(SIZES.contains(&line), "tests/sizes.c lacks {line}");
    }
    assert_eq!(SIZES.matches("    SIZE(").count(), NAMES.len(), "tests/sizes.c has sizes of other structs");
    for statement in statements().iter().filter(|statement| structure(statement).is_some()) {
        let (name, fields) = statement["struct amseokbin_".len()..].split_once(" {").expect("a struct");
        for field in fields.split(';').map(str::trim).filter(|field| *field != "}") {
            let field = field.split('[').next().and_then(|field| field.rsplit(' ').next()).expect("a field");
            let line = format!("AT({name}, {field}, ");
            assert!(SIZES.contains(&line), "tests/sizes.c lacks {line}..)");
        }
    }
}

/// The stack of every function is measured.
#[test]
fn every_function_is_in_stack_c() {
    let stack = include_str!("../../stack.c");
    for declaration in statements().iter().filter_map(|statement| function(statement)) {
        let name = declaration.trim_start_matches("fn").split('(').next().expect("a name");
        assert!(stack.contains(&format!("{name}(")), "tests/stack.c does not call {name}");
    }
}

/// Each name and number that the header defines or enumerates.
fn numbers() -> Vec<(String, u64)> {
    let code = code();
    let defines = code.lines().filter_map(|line| {
        let (name, value) = line.strip_prefix("#define AMSEOKBIN_")?.split_once(' ')?;
        let value = value.trim().trim_end_matches('u').parse().ok()?;
        Some((name.to_string(), value))
    });
    let statements = statements();
    let enums = statements.iter().filter_map(|statement| statement.strip_prefix("enum "));
    let enumerators = enums.flat_map(|text| {
        let (_, list) = text.split_once('{').expect("an enum with its list");
        let list = list.trim_end_matches('}').split(',').map(str::trim).filter(|item| !item.is_empty());
        list.map(|item| {
            let (name, value) = item.split_once('=').expect("a name and its number");
            let name = name.trim().strip_prefix("AMSEOKBIN_").expect("a name of the header");
            (name.to_string(), value.trim().parse().expect("a number"))
        })
    });
    defines.chain(enumerators).collect()
}

/// The header's numbers are those of the independent implementation, all of them.
#[test]
fn numbers_are_those_of_the_header() {
    let sizes = [
        ("VERSION_MAJOR", 0),
        ("VERSION_MINOR", 4),
        ("SECTOR", SECTOR),
        ("COPY", COPY),
        ("BLOCK_OFFSET", BLOCK_OFFSET),
        ("AREA_A_OFFSET", AREA_OFFSET[0]),
        ("AREA_B_OFFSET", AREA_OFFSET[1]),
        ("UUID", UUID),
        ("RECORD", RECORD_LIMIT),
        ("HEAD", HEAD_BYTES),
        ("MARKED_HEAD", MARKED_HEAD_BYTES),
        ("SEGMENT", SEGMENT_BYTES),
        ("WORDS", WORDS),
        ("LEAST_SECTORS", Device::MIN_SECTORS as usize),
        ("LEAST_METADATA", Device::MIN_METADATA as usize),
        ("MOST_METADATA", Device::MAX_METADATA as usize),
        ("MOST_RESERVED", Device::MAX_RESERVED as usize),
        ("LEAST_BLOCK_SIZE", 128),
        ("MOST_BLOCK_SIZE", 2_097_152),
        ("COPY_SECTORS", COPY_SECTORS),
        ("MOST_NANOSECONDS", MAX_NANOSECONDS as usize),
        ("MOST_SEGMENTS", MAX_SEGMENTS),
        ("MOST_RUNS", MAX_SEGMENTS + 1),
        ("SEGMENT_TABLE", 3 * MAX_SEGMENTS),
        ("MOST_UPDATE_STORES", 2 * RECORD_LIMIT / SECTOR + 2),
        ("MOST_MEND_STORES", RECORD_LIMIT / SECTOR + 3),
        ("FORMAT_STORES", format_count() as usize),
        ("NO_GROUP", usize::from(NO_GROUP)),
        ("FRONT", FRONT),
        ("BACK", BACK),
        ("AREA_A", 0),
        ("AREA_B", 1),
        ("PRESENT_NONE", 0),
        ("PRESENT_A", 1),
        ("PRESENT_B", 2),
        ("THIN_METADATA", 1),
        ("THIN_DATA", 2),
        ("SPARE", 3),
        ("METADATA_VOLUME", 4),
        ("HEAD_PLAIN", usize::from(PLAIN_KIND)),
        ("HEAD_MARKED", usize::from(MARKED_KIND)),
    ];
    let refusals = [
        ("SLICE_SIZE", Refusal::SliceSize),
        ("SIGNATURE", Refusal::Signature),
        ("BLOCK_CHECKSUM", Refusal::BlockCrc),
        ("DEVICE_SIZE", Refusal::DeviceSize),
        ("NOT_ZERO", Refusal::NotZero),
        ("UUID_BYTE", Refusal::UuidByte),
        ("METADATA_SIZE", Refusal::MetadataSize),
        ("RESERVED_SIZE", Refusal::ReservedSize),
        ("AREA_ENTRY", Refusal::AreaEntry),
        ("NO_BLOCK", Refusal::NoBlock),
        ("IDENTITY", Refusal::Identity),
        ("NO_RECORD", Refusal::NoRecord),
        ("TWO_RECORDS", Refusal::TwoRecords),
        ("NOT_LATER", Refusal::NotLater),
        ("RECORD_LENGTH", Refusal::RecordLength),
        ("NOT_IN_STEP", Refusal::NotInStep),
        ("RECORD_FORM", Refusal::RecordForm),
        ("SEGMENT_PLACE", Refusal::SegmentPlace),
        ("SEGMENT_CLASH", Refusal::SegmentClash(Clash { first: 0, second: 1 })),
        ("NO_ROOM", Refusal::NoRoom),
        ("RECORD_FULL", Refusal::RecordFull),
        ("NO_SEGMENT", Refusal::NoSegment),
        ("NO_STORE", Refusal::NoStore),
        ("HEAD_MOVE", Refusal::HeadMove),
    ];
    let mut ours: Vec<(String, u64)> = sizes.map(|(name, size)| (name.to_string(), size as u64)).to_vec();
    ours.push(("OK".to_string(), 0));
    ours.extend(refusals.map(|(name, refusal)| (name.to_string(), refusal.number().into())));
    let mut header = numbers();
    header.sort();
    ours.sort();
    assert_eq!(header, ours);
    assert_eq!(Model.version(), 4);
    // The header has one number for both kinds of heads.
    assert_eq!([Head::plain(128), Head::marked(128, 0)].map(|head| head.most_segments()), [MAX_SEGMENTS; 2]);
    assert!([128, 2_097_152].into_iter().all(is_block_size) && !is_block_size(127) && !is_block_size(2_097_280));
}

/// The words beside each refusal number in the header are those that it has, without a limit's value.
#[test]
fn words_are_those_of_the_header() {
    let list = HEADER.split_once("enum amseokbin_number {").and_then(|(_, rest)| rest.split_once("};"));
    let list = list.expect("the refusal numbers").0;
    let mut lines = 0;
    for line in list.lines().filter(|line| line.contains("/*")) {
        let (left, comment) = line.split_once("/*").expect("a comment");
        let comment = comment.trim_end_matches("*/").trim();
        let comment = comment.split(", AMSEOKBIN_").next().unwrap_or_default();
        let number = left.split_once('=').expect("a number").1.trim().trim_end_matches(',').parse().expect("a number");
        let words = Model.refusal_words(number);
        assert_eq!(comment.as_bytes(), words.text(), "words of {number}");
        lines += 1;
    }
    assert_eq!(lines, 24);
}
