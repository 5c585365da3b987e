/* The header's structs are those of the archive. The archive says nothing about sizes, so every struct goes in or comes out of a call
 * with known values, each field another, and every field is looked at. The sizes and the places of the fields stand here as numbers;
 * tests/outside/src/header.rs holds its own structs to the same. Prints a line; fails where something differs. */
#include <stddef.h>
#include <stdio.h>
#include <string.h>

#include "amseokbin.h"

static int looked_at, failed;

static void look(int holds, const char *what, int line)
{
    looked_at++;
    if (!holds) {
        fprintf(stderr, "sizes.c:%d: not so: %s\n", line, what);
        failed++;
    }
}

#define LOOK(holds) look((holds) ? 1 : 0, #holds, __LINE__)
#define SIZE(name, size) look(sizeof(struct amseokbin_##name) == (size), "sizeof " #name " is " #size, __LINE__)
#define AT(name, field, place) \
    look(offsetof(struct amseokbin_##name, field) == (place), #name "." #field " at " #place, __LINE__)
/* A flag is the byte 0 or 1. */
#define FLAG(flag, value) look(byte_of(&(flag)) == (value), #flag " is " #value, __LINE__)
#define OK(refusal) look(is_ok(refusal), #refusal " is 0", __LINE__)
#define CLASH(refusal) look(is_clash(refusal), #refusal " is 19 with the pair", __LINE__)

static int byte_of(const bool *flag)
{
    unsigned char byte;
    memcpy(&byte, flag, 1);
    return byte;
}

static int is_ok(struct amseokbin_refusal r) { return r.number == 0 && r.first == 0 && r.second == 0; }
/* The pair of the record that `clashes` makes. */
static int is_clash(struct amseokbin_refusal r) { return r.number == 19 && r.first == 257 && r.second == 402; }

static void sizes(void)
{
    SIZE(refusal, 24);
    AT(refusal, number, 0), AT(refusal, first, 8), AT(refusal, second, 16);
    SIZE(device, 16);
    AT(device, sectors, 0), AT(device, metadata, 8), AT(device, reserved, 12);
    SIZE(time, 16);
    AT(time, seconds, 0), AT(time, nanoseconds, 8);
    SIZE(entry, 24);
    AT(entry, seconds, 0), AT(entry, nanoseconds, 8), AT(entry, bytes, 12), AT(entry, checksum, 16);
    SIZE(block, 128);
    AT(block, device, 0), AT(block, a, 16), AT(block, b, 40), AT(block, pool, 64), AT(block, blockdev, 96);
    SIZE(copy_map, 40);
    AT(copy_map, header, 0), AT(copy_map, block, 8), AT(copy_map, a, 16), AT(copy_map, b, 24);
    AT(copy_map, reserved, 32);
    SIZE(device_map, 96);
    AT(device_map, front, 0), AT(device_map, back, 40), AT(device_map, start, 80), AT(device_map, end, 88);
    SIZE(segment, 24);
    AT(segment, kind, 0), AT(segment, start, 8), AT(segment, sectors, 16);
    SIZE(run, 16);
    AT(run, start, 0), AT(run, sectors, 8);
    SIZE(words, 88);
    AT(words, bytes, 0), AT(words, used, 80);
    SIZE(blocks_answer, 40);
    AT(blocks_answer, refusal, 0), AT(blocks_answer, front, 24), AT(blocks_answer, back, 32);
    SIZE(places_answer, 120);
    AT(places_answer, refusal, 0), AT(places_answer, map, 24);
    SIZE(block_answer, 152);
    AT(block_answer, refusal, 0), AT(block_answer, block, 24);
    SIZE(copy_answer, 160);
    AT(copy_answer, refusal, 0), AT(copy_answer, block, 24), AT(copy_answer, a_whole, 152);
    AT(copy_answer, b_whole, 153), AT(copy_answer, present, 154);
    SIZE(received, 528);
    AT(received, taken, 0), AT(received, block, 8), AT(received, a, 520), AT(received, b, 524);
    /* The most that the state between two pieces of a copy may be. */
    LOOK(sizeof(struct amseokbin_received) <= 1024);
    SIZE(receive_answer, 552);
    AT(receive_answer, refusal, 0), AT(receive_answer, received, 24);
    SIZE(found_answer, 176);
    AT(found_answer, refusal, 0), AT(found_answer, side, 24), AT(found_answer, area, 25), AT(found_answer, other, 26);
    AT(found_answer, bytes, 28), AT(found_answer, time, 32), AT(found_answer, block, 48);
    SIZE(step_answer, 32);
    AT(step_answer, refusal, 0), AT(step_answer, in_step, 24);
    SIZE(store_answer, 40);
    AT(store_answer, refusal, 0), AT(store_answer, sector, 24), AT(store_answer, flush, 32);
    SIZE(update, 32);
    AT(update, entry, 0), AT(update, front, 24), AT(update, back, 25);
    SIZE(update_answer, 56);
    AT(update_answer, refusal, 0), AT(update_answer, plan, 24);
    SIZE(mend, 8);
    AT(mend, bytes, 0), AT(mend, needed, 4), AT(mend, kept, 5), AT(mend, area, 6), AT(mend, last, 7);
    SIZE(mend_answer, 32);
    AT(mend_answer, refusal, 0), AT(mend_answer, plan, 24);
    SIZE(head_answer, 48);
    AT(head_answer, refusal, 0), AT(head_answer, kind, 24), AT(head_answer, block_size, 28);
    AT(head_answer, low_water, 32), AT(head_answer, segments, 40);
    SIZE(segment_answer, 48);
    AT(segment_answer, refusal, 0), AT(segment_answer, segment, 24);
    SIZE(count_answer, 32);
    AT(count_answer, refusal, 0), AT(count_answer, count, 24);
    SIZE(length_answer, 32);
    AT(length_answer, refusal, 0), AT(length_answer, length, 24);
    SIZE(total_answer, 32);
    AT(total_answer, refusal, 0), AT(total_answer, sectors, 24);
    SIZE(run_answer, 40);
    AT(run_answer, refusal, 0), AT(run_answer, run, 24);
    SIZE(allocation_answer, 40);
    AT(allocation_answer, refusal, 0), AT(allocation_answer, start, 24), AT(allocation_answer, length, 32);
}

static uint8_t front[AMSEOKBIN_COPY], back[AMSEOKBIN_COPY], bytes[AMSEOKBIN_SECTOR];
static uint8_t record[AMSEOKBIN_RECORD], changed[AMSEOKBIN_RECORD], clash[AMSEOKBIN_RECORD];
static const uint8_t pool[] = "0123456789abcdef0123456789abcdef", blockdev[] = "fedcba9876543210fedcba9876543210";
static const uint8_t marks[AMSEOKBIN_COPY_SECTORS], unread[AMSEOKBIN_COPY_SECTORS] = {[24] = 2};
static const struct amseokbin_device device = {3000000, 2044, 7};

#define COPIES front, sizeof front, back, sizeof back

/* A number of the layout, lowest byte first. */
static uint64_t number_at(const uint8_t *at, int count)
{
    uint64_t value = 0;
    while (count-- > 0)
        value = value << 8 | at[count];
    return value;
}

static int same_block(struct amseokbin_block x, struct amseokbin_block y)
{
    return x.device.sectors == y.device.sectors && x.device.metadata == y.device.metadata &&
           x.device.reserved == y.device.reserved && x.a.seconds == y.a.seconds && x.a.nanoseconds == y.a.nanoseconds &&
           x.a.bytes == y.a.bytes && x.a.checksum == y.a.checksum && x.b.seconds == y.b.seconds &&
           x.b.nanoseconds == y.b.nanoseconds && x.b.bytes == y.b.bytes && x.b.checksum == y.b.checksum &&
           memcmp(x.pool, y.pool, sizeof x.pool) == 0 && memcmp(x.blockdev, y.blockdev, sizeof x.blockdev) == 0;
}

static void small(void)
{
    struct amseokbin_words w = amseokbin_refusal_words(AMSEOKBIN_NO_BLOCK);
    struct amseokbin_time early = {7, 900000000}, late = {8, 100000000};
    struct amseokbin_blocks_answer b = amseokbin_locate_blocks(3000000);
    struct amseokbin_places_answer p = amseokbin_places(device);
    struct amseokbin_refusal r = amseokbin_record_begin(record, sizeof record, 1);
    struct amseokbin_device odd = {3000000, 2045, 7}, large = {3000000, 2044, 65537};

    LOOK(amseokbin_version() == AMSEOKBIN_VERSION);
    LOOK(w.used == 32 && memcmp(w.bytes, "neither copy's block is accepted", 33) == 0 && w.bytes[79] == 0);
    LOOK(amseokbin_later(late, early)), LOOK(!amseokbin_later(early, late));
    LOOK(amseokbin_checksum((const uint8_t *)"123456789", 9) == 0xe3069283u);
    LOOK(r.number == AMSEOKBIN_RECORD_FORM && r.first == 0 && r.second == 0);
    OK(b.refusal), LOOK(b.front == 1 && b.back == 2999993);
    b = amseokbin_locate_blocks(1);
    LOOK(b.refusal.number == AMSEOKBIN_DEVICE_SIZE && b.refusal.first == 0 && b.refusal.second == 0);
    LOOK(b.front == 0 && b.back == 0);
    OK(p.refusal);
    LOOK(p.map.front.header == 0), LOOK(p.map.front.block == 1), LOOK(p.map.front.a == 8);
    LOOK(p.map.front.b == 1030), LOOK(p.map.front.reserved == 2052);
    LOOK(p.map.back.header == 2999992), LOOK(p.map.back.block == 2999993), LOOK(p.map.back.a == 2997948);
    LOOK(p.map.back.b == 2998970), LOOK(p.map.back.reserved == 2997941);
    LOOK(p.map.start == 2059), LOOK(p.map.end == 2997941);
    LOOK(amseokbin_places(odd).refusal.number == AMSEOKBIN_METADATA_SIZE);
    LOOK(amseokbin_places(large).refusal.number == AMSEOKBIN_RESERVED_SIZE);
}

static void blocks(void)
{
    struct amseokbin_block block = {
        {0x0102030405060708, 2044, 7},
        {0x1112131415161718, 123456789, 29, 0xa1a2a3a4},
        {0x2122232425262728, 987654321, 31, 0xb1b2b3b4},
        {0},
        {0},
    };
    struct amseokbin_block_answer read;

    memcpy(block.pool, pool, sizeof block.pool), memcpy(block.blockdev, blockdev, sizeof block.blockdev);
    OK(amseokbin_block_write(block, bytes, sizeof bytes));
    LOOK(number_at(bytes + 20, 8) == 0x0102030405060708);
    LOOK(memcmp(bytes + 32, pool, 32) == 0), LOOK(memcmp(bytes + 64, blockdev, 32) == 0);
    LOOK(number_at(bytes + 96, 8) == 0x1112131415161718), LOOK(number_at(bytes + 104, 4) == 123456789);
    LOOK(number_at(bytes + 108, 4) == 29), LOOK(number_at(bytes + 112, 4) == 0xa1a2a3a4);
    LOOK(number_at(bytes + 128, 8) == 0x2122232425262728), LOOK(number_at(bytes + 136, 4) == 987654321);
    LOOK(number_at(bytes + 140, 4) == 31), LOOK(number_at(bytes + 144, 4) == 0xb1b2b3b4);
    LOOK(number_at(bytes + 160, 4) == 2044), LOOK(number_at(bytes + 164, 4) == 7);
    read = amseokbin_block_read(bytes, sizeof bytes);
    OK(read.refusal), LOOK(same_block(read.block, block));
}

static void records(void)
{
    struct amseokbin_segment one = {AMSEOKBIN_SPARE, 3000, 50}, two = {AMSEOKBIN_THIN_METADATA, 2100, 11};
    struct amseokbin_length_answer length;
    struct amseokbin_head_answer head;
    struct amseokbin_segment_answer segment;
    struct amseokbin_count_answer count;
    struct amseokbin_total_answer total;
    struct amseokbin_run_answer run;
    struct amseokbin_allocation_answer allocation;
    struct amseokbin_run table[4] = {{1, 2}, {3, 4}, {5, 6}, {7, 8}};
    uint64_t numbers[7] = {9, 9, 9, 9, 9, 9, 9};

    OK(amseokbin_record_begin(record, sizeof record, 256));
    length = amseokbin_record_put(record, sizeof record, 0, one);
    OK(length.refusal), LOOK(length.length == 28);
    length = amseokbin_record_put(record, sizeof record, 1, two);
    OK(length.refusal), LOOK(length.length == 48);
    LOOK(number_at(record + 8, 2) == 20 && number_at(record + 10, 2) == 3);
    LOOK(number_at(record + 12, 8) == 3000 && number_at(record + 20, 8) == 50);
    OK(amseokbin_record_check(device, record, 48));
    head = amseokbin_record_head(device, record, 48);
    OK(head.refusal), LOOK(head.kind == AMSEOKBIN_HEAD_PLAIN && head.low_water == 0);
    LOOK(head.block_size == 256 && head.segments == 2);
    segment = amseokbin_record_segment(device, record, 48, 1);
    OK(segment.refusal);
    LOOK(segment.segment.kind == 1 && segment.segment.start == 2100 && segment.segment.sectors == 11);
    count = amseokbin_record_segments(device, record, 48, 0, numbers, 7);
    OK(count.refusal), LOOK(count.count == 2);
    LOOK(numbers[0] == 3 && numbers[1] == 3000 && numbers[2] == 50);
    LOOK(numbers[3] == 1 && numbers[4] == 2100 && numbers[5] == 11 && numbers[6] == 9);
    total = amseokbin_free_total(device, record, 48);
    OK(total.refusal), LOOK(total.sectors == 2997941 - 2059 - 61);
    count = amseokbin_free_runs(device, record, 48, table, 4);
    OK(count.refusal), LOOK(count.count == 3);
    LOOK(table[0].start == 2059 && table[0].sectors == 41), LOOK(table[1].start == 2111 && table[1].sectors == 889);
    LOOK(table[2].start == 3050 && table[2].sectors == 2994891), LOOK(table[3].start == 7 && table[3].sectors == 8);
    count = amseokbin_run_count(device, record, 48);
    OK(count.refusal), LOOK(count.count == 3);
    run = amseokbin_run_at(device, record, 48, 1);
    OK(run.refusal), LOOK(run.run.start == 2111 && run.run.sectors == 889);
    run = amseokbin_first_fit(device, record, 48, 890);
    OK(run.refusal), LOOK(run.run.start == 3050 && run.run.sectors == 2994891);
    allocation = amseokbin_allocate(device, record, 48, AMSEOKBIN_THIN_DATA, 42, changed, sizeof changed);
    OK(allocation.refusal), LOOK(allocation.start == 2111 && allocation.length == 68);
    length = amseokbin_release(device, changed, 68, 0, changed + 100, 48);
    OK(length.refusal), LOOK(length.length == 48);
}

/* The record of `records` with a head of kind 17 and a mark of four different bytes. */
static void heads(void)
{
    const struct amseokbin_segment segment = {AMSEOKBIN_THIN_DATA, 2800, 9};
    struct amseokbin_length_answer length;
    struct amseokbin_head_answer head;

    memset(changed, 77, sizeof changed);
    length = amseokbin_head_up(device, record, 48, changed, sizeof changed);
    OK(length.refusal), LOOK(length.length == 52);
    LOOK(number_at(changed, 2) == 12 && number_at(changed + 2, 2) == 17 && number_at(changed + 4, 4) == 256);
    LOOK(number_at(changed + 8, 4) == 0 && memcmp(changed + 12, record + 8, 40) == 0 && changed[52] == 77);
    length = amseokbin_head_mark(device, changed, 52, 0xa1b2c3d4, clash, sizeof clash);
    OK(length.refusal), LOOK(length.length == 52 && number_at(clash + 8, 4) == 0xa1b2c3d4);
    head = amseokbin_record_head(device, clash, 52);
    OK(head.refusal), LOOK(head.kind == AMSEOKBIN_HEAD_MARKED && head.low_water == 0xa1b2c3d4);
    LOOK(head.block_size == 256 && head.segments == 2);
    length = amseokbin_head_back(device, clash, 52, bytes, sizeof bytes);
    LOOK(length.refusal.number == AMSEOKBIN_HEAD_MOVE && length.refusal.first == 0 && length.refusal.second == 0);
    LOOK(length.length == 0);
    length = amseokbin_head_back(device, changed, 52, bytes, sizeof bytes);
    OK(length.refusal), LOOK(length.length == 48 && memcmp(bytes, record, 48) == 0);
    length = amseokbin_head_mark(device, record, 48, 0, bytes, sizeof bytes);
    LOOK(length.refusal.number == AMSEOKBIN_RECORD_FORM && length.length == 0);
    OK(amseokbin_record_begin_marked(clash, sizeof clash, 384, 0xd4c3b2a1));
    LOOK(number_at(clash, 2) == 12 && number_at(clash + 2, 2) == 17);
    LOOK(number_at(clash + 4, 4) == 384 && number_at(clash + 8, 4) == 0xd4c3b2a1);
    length = amseokbin_record_put(clash, sizeof clash, 0, segment);
    OK(length.refusal), LOOK(length.length == 32 && number_at(clash + 16, 8) == 2800);
}

/* Every call that can give 19 has the pair that clashes beside it, zero in every other field, and leaves what was lent as it was. */
static void clashes(void)
{
    struct amseokbin_time early = {1000000000, 8}, late = {1000000000, 9};
    struct amseokbin_segment segment = {AMSEOKBIN_THIN_DATA, 0, 10};
    struct amseokbin_head_answer head;
    struct amseokbin_segment_answer read;
    struct amseokbin_count_answer count;
    struct amseokbin_total_answer total;
    struct amseokbin_run_answer run;
    struct amseokbin_allocation_answer allocation;
    struct amseokbin_length_answer length;
    struct amseokbin_update_answer update;
    struct amseokbin_refusal refused;
    struct amseokbin_run table[1] = {{1, 2}};
    uint64_t numbers[3] = {9, 9, 9};
    size_t used = 0;

    OK(amseokbin_format(COPIES, device, pool, 32, blockdev, 32, early, record, 48));
    OK(amseokbin_record_begin(clash, sizeof clash, 256));
    /* A row without gaps, but for two that lie where others do. */
    for (uint64_t i = 0; i < AMSEOKBIN_MOST_SEGMENTS; i++) {
        segment.start = 2059 + 10 * (i == 402 ? 257 : i == 408 ? 300 : i);
        length = amseokbin_record_put(clash, sizeof clash, i, segment);
        OK(length.refusal), used = (size_t)length.length;
    }
    LOOK(used == 8188);
    CLASH(amseokbin_record_check(device, clash, used));
    head = amseokbin_record_head(device, clash, used);
    CLASH(head.refusal), LOOK(head.kind == 0 && head.block_size == 0 && head.low_water == 0 && head.segments == 0);
    read = amseokbin_record_segment(device, clash, used, 0);
    CLASH(read.refusal), LOOK(read.segment.kind == 0 && read.segment.start == 0 && read.segment.sectors == 0);
    count = amseokbin_record_segments(device, clash, used, 0, numbers, 3);
    CLASH(count.refusal), LOOK(count.count == 0 && numbers[0] == 9 && numbers[1] == 9 && numbers[2] == 9);
    total = amseokbin_free_total(device, clash, used);
    CLASH(total.refusal), LOOK(total.sectors == 0);
    count = amseokbin_free_runs(device, clash, used, table, 1);
    CLASH(count.refusal), LOOK(count.count == 0 && table[0].start == 1 && table[0].sectors == 2);
    count = amseokbin_run_count(device, clash, used);
    CLASH(count.refusal), LOOK(count.count == 0);
    run = amseokbin_run_at(device, clash, used, 0);
    CLASH(run.refusal), LOOK(run.run.start == 0 && run.run.sectors == 0);
    run = amseokbin_first_fit(device, clash, used, 1);
    CLASH(run.refusal), LOOK(run.run.start == 0 && run.run.sectors == 0);
    changed[0] = 77;
    allocation = amseokbin_allocate(device, clash, used, AMSEOKBIN_THIN_DATA, 1, changed, sizeof changed);
    CLASH(allocation.refusal), LOOK(allocation.start == 0 && allocation.length == 0);
    length = amseokbin_release(device, clash, used, 0, changed, sizeof changed);
    CLASH(length.refusal), LOOK(length.length == 0 && changed[0] == 77);
    length = amseokbin_head_up(device, clash, used, changed, sizeof changed);
    CLASH(length.refusal), LOOK(length.length == 0 && changed[0] == 77);
    length = amseokbin_head_back(device, clash, used, changed, sizeof changed);
    CLASH(length.refusal), LOOK(length.length == 0 && changed[0] == 77);
    length = amseokbin_head_mark(device, clash, used, 1, changed, sizeof changed);
    CLASH(length.refusal), LOOK(length.length == 0 && changed[0] == 77);
    CLASH(amseokbin_update_check(COPIES, late, clash, used));
    update = amseokbin_update_plan(COPIES, late, clash, used);
    CLASH(update.refusal), LOOK(update.plan.entry.seconds == 0 && update.plan.entry.bytes == 0 && update.plan.front == 0);
    CLASH(amseokbin_format(COPIES, device, pool, 32, blockdev, 32, late, clash, used));
    LOOK(amseokbin_discover(COPIES).time.nanoseconds == 8);

    /* The same with a place outside the data range: 18, and nothing beside it. */
    segment.start = 2058;
    OK(amseokbin_record_put(clash, sizeof clash, 5, segment).refusal);
    refused = amseokbin_record_check(device, clash, used);
    LOOK(refused.number == AMSEOKBIN_SEGMENT_PLACE && refused.first == 0 && refused.second == 0);
}

/* All stores of an update or a mend are applied to the copies. */
static void store_update(struct amseokbin_update plan, const uint8_t *new, size_t length)
{
    for (uint64_t i = 0; i < amseokbin_update_count(plan); i++) {
        struct amseokbin_store_answer s = amseokbin_update_store(plan, COPIES, new, length, i, bytes, sizeof bytes);
        OK(s.refusal), FLAG(s.flush, 1);
        OK(amseokbin_apply(device, s.sector, bytes, sizeof bytes, COPIES));
    }
}

static void store_mend(struct amseokbin_mend plan)
{
    for (uint64_t i = 0; i < amseokbin_mend_count(plan); i++) {
        struct amseokbin_store_answer s = amseokbin_mend_store(plan, COPIES, i, bytes, sizeof bytes);
        OK(s.refusal), FLAG(s.flush, 1);
        OK(amseokbin_apply(device, s.sector, bytes, sizeof bytes, COPIES));
    }
}

static void copies(void)
{
    struct amseokbin_time first = {1000000000, 111}, second = {1000000001, 222}, third = {1000000002, 333};
    struct amseokbin_copy_answer copy;
    struct amseokbin_found_answer found;
    struct amseokbin_step_answer step;
    struct amseokbin_store_answer store;
    struct amseokbin_update_answer update;
    struct amseokbin_mend_answer mend;
    struct amseokbin_block expected;
    bool settled;

    /* Record 1 of 48 bytes in area a of both. */
    OK(amseokbin_format(COPIES, device, pool, 32, blockdev, 32, first, record, 48));
    memset(&expected, 0, sizeof expected);
    expected.device = device;
    expected.a.seconds = 1000000000, expected.a.nanoseconds = 111, expected.a.bytes = 48;
    expected.a.checksum = amseokbin_checksum(record, 48);
    memcpy(expected.pool, pool, 32), memcpy(expected.blockdev, blockdev, 32);
    copy = amseokbin_copy_read(front, sizeof front);
    OK(copy.refusal), LOOK(same_block(copy.block, expected));
    FLAG(copy.a_whole, 1), FLAG(copy.b_whole, 0), LOOK(copy.present == AMSEOKBIN_PRESENT_A);
    step = amseokbin_in_step(COPIES);
    OK(step.refusal), FLAG(step.in_step, 1);
    store = amseokbin_format_store(device, COPIES, 38, bytes, sizeof bytes);
    OK(store.refusal), LOOK(store.sector == 2999998), FLAG(store.flush, 0);
    store = amseokbin_format_store(device, COPIES, 39, bytes, sizeof bytes);
    OK(store.refusal), LOOK(store.sector == 2999999), FLAG(store.flush, 1);
    LOOK(amseokbin_format_group(39) == 1 && amseokbin_format_group(40) == 2 && amseokbin_format_count() == 80);

    /* Record 2 of 28 bytes goes to area b of both. */
    update = amseokbin_update_plan(COPIES, second, record, 28);
    OK(update.refusal), LOOK(update.plan.entry.seconds == 1000000001 && update.plan.entry.nanoseconds == 222);
    LOOK(update.plan.entry.bytes == 28 && update.plan.entry.checksum == amseokbin_checksum(record, 28));
    LOOK(update.plan.front == AMSEOKBIN_AREA_B && update.plan.back == AMSEOKBIN_AREA_B);
    LOOK(amseokbin_update_count(update.plan) == 4 && amseokbin_update_group(update.plan, 2) == 2);
    store_update(update.plan, record, 28);
    expected.b = update.plan.entry;

    /* The back alone is found once the front's block is damaged. */
    front[AMSEOKBIN_BLOCK_OFFSET + 4] ^= 1;
    back[AMSEOKBIN_AREA_A_OFFSET] ^= 1;
    copy = amseokbin_copy_read(back, sizeof back);
    OK(copy.refusal), FLAG(copy.a_whole, 0), FLAG(copy.b_whole, 1), LOOK(copy.present == AMSEOKBIN_PRESENT_B);
    found = amseokbin_read_found(COPIES, changed, sizeof changed);
    OK(found.refusal), LOOK(found.side == AMSEOKBIN_BACK && found.area == AMSEOKBIN_AREA_B);
    LOOK(found.other == AMSEOKBIN_SIGNATURE && found.bytes == 28);
    LOOK(found.time.seconds == 1000000001 && found.time.nanoseconds == 222), LOOK(same_block(found.block, expected));
    LOOK(memcmp(changed, record, 28) == 0);
    step = amseokbin_in_step(COPIES);
    OK(step.refusal), FLAG(step.in_step, 0);
    settled = amseokbin_settled(COPIES, unread, sizeof unread, marks, sizeof marks), FLAG(settled, 1);
    settled = amseokbin_settled(COPIES, marks, sizeof marks, unread, sizeof unread), FLAG(settled, 0);

    /* Mended: record 2 is in area a of the front and in area b of the back. */
    mend = amseokbin_mend_plan(COPIES);
    OK(mend.refusal), LOOK(mend.plan.bytes == 28 && mend.plan.needed == 1);
    LOOK(mend.plan.kept == AMSEOKBIN_BACK && mend.plan.area == AMSEOKBIN_AREA_B && mend.plan.last == 0);
    LOOK(amseokbin_mend_count(mend.plan) == 3 && amseokbin_mend_group(mend.plan, 2) == 2);
    store_mend(mend.plan);
    update = amseokbin_update_plan(COPIES, third, record, 48);
    OK(update.refusal), LOOK(update.plan.front == AMSEOKBIN_AREA_B && update.plan.back == AMSEOKBIN_AREA_A);
    store = amseokbin_update_store(update.plan, COPIES, record, 48, 0, bytes, sizeof bytes);
    OK(store.refusal), LOOK(store.sector == 1030);
    store = amseokbin_update_store(update.plan, COPIES, record, 48, 2, bytes, sizeof bytes);
    OK(store.refusal), LOOK(store.sector == 2997948);
    store_update(update.plan, record, 48);

    /* The front's later entry is torn, and the back is gone: the older record is kept, and a last store follows. */
    front[AMSEOKBIN_AREA_B_OFFSET] ^= 1;
    back[AMSEOKBIN_BLOCK_OFFSET] ^= 1;
    mend = amseokbin_mend_plan(COPIES);
    OK(mend.refusal), LOOK(mend.plan.bytes == 28 && mend.plan.needed == 1);
    LOOK(mend.plan.kept == AMSEOKBIN_FRONT && mend.plan.area == AMSEOKBIN_AREA_A && mend.plan.last == 1);
    store = amseokbin_mend_store(mend.plan, COPIES, 3, bytes, sizeof bytes);
    OK(store.refusal), LOOK(store.sector == 1);
    store_mend(mend.plan);
    step = amseokbin_in_step(COPIES);
    OK(step.refusal), FLAG(step.in_step, 1);
}

static int same_received(struct amseokbin_received x, struct amseokbin_received y)
{
    return x.taken == y.taken && memcmp(x.block, y.block, sizeof x.block) == 0 && x.a == y.a && x.b == y.b;
}

/* A copy in pieces: the state goes in and comes out, each field with another value; and the same of a state that no call made. */
static void pieces(void)
{
    const struct amseokbin_time time = {1000000000, 8};
    const uint32_t half = amseokbin_checksum(record, 20), whole = amseokbin_checksum(record, 48);
    static const uint8_t zeros[AMSEOKBIN_SECTOR];
    struct amseokbin_received begun = amseokbin_receive_begin(), made;
    struct amseokbin_receive_answer kept;
    struct amseokbin_copy_answer copy, once;
    struct amseokbin_block block;

    OK(amseokbin_format(COPIES, device, pool, 32, blockdev, 32, time, record, 48));
    LOOK(begun.taken == 0 && begun.a == 0 && begun.b == 0 && memcmp(begun.block, zeros, sizeof begun.block) == 0);
    kept = amseokbin_receive_piece(begun, front, 4116);
    OK(kept.refusal), LOOK(kept.received.taken == 4116 && kept.received.a == half && kept.received.b == 0);
    LOOK(memcmp(kept.received.block, front + AMSEOKBIN_BLOCK_OFFSET, AMSEOKBIN_SECTOR) == 0);
    copy = amseokbin_receive_end(kept.received);
    LOOK(copy.refusal.number == AMSEOKBIN_SLICE_SIZE && copy.block.device.sectors == 0 && copy.present == 0);
    FLAG(copy.a_whole, 0), FLAG(copy.b_whole, 0);
    kept = amseokbin_receive_piece(kept.received, front + 4116, AMSEOKBIN_COPY - 4116);
    OK(kept.refusal), LOOK(kept.received.taken == AMSEOKBIN_COPY && kept.received.a == whole && kept.received.b == 0);
    copy = amseokbin_receive_end(kept.received), once = amseokbin_copy_read(front, sizeof front);
    OK(copy.refusal), LOOK(same_block(copy.block, once.block) && copy.block.a.bytes == 48);
    FLAG(copy.a_whole, 1), FLAG(copy.b_whole, 0), LOOK(copy.present == AMSEOKBIN_PRESENT_A);

    /* Refused: every field as it was handed in. */
    made.taken = 0x0102030405060708, made.a = 0xa1a2a3a4, made.b = 0xb1b2b3b4;
    for (size_t i = 0; i < sizeof made.block; i++)
        made.block[i] = (uint8_t)(7 * i + 1);
    kept = amseokbin_receive_piece(made, front, 1);
    LOOK(kept.refusal.number == AMSEOKBIN_SLICE_SIZE && kept.refusal.first == 0 && kept.refusal.second == 0);
    LOOK(same_received(kept.received, made));
    kept = amseokbin_receive_piece(made, NULL, 0);
    LOOK(kept.refusal.number == AMSEOKBIN_SLICE_SIZE && same_received(kept.received, made));

    /* A piece of the block alone, into a state that has other bytes there; and nothing. */
    made.taken = AMSEOKBIN_BLOCK_OFFSET + 32;
    kept = amseokbin_receive_piece(made, pool, 32);
    memcpy(made.block + 32, pool, 32), made.taken += 32;
    OK(kept.refusal), LOOK(same_received(kept.received, made));
    kept = amseokbin_receive_piece(made, NULL, 0);
    OK(kept.refusal), LOOK(same_received(kept.received, made));

    /* The end of a state that no call made: area b has its entry's checksum, area a another. */
    memset(&block, 0, sizeof block);
    block.device = device, memcpy(block.pool, pool, 32), memcpy(block.blockdev, blockdev, 32);
    block.a.seconds = 11, block.a.nanoseconds = 12, block.a.bytes = 13, block.a.checksum = 0xa1a2a3a5;
    block.b.seconds = 4, block.b.nanoseconds = 5, block.b.bytes = 6, block.b.checksum = 0xb1b2b3b4;
    OK(amseokbin_block_write(block, made.block, sizeof made.block));
    made.taken = AMSEOKBIN_COPY;
    copy = amseokbin_receive_end(made);
    OK(copy.refusal), LOOK(same_block(copy.block, block));
    FLAG(copy.a_whole, 0), FLAG(copy.b_whole, 1), LOOK(copy.present == AMSEOKBIN_PRESENT_B);
    made.a = 0xa1a2a3a5, made.b = 0;
    copy = amseokbin_receive_end(made);
    OK(copy.refusal), FLAG(copy.a_whole, 1), FLAG(copy.b_whole, 0), LOOK(copy.present == AMSEOKBIN_PRESENT_A);
}

/* Plans that no call made: each field counts. */
static void plans(void)
{
    struct amseokbin_update update = {{1, 2, 1025, 4}, 0, 1};
    struct amseokbin_mend mend = {1025, 1, 0, 1, 1};

    LOOK(amseokbin_update_count(update) == 8);
    LOOK(amseokbin_update_group(update, 2) == 0 && amseokbin_update_group(update, 3) == 1);
    LOOK(amseokbin_update_group(update, 7) == 3 && amseokbin_update_group(update, 8) == AMSEOKBIN_NO_GROUP);
    LOOK(amseokbin_mend_count(mend) == 6), LOOK(amseokbin_mend_group(mend, 5) == 3);
    mend.last = 0;
    LOOK(amseokbin_mend_count(mend) == 5), LOOK(amseokbin_mend_group(mend, 5) == AMSEOKBIN_NO_GROUP);
    mend.needed = 0;
    LOOK(amseokbin_mend_count(mend) == 0), LOOK(amseokbin_mend_group(mend, 0) == AMSEOKBIN_NO_GROUP);
}

/* What lies between the fields of a struct that goes in is the caller's, and may be anything. */
#define FILLED(type, name) \
    struct type name;      \
    memset(&name, 0xff, sizeof name)

static void padding(void)
{
    FILLED(amseokbin_time, early);
    FILLED(amseokbin_time, late);
    FILLED(amseokbin_segment, segment);
    FILLED(amseokbin_update, plan);
    FILLED(amseokbin_block, block);
    struct amseokbin_block_answer read;
    struct amseokbin_update_answer update;
    struct amseokbin_store_answer store;

    early.seconds = 1000000000, early.nanoseconds = 8;
    late.seconds = 1000000000, late.nanoseconds = 9;
    LOOK(amseokbin_later(late, early)), LOOK(!amseokbin_later(early, late)), LOOK(!amseokbin_later(late, late));
    OK(amseokbin_record_begin(record, sizeof record, 256));
    segment.kind = AMSEOKBIN_SPARE, segment.start = 3000, segment.sectors = 50;
    OK(amseokbin_record_put(record, sizeof record, 0, segment).refusal);
    LOOK(number_at(record + 10, 2) == 3 && number_at(record + 12, 8) == 3000 && number_at(record + 20, 8) == 50);
    OK(amseokbin_format(COPIES, device, pool, 32, blockdev, 32, early, record, 28));
    OK(amseokbin_update_check(COPIES, late, record, 28));
    update = amseokbin_update_plan(COPIES, late, record, 28);
    OK(update.refusal), LOOK(update.plan.entry.seconds == 1000000000 && update.plan.entry.nanoseconds == 9);
    plan.entry.seconds = 1000000000, plan.entry.nanoseconds = 9, plan.entry.bytes = 28;
    plan.entry.checksum = update.plan.entry.checksum, plan.front = AMSEOKBIN_AREA_B, plan.back = AMSEOKBIN_AREA_B;
    LOOK(amseokbin_update_count(plan) == 4), LOOK(amseokbin_update_group(plan, 1) == 1);
    store = amseokbin_update_store(plan, COPIES, record, 28, 3, bytes, sizeof bytes);
    OK(store.refusal), LOOK(store.sector == 2999993);
    read = amseokbin_block_read(bytes, sizeof bytes);
    OK(read.refusal), LOOK(read.block.b.checksum == plan.entry.checksum && read.block.b.nanoseconds == 9);
    block.device = device, memcpy(block.pool, pool, 32), memcpy(block.blockdev, blockdev, 32);
    block.a.seconds = 1, block.a.nanoseconds = 2, block.a.bytes = 3, block.a.checksum = 4;
    block.b.seconds = 5, block.b.nanoseconds = 6, block.b.bytes = 7, block.b.checksum = 8;
    OK(amseokbin_block_write(block, bytes, sizeof bytes));
    read = amseokbin_block_read(bytes, sizeof bytes);
    OK(read.refusal), LOOK(same_block(read.block, block));
}

int main(void)
{
    sizes();
    small();
    blocks();
    records();
    heads();
    clashes();
    copies();
    pieces();
    plans();
    padding();
    if (failed > 0) {
        fprintf(stderr, "sizes: %d of %d are not as they should be\n", failed, looked_at);
        return 1;
    }
    printf("sizes: the structs of the header and of the archive agree, %d looked at\n", looked_at);
    return 0;
}
