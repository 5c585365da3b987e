/* How much stack the library's calls take: each runs on a stack of its own that was filled with one byte, and what it has
 * changed there is counted. Prints a line, with the word `all` one for each call too; fails where a call answers something else
 * than it must, or takes more than the header says. */
#include <stdint.h>
#include <stdio.h>
#include <string.h>
#include <ucontext.h>

#include "amseokbin.h"

enum { ROOM = 1 << 18, MOST = 16 * 1024, SEGMENTS = AMSEOKBIN_MOST_SEGMENTS, FILL = 0xa5 };

static unsigned char stack[ROOM];
static ucontext_t outside, inside;
static int (*running)(void);
static int answer;

static uint8_t front[AMSEOKBIN_COPY], back[AMSEOKBIN_COPY];
static uint8_t record[AMSEOKBIN_RECORD], clash[AMSEOKBIN_RECORD], changed[AMSEOKBIN_RECORD], bytes[AMSEOKBIN_SECTOR];
static uint8_t marked[AMSEOKBIN_RECORD];
static uint64_t numbers[AMSEOKBIN_SEGMENT_TABLE];
static struct amseokbin_run table[AMSEOKBIN_MOST_RUNS];
static struct amseokbin_update update;
static struct amseokbin_mend mend;
static struct amseokbin_block block;
static struct amseokbin_received received;
static const uint8_t marks[AMSEOKBIN_COPY_SECTORS];
static const uint8_t uuid[] = "0123456789abcdef0123456789abcdef";
static const struct amseokbin_device device = {(uint64_t)1 << 40, AMSEOKBIN_MOST_METADATA, AMSEOKBIN_MOST_RESERVED};
static const struct amseokbin_time first = {10, 5}, second = {11, 0};
static const size_t length = AMSEOKBIN_HEAD + AMSEOKBIN_SEGMENT * SEGMENTS;
static const size_t marked_length = AMSEOKBIN_MARKED_HEAD + AMSEOKBIN_SEGMENT * SEGMENTS;

#define COPIES front, sizeof front, back, sizeof back
#define RECORD record, length
#define CLASH clash, length
#define MARKED marked, marked_length

static int nothing(void) { return 0; }
static int versioned(void) { return amseokbin_version() != AMSEOKBIN_VERSION; }
static int saying(void) { return amseokbin_refusal_words(13).used == 0; }
static int summing(void) { return amseokbin_checksum(RECORD) == 0; }
static int summing_on(void) { return amseokbin_checksum_continued(1, RECORD) == 0; }
static int comparing(void) { return !amseokbin_later(second, first); }
static int locating(void) { return amseokbin_locate_blocks(device.sectors).refusal.number; }
static int placing(void) { return amseokbin_places(device).refusal.number; }
static int checking(void) { return amseokbin_record_check(device, RECORD).number; }
/* 19 where the pair beside it is the last two segments. */
static int paired(struct amseokbin_refusal r) {
    return r.first == SEGMENTS - 2 && r.second == SEGMENTS - 1 ? r.number : -r.number;
}
static int clashing(void) { return paired(amseokbin_record_check(device, CLASH)); }
static int clashing_in_runs(void) {
    return paired(amseokbin_free_runs(device, CLASH, table, AMSEOKBIN_MOST_RUNS).refusal);
}
static int clashing_in_allocating(void) {
    return paired(amseokbin_allocate(device, CLASH, 2, 20000, changed, sizeof changed).refusal);
}
static int clashing_in_planning(void) { return paired(amseokbin_update_plan(COPIES, second, CLASH).refusal); }
static int clashing_in_formatting(void) {
    return paired(amseokbin_format(COPIES, device, uuid, 32, uuid, 32, first, CLASH));
}
static int heading(void) { return amseokbin_record_head(device, RECORD).refusal.number; }
static int taking_one(void) { return amseokbin_record_segment(device, RECORD, 7).refusal.number; }
static int handing_on(void) {
    return amseokbin_record_segments(device, RECORD, 0, numbers, AMSEOKBIN_SEGMENT_TABLE).refusal.number;
}
static int beginning(void) { return amseokbin_record_begin(changed, sizeof changed, 128).number; }
static int beginning_marked(void) {
    return amseokbin_record_begin_marked(changed, sizeof changed, 128, 7).number;
}
static int moving_up(void) { return amseokbin_head_up(device, RECORD, changed, sizeof changed).refusal.number; }
static int moving_back(void) { return amseokbin_head_back(device, MARKED, changed, sizeof changed).refusal.number; }
static int marking(void) { return amseokbin_head_mark(device, MARKED, 7, changed, sizeof changed).refusal.number; }
static int checking_marked(void) { return amseokbin_record_check(device, MARKED).number; }
static int allocating_marked(void) {
    return amseokbin_allocate(device, marked, marked_length - 20, 2, 20000, changed, sizeof changed).refusal.number;
}
static int planning_marked(void) { return amseokbin_update_check(COPIES, second, MARKED).number; }
static int clashing_in_moving(void) {
    return paired(amseokbin_head_up(device, CLASH, changed, sizeof changed).refusal);
}
static int putting(void) {
    const struct amseokbin_segment segment = {AMSEOKBIN_SPARE, 1, 2};
    return amseokbin_record_put(changed, sizeof changed, SEGMENTS - 1, segment).refusal.number;
}
static int totalling(void) { return amseokbin_free_total(device, RECORD).refusal.number; }
static int running_free(void) {
    return amseokbin_free_runs(device, RECORD, table, AMSEOKBIN_MOST_RUNS).refusal.number;
}
static int counting_runs(void) { return amseokbin_run_count(device, RECORD).refusal.number; }
static int running_one(void) { return amseokbin_run_at(device, RECORD, SEGMENTS - 1).refusal.number; }
static int fitting(void) { return amseokbin_first_fit(device, RECORD, 20000).refusal.number; }
static int allocating(void) {
    return amseokbin_allocate(device, record, length - 20, 2, 20000, changed, sizeof changed).refusal.number;
}
static int releasing(void) { return amseokbin_release(device, RECORD, 7, changed, sizeof changed).refusal.number; }
static int formatting(void) { return amseokbin_format(COPIES, device, uuid, 32, uuid, 32, first, RECORD).number; }
static int format_counting(void) { return amseokbin_format_count() != AMSEOKBIN_FORMAT_STORES; }
static int format_grouping(void) { return amseokbin_format_group(32) != 1; }
static int format_storing(void) {
    return amseokbin_format_store(device, COPIES, 79, bytes, sizeof bytes).refusal.number;
}
static int laying(void) { return amseokbin_lay(front, sizeof front, AMSEOKBIN_AREA_B, RECORD).number; }
static int reading_block(void) {
    const struct amseokbin_block_answer read = amseokbin_block_read(front + AMSEOKBIN_BLOCK_OFFSET, AMSEOKBIN_SECTOR);
    block = read.block;
    return read.refusal.number;
}
static int writing_block(void) { return amseokbin_block_write(block, bytes, sizeof bytes).number; }
static int reading_copy(void) {
    const struct amseokbin_copy_answer read = amseokbin_copy_read(front, sizeof front);
    return read.refusal.number || read.present != AMSEOKBIN_PRESENT_A;
}
static int receiving(void) {
    received = amseokbin_receive_begin();
    return received.taken != 0;
}
static int taking_too_much(void) {
    static const uint8_t long_piece[AMSEOKBIN_COPY + 1];
    return amseokbin_receive_piece(received, long_piece, sizeof long_piece).refusal.number;
}
static int taking_a_piece(void) {
    const struct amseokbin_receive_answer taken = amseokbin_receive_piece(received, front, sizeof front);
    received = taken.received;
    return taken.refusal.number;
}
static int ending(void) {
    const struct amseokbin_copy_answer read = amseokbin_receive_end(received);
    return read.refusal.number || read.present != AMSEOKBIN_PRESENT_A;
}
static int discovering(void) { return amseokbin_discover(COPIES).refusal.number; }
static int reading(void) { return amseokbin_read_found(COPIES, changed, sizeof changed).refusal.number; }
static int stepping(void) { return !amseokbin_in_step(COPIES).in_step; }
static int settling(void) { return !amseokbin_settled(COPIES, marks, sizeof marks, marks, sizeof marks); }
static int testing(void) { return amseokbin_update_check(COPIES, second, RECORD).number; }
static int planning(void) {
    const struct amseokbin_update_answer planned = amseokbin_update_plan(COPIES, second, RECORD);
    update = planned.plan;
    return planned.refusal.number;
}
static int counting(void) { return amseokbin_update_count(update) != AMSEOKBIN_MOST_UPDATE_STORES; }
static int grouping(void) { return amseokbin_update_group(update, 16) != 1; }
static int storing(void) {
    return amseokbin_update_store(update, COPIES, RECORD, 0, bytes, sizeof bytes).refusal.number;
}
static int storing_block(void) {
    return amseokbin_update_store(update, COPIES, RECORD, 16, bytes, sizeof bytes).refusal.number;
}
static int applying(void) {
    return amseokbin_apply(device, device.sectors - 8 - AMSEOKBIN_MOST_METADATA, bytes, sizeof bytes, COPIES).number;
}
static int mending(void) {
    const struct amseokbin_mend_answer planned = amseokbin_mend_plan(COPIES);
    mend = planned.plan;
    return planned.refusal.number;
}
static int mend_counting(void) { return amseokbin_mend_count(mend) != AMSEOKBIN_MOST_MEND_STORES - 1; }
static int mend_grouping(void) { return amseokbin_mend_group(mend, 17) != 2; }
static int mend_storing(void) { return amseokbin_mend_store(mend, COPIES, 0, bytes, sizeof bytes).refusal.number; }
static int mend_storing_record(void) {
    return amseokbin_mend_store(mend, COPIES, 1, bytes, sizeof bytes).refusal.number;
}

static void go(void) {
    answer = running();
    swapcontext(&inside, &outside);
}

static int taken(int (*call)(void)) {
    int untouched = 0;
    running = call;
    memset(stack, FILL, sizeof stack);
    getcontext(&inside);
    inside.uc_stack.ss_sp = stack;
    inside.uc_stack.ss_size = sizeof stack;
    inside.uc_link = &outside;
    makecontext(&inside, go, 0);
    swapcontext(&outside, &inside);
    while (untouched < ROOM && stack[untouched] == FILL) untouched++;
    return ROOM - untouched;
}

static void put(uint8_t *at, uint64_t value, int count) {
    for (int i = 0; i < count; i++) at[i] = (uint8_t)(value >> (8 * i));
}

int main(int words, char **word) {
    static const struct {
        const char *name;
        int (*call)(void);
        int expected;
    } calls[] = {
        {"version", versioned, 0},
        {"refusal_words", saying, 0},
        {"checksum", summing, 0},
        {"checksum_continued", summing_on, 0},
        {"later", comparing, 0},
        {"locate_blocks", locating, 0},
        {"places", placing, 0},
        {"record_check", checking, 0},
        {"record_check, 19", clashing, 19},
        {"record_check, kind 17", checking_marked, 0},
        {"record_head", heading, 0},
        {"record_segment", taking_one, 0},
        {"record_segments", handing_on, 0},
        {"record_begin", beginning, 0},
        {"record_begin_marked", beginning_marked, 0},
        {"record_put", putting, 0},
        {"head_up", moving_up, 0},
        {"head_up, 19", clashing_in_moving, 19},
        {"head_back", moving_back, 0},
        {"head_mark", marking, 0},
        {"free_total", totalling, 0},
        {"free_runs", running_free, 0},
        {"free_runs, 19", clashing_in_runs, 19},
        {"run_count", counting_runs, 0},
        {"run_at", running_one, 0},
        {"first_fit", fitting, 0},
        {"allocate", allocating, 0},
        {"allocate, 19", clashing_in_allocating, 19},
        {"allocate, kind 17", allocating_marked, 0},
        {"release", releasing, 0},
        {"format", formatting, 0},
        {"format, 19", clashing_in_formatting, 19},
        {"format_count", format_counting, 0},
        {"format_group", format_grouping, 0},
        {"format_store", format_storing, 0},
        {"lay", laying, 0},
        {"block_read", reading_block, 0},
        {"block_write", writing_block, 0},
        {"copy_read", reading_copy, 0},
        {"receive_begin", receiving, 0},
        {"receive_piece, 1", taking_too_much, 1},
        {"receive_piece", taking_a_piece, 0},
        {"receive_end", ending, 0},
        {"discover", discovering, 0},
        {"read_found", reading, 0},
        {"in_step", stepping, 0},
        {"settled", settling, 0},
        {"update_check", testing, 0},
        {"update_check, kind 17", planning_marked, 0},
        {"update_plan", planning, 0},
        {"update_plan, 19", clashing_in_planning, 19},
        {"update_count", counting, 0},
        {"update_group", grouping, 0},
        {"update_store, area", storing, 0},
        {"update_store, block", storing_block, 0},
        {"apply", applying, 0},
        {"mend_plan", mending, 0},
        {"mend_count", mend_counting, 0},
        {"mend_group", mend_grouping, 0},
        {"mend_store, block", mend_storing, 0},
        {"mend_store, record", mend_storing_record, 0},
    };
    const int count = sizeof calls / sizeof calls[0];
    const int all = words == 2 && strcmp(word[1], "all") == 0;
    int most = 0, base;
    const char *which = "";

    const uint64_t start = 8 + (uint64_t)device.metadata + device.reserved;

    put(record, 8, 2), put(record + 2, 16, 2), put(record + 4, 128, 4);
    for (int i = 0; i < SEGMENTS; i++) {
        uint8_t *item = record + 8 + 20 * i;
        put(item, 20, 2), put(item + 2, 2, 2);
        put(item + 4, start + 10000 * (uint64_t)(i * 211 % SEGMENTS), 8), put(item + 12, 1 + 20 * i, 8);
    }
    put(marked, 12, 2), put(marked + 2, 17, 2), put(marked + 4, 128, 4), put(marked + 8, 0, 4);
    memcpy(marked + AMSEOKBIN_MARKED_HEAD, record + AMSEOKBIN_HEAD, AMSEOKBIN_SEGMENT * SEGMENTS);
    memcpy(clash, record, length);
    memcpy(clash + length - 16, clash + length - 36, 16);
    base = taken(nothing);
    for (int i = 0; i < count; i++) {
        /* Copies that are in step but for the last calls, which mend the back. */
        if (calls[i].call == mending) back[512] ^= 1;
        int used = taken(calls[i].call) - base;
        if (answer != calls[i].expected) {
            fprintf(stderr, "stack: %s answers %d, not %d\n", calls[i].name, answer, calls[i].expected);
            return 1;
        }
        if (all) printf("%-22s %6d\n", calls[i].name, used);
        if (used > most) most = used, which = calls[i].name;
    }
    if (most > MOST) {
        fprintf(stderr, "stack: %s takes %d bytes, more than %d\n", which, most, MOST);
        return 1;
    }
    printf("stack: %d calls, %d bytes at the most (%s); the header says %d\n", count, most, which, MOST);
    return 0;
}
