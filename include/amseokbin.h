/*
 * Amseokbin: finds, checks, updates, formats and mends the pool metadata of a drive in the Stratis 0.6 layout.
 *
 * Link with libamseokbin.a, which is for x86-64. It needs no operating system: it calls nothing but the compiler's memory functions, keeps
 * nothing from one call to the next, and allocates nothing. Every call is proved to end, for any bytes and numbers, to stay within the memory it
 * is lent, and to answer what docs/PROMISES.md says. No call takes more than 16 KiB of stack; tests/stack.c measures that.
 *
 * What no call can test, and the caller owes:
 * - A slice is a pointer and a length. The memory is there; a pointer is null only where its length is 0; slices that a call may change
 *   overlap nothing else that it is lent.
 * - A plan, the copies and the record that it is asked with belong together: the copies are those that the plan was made of, or the
 *   same with the plan's first stores applied, in order, up to the one that is asked for. A plan is used up when its stores are written, and
 *   when the copies have changed otherwise. Any plan is answered, also one that no call made: its stores go nowhere but to the blocks and
 *   areas of the device that the lent copy says it is of, and are of no use.
 * - The pieces of a copy are its bytes, in order, with none left out and none twice, and each is handed over with the state that the call before
 *   gave. Any state is answered; one that no call gave says nothing of a copy.
 * - The two copies are the front and the back of one device, read from where amseokbin_places puts them, and a device that is handed in
 *   beside them is that one.
 * Everything else is tested, and has a number.
 *
 * Answers. A call that can refuse answers a struct whose first field is the refusal, or the refusal alone: number 0 where the call did
 * what it says, else 1 to 24 (enum amseokbin_number). Then every other field is zero, and nothing that was lent is changed. Two answers have
 * more: every call that gives 19 returns two segments that clash beside it (struct amseokbin_refusal), and a refused piece of a copy has the
 * state that was handed in beside it (struct amseokbin_receive_answer). Where nothing else is said the lowest number that applies is given: 1
 * for a slice of another size is tested first, 1 for too little room for an answer last. A copy has exactly AMSEOKBIN_COPY bytes, a block and
 * a store exactly AMSEOKBIN_SECTOR; a record is lent with its own length, a buffer with all its room.
 *
 * A worked example; the tests build and run it as it stands here. It makes a pool in two copies in memory, books 1,000 sectors, stores
 * the new record and finds it again. A device of your own takes the place of the two functions at the top.
 *
 * begin example
 *     #include <stdio.h>
 *     #include <string.h>
 *     #include "amseokbin.h"
 *
 *     static void write_sector(uint64_t sector, const uint8_t *bytes) { (void)sector; (void)bytes; }
 *     static void flush(void) {}
 *
 *     static uint8_t front[AMSEOKBIN_COPY], back[AMSEOKBIN_COPY], bytes[AMSEOKBIN_SECTOR];
 *     static uint8_t record[AMSEOKBIN_RECORD], changed[AMSEOKBIN_RECORD];
 *     static const char pool[] = "0123456789abcdef0123456789abcdef", blockdev[] = "fedcba9876543210fedcba9876543210";
 *
 *     static int refused(const char *call, struct amseokbin_refusal r)
 *     {
 *         struct amseokbin_words w = amseokbin_refusal_words(r.number);
 *         if (r.number != AMSEOKBIN_OK)
 *             printf("%s: refused %d: %.*s\n", call, r.number, (int)w.used, (const char *)w.bytes);
 *         if (r.number == AMSEOKBIN_SEGMENT_CLASH)
 *             printf("%s: segments %u and %u\n", call, (unsigned)r.first, (unsigned)r.second);
 *         return r.number != AMSEOKBIN_OK;
 *     }
 *
 *     int main(void)
 *     {
 *         const struct amseokbin_device device = {2097152, 2040, 0};
 *         const struct amseokbin_time made = {1000000000, 0}, booked = {1000000001, 0};
 *         uint64_t i;
 *
 *         if (amseokbin_version() != AMSEOKBIN_VERSION)
 *             return 2;
 *
 *         // A record with no segments, in blocks of 128 sectors, and both copies with it.
 *         if (refused("begin", amseokbin_record_begin(record, sizeof record, 128)))
 *             return 1;
 *         if (refused("format", amseokbin_format(front, sizeof front, back, sizeof back, device,
 *                                                (const uint8_t *)pool, AMSEOKBIN_UUID, (const uint8_t *)blockdev, AMSEOKBIN_UUID,
 *                                                made, record, AMSEOKBIN_HEAD)))
 *             return 1;
 *         for (i = 0; i < amseokbin_format_count(); i++) {
 *             struct amseokbin_store_answer s = amseokbin_format_store(device, front, sizeof front, back, sizeof back, i, bytes, sizeof bytes);
 *             if (refused("format store", s.refusal))
 *                 return 1;
 *             write_sector(s.sector, bytes);
 *             if (s.flush)
 *                 flush();
 *         }
 *
 *         // The record with one more segment: the first 1,000 free sectors, for thin data.
 *         struct amseokbin_allocation_answer a =
 *             amseokbin_allocate(device, record, AMSEOKBIN_HEAD, AMSEOKBIN_THIN_DATA, 1000, changed, sizeof changed);
 *         if (refused("allocate", a.refusal))
 *             return 1;
 *
 *         // The update: all stores in their order, a flush where one is due, each applied to the copies in memory too.
 *         struct amseokbin_update_answer p =
 *             amseokbin_update_plan(front, sizeof front, back, sizeof back, booked, changed, a.length);
 *         if (refused("plan", p.refusal))
 *             return 1;
 *         for (i = 0; i < amseokbin_update_count(p.plan); i++) {
 *             struct amseokbin_store_answer s = amseokbin_update_store(p.plan, front, sizeof front, back, sizeof back, changed, a.length,
 *                                                                      i, bytes, sizeof bytes);
 *             if (refused("store", s.refusal))
 *                 return 1;
 *             write_sector(s.sector, bytes);
 *             if (s.flush)
 *                 flush();
 *             if (refused("apply", amseokbin_apply(device, s.sector, bytes, sizeof bytes, front, sizeof front, back, sizeof back)))
 *                 return 1;
 *         }
 *
 *         // What is found now.
 *         struct amseokbin_found_answer f =
 *             amseokbin_read_found(front, sizeof front, back, sizeof back, record, sizeof record);
 *         if (refused("discover", f.refusal))
 *             return 1;
 *         printf("segment at %llu, record of %u bytes, time %llu, pool %.32s\n", (unsigned long long)a.start, (unsigned)f.bytes,
 *                (unsigned long long)f.time.seconds, (const char *)f.block.pool);
 *         return memcmp(record, changed, a.length) != 0;
 *     }
 * end example
 *
 * How to begin on a drive. S, L and R stand in a signature block, which has to be found first. Give the drive's own size to
 * amseokbin_locate_blocks; read the front's sector and hand it to amseokbin_block_read. Where it is accepted its device numbers give
 * all places by amseokbin_places. Where it is refused read the back's sector in the same way. Where both are refused there is no pool, or
 * the drive was enlarged and its back copy lies at the old end. Where S is more than the drive has, or a block that was found at the back
 * has another S than the drive, the drive is not the one that the pool was made on: read what can be read, and store nothing. Then read
 * both copies, and amseokbin_discover; where they are not in step amseokbin_mend_plan. After a power cut begin again from here.
 *
 * A copy in memory is 20,480 bytes: the 8 sectors of the header from `header` on, the first 16 sectors of area a from `a` on, the first
 * 16 of area b from `b` on. The signature block lies at AMSEOKBIN_BLOCK_OFFSET in it, the areas at AMSEOKBIN_AREA_A_OFFSET and
 * AMSEOKBIN_AREA_B_OFFSET. Fill a sector that cannot be read with zeros, and mark it: an unread sector of an area can make an older
 * record the newest whole one, and a mend or an update would then give the newer one up for good. Unless amseokbin_settled says that what
 * was not read does not matter, neither mend nor update.
 */
#ifndef AMSEOKBIN_H
#define AMSEOKBIN_H

#include <stdbool.h>
#include <stddef.h>
#include <stdint.h>

#ifdef __cplusplus
extern "C" {
#endif

/* The version of this header: major, minor. amseokbin_version gives the archive's; they have to be the same. */
#define AMSEOKBIN_VERSION_MAJOR 0
#define AMSEOKBIN_VERSION_MINOR 4
#define AMSEOKBIN_VERSION (AMSEOKBIN_VERSION_MAJOR * 65536u + AMSEOKBIN_VERSION_MINOR)

/* ---- Sizes and limits ---------------------------------------------------------------------------------------------------- */

/* In bytes. */
#define AMSEOKBIN_SECTOR 512u
#define AMSEOKBIN_COPY 20480u
#define AMSEOKBIN_BLOCK_OFFSET 512u
#define AMSEOKBIN_AREA_A_OFFSET 4096u
#define AMSEOKBIN_AREA_B_OFFSET 12288u
#define AMSEOKBIN_UUID 32u     /* ASCII hex, 0 to 9 and a to f */
#define AMSEOKBIN_RECORD 8192u /* the most of a record */
#define AMSEOKBIN_HEAD 8u      /* a head of kind 16, and a record with it and no segments */
#define AMSEOKBIN_MARKED_HEAD 12u /* a head of kind 17, the same */
#define AMSEOKBIN_SEGMENT 20u  /* each segment adds */
#define AMSEOKBIN_WORDS 80u

/* In sectors. L is even. */
#define AMSEOKBIN_LEAST_SECTORS 2097152u
#define AMSEOKBIN_LEAST_METADATA 2040u
#define AMSEOKBIN_MOST_METADATA 16384u
#define AMSEOKBIN_MOST_RESERVED 65536u
/* The data block size is a multiple of the least. */
#define AMSEOKBIN_LEAST_BLOCK_SIZE 128u
#define AMSEOKBIN_MOST_BLOCK_SIZE 2097152u

/* Numbers. */
#define AMSEOKBIN_COPY_SECTORS 40u
#define AMSEOKBIN_MOST_NANOSECONDS 999999999u
#define AMSEOKBIN_MOST_SEGMENTS 409u
#define AMSEOKBIN_MOST_RUNS 410u            /* a table of so many runs has room for all */
#define AMSEOKBIN_SEGMENT_TABLE 1227u       /* a table of so many numbers has room for all segments */
#define AMSEOKBIN_MOST_UPDATE_STORES 34u
#define AMSEOKBIN_MOST_MEND_STORES 19u
#define AMSEOKBIN_FORMAT_STORES 80u
#define AMSEOKBIN_NO_GROUP 4u               /* the group past the last store */

/* Refusal numbers. */
enum amseokbin_number {
    AMSEOKBIN_OK = 0,
    AMSEOKBIN_SLICE_SIZE = 1,     /* a lent slice has the wrong size, or is too small for the answer */
    AMSEOKBIN_SIGNATURE = 2,      /* the 16 signature bytes differ */
    AMSEOKBIN_BLOCK_CHECKSUM = 3, /* the block's CRC differs */
    AMSEOKBIN_DEVICE_SIZE = 4,    /* S too small */
    AMSEOKBIN_NOT_ZERO = 5,       /* flags or a zero field not zero */
    AMSEOKBIN_UUID_BYTE = 6,      /* a UUID byte not allowed */
    AMSEOKBIN_METADATA_SIZE = 7,  /* L not allowed */
    AMSEOKBIN_RESERVED_SIZE = 8,  /* R not allowed */
    AMSEOKBIN_AREA_ENTRY = 9,     /* an area entry breaks a limit, or both used entries have one time */
    AMSEOKBIN_NO_BLOCK = 10,      /* neither copy's block is accepted */
    AMSEOKBIN_IDENTITY = 11,      /* both accepted; S, L, R or a UUID differ */
    AMSEOKBIN_NO_RECORD = 12,     /* no whole record in any accepted copy */
    AMSEOKBIN_TWO_RECORDS = 13,   /* the newest whole records of the two copies have one time and different bytes */
    AMSEOKBIN_NOT_LATER = 14,     /* update time not later than the present record's */
    AMSEOKBIN_RECORD_LENGTH = 15, /* record length 0 or over the limit, AMSEOKBIN_RECORD */
    AMSEOKBIN_NOT_IN_STEP = 16,   /* update asked while the copies are not in step */
    AMSEOKBIN_RECORD_FORM = 17,   /* record malformed, or a kind not known */
    AMSEOKBIN_SEGMENT_PLACE = 18, /* a segment empty or not wholly in the data range; or 0 sectors asked for */
    AMSEOKBIN_SEGMENT_CLASH = 19, /* two segments share a sector */
    AMSEOKBIN_NO_ROOM = 20,       /* no free run is long enough */
    AMSEOKBIN_RECORD_FULL = 21,   /* the record already holds the most segments, AMSEOKBIN_MOST_SEGMENTS */
    AMSEOKBIN_NO_SEGMENT = 22,    /* no segment has that position */
    AMSEOKBIN_NO_STORE = 23,      /* no store has that number */
    AMSEOKBIN_HEAD_MOVE = 24      /* moving the head would lose its low water mark */
};

/* Where a field is said to be a side, an area, a present record, a kind or a head's kind. In a field or an argument that the caller makes every number
 * but 0 is the back, or area b. */
enum amseokbin_side { AMSEOKBIN_FRONT = 0, AMSEOKBIN_BACK = 1 };
enum amseokbin_area { AMSEOKBIN_AREA_A = 0, AMSEOKBIN_AREA_B = 1 };
enum amseokbin_present { AMSEOKBIN_PRESENT_NONE = 0, AMSEOKBIN_PRESENT_A = 1, AMSEOKBIN_PRESENT_B = 2 };
enum amseokbin_kind {
    AMSEOKBIN_THIN_METADATA = 1,
    AMSEOKBIN_THIN_DATA = 2,
    AMSEOKBIN_SPARE = 3,
    AMSEOKBIN_METADATA_VOLUME = 4
};
/* The kinds of heads, the first item of a record: without a low water mark, and with one. */
enum amseokbin_head_kind { AMSEOKBIN_HEAD_PLAIN = 16, AMSEOKBIN_HEAD_MARKED = 17 };

/* ---- What the layout has ------------------------------------------------------------------------------------------------- */

/* A refusal: its number, and what stands beside it. Beside 19, AMSEOKBIN_SEGMENT_CLASH, those are two segments that share a sector: `first`
 * is the lowest position that clashes with a later one, `second` the lowest such later position; others may clash too. Positions count from 0
 * in the record that the call was handed, for an update the new one. amseokbin_record_segment refuses such a record too: a segment
 * begins at byte h + position * AMSEOKBIN_SEGMENT of it, where h is the head's length, the record's first two bytes; it has its length in
 * bytes (2 bytes), its kind (2), its first sector (8) and its sectors (8), little-endian. Beside every other number, and beside 0, both are zero. */
struct amseokbin_refusal {
    uint8_t number;
    uint64_t first;
    uint64_t second;
};

/* Device numbers: sectors of the device (S), of the two metadata areas of a copy together (L), of the reserved space (R). */
struct amseokbin_device {
    uint64_t sectors;
    uint32_t metadata;
    uint32_t reserved;
};

struct amseokbin_time {
    uint64_t seconds;
    uint32_t nanoseconds;
};

/* An area entry: the time of the area's record, its length in bytes and their checksum. Unused where all four are zero. */
struct amseokbin_entry {
    uint64_t seconds;
    uint32_t nanoseconds;
    uint32_t bytes;
    uint32_t checksum;
};

/* A signature block: device numbers, the entries of areas a and b, the UUIDs of the pool and of the block device. */
struct amseokbin_block {
    struct amseokbin_device device;
    struct amseokbin_entry a;
    struct amseokbin_entry b;
    uint8_t pool[AMSEOKBIN_UUID];
    uint8_t blockdev[AMSEOKBIN_UUID];
};

/* First sectors of a copy's parts. */
struct amseokbin_copy_map {
    uint64_t header;
    uint64_t block;
    uint64_t a;
    uint64_t b;
    uint64_t reserved;
};

/* Those of both copies, and the data range: from start up to, not including, end. */
struct amseokbin_device_map {
    struct amseokbin_copy_map front;
    struct amseokbin_copy_map back;
    uint64_t start;
    uint64_t end;
};

/* A segment: its kind, its first sector, its length in sectors. */
struct amseokbin_segment {
    uint16_t kind;
    uint64_t start;
    uint64_t sectors;
};

/* A free run: its first sector, its length in sectors. */
struct amseokbin_run {
    uint64_t start;
    uint64_t sectors;
};

/* ---- Refusals, checksum, times ------------------------------------------------------------------------------------------- */

/* The version of the archive, as AMSEOKBIN_VERSION has it. */
uint32_t amseokbin_version(void);

/* Words in ASCII: the first `used` of the bytes; the rest, at least one, are zero. */
struct amseokbin_words {
    uint8_t bytes[AMSEOKBIN_WORDS];
    size_t used;
};

/* What a refusal number says: the words beside it above, without a limit's value. 0 and numbers that are not known have words too. */
struct amseokbin_words amseokbin_refusal_words(uint8_t number);

/* The layout's CRC32 of a slice: CRC-32C, Castagnoli's polynomial (reflected 0x82f63b78). "123456789" gives 0xe3069283, no bytes 0. */
uint32_t amseokbin_checksum(const uint8_t *bytes, size_t bytes_length);

/* The CRC32 of bytes whose CRC32 is `before`, with these after them; `before` is 0 for none. */
uint32_t amseokbin_checksum_continued(uint32_t before, const uint8_t *bytes, size_t bytes_length);

/* Whether a time is later than another: by seconds, then nanoseconds. */
bool amseokbin_later(struct amseokbin_time time, struct amseokbin_time than);

/* ---- Places -------------------------------------------------------------------------------------------------------------- */

struct amseokbin_blocks_answer {
    struct amseokbin_refusal refusal;
    uint64_t front;
    uint64_t back;
};

/* The sectors of the two signature blocks of a drive with so many sectors. 4. */
struct amseokbin_blocks_answer amseokbin_locate_blocks(uint64_t sectors);

struct amseokbin_places_answer {
    struct amseokbin_refusal refusal;
    struct amseokbin_device_map map;
};

/* Where a device's copies and its data range lie. 4, 7, 8. */
struct amseokbin_places_answer amseokbin_places(struct amseokbin_device device);

/* ---- Signature block, one copy ------------------------------------------------------------------------------------------- */

struct amseokbin_block_answer {
    struct amseokbin_refusal refusal;
    struct amseokbin_block block;
};

/* Reads a block of 512 bytes. 1 to 9. */
struct amseokbin_block_answer amseokbin_block_read(const uint8_t *bytes, size_t bytes_length);

/* Writes a block of 512 bytes. 1, 4, 6 to 9. */
struct amseokbin_refusal amseokbin_block_write(struct amseokbin_block block, uint8_t *bytes, size_t bytes_length);

/* A copy: its block, whether area a is whole and whether area b is, and its present record: the whole area with the later time, an
 * amseokbin_present, which is not an amseokbin_area. */
struct amseokbin_copy_answer {
    struct amseokbin_refusal refusal;
    struct amseokbin_block block;
    bool a_whole;
    bool b_whole;
    uint8_t present;
};

/* Reads one copy. 1 to 9. */
struct amseokbin_copy_answer amseokbin_copy_read(const uint8_t *copy, size_t copy_length);

/* ---- One copy in pieces -------------------------------------------------------------------------------------------------- */

/*
 * A copy that arrives in pieces, over a cable or from a file, is read as it comes; it never has to be in memory as a whole. The caller keeps a
 * state of 528 bytes, hands it to each call by value, and goes on with the one that it is given:
 *
 *     struct amseokbin_received state = amseokbin_receive_begin();
 *     // for each piece, in the copy's order:
 *     struct amseokbin_receive_answer a = amseokbin_receive_piece(state, piece, length);
 *     if (a.refusal.number != AMSEOKBIN_OK)
 *         return a.refusal.number; // longer than a copy
 *     state = a.received;
 *     // and after the last:
 *     struct amseokbin_copy_answer copy = amseokbin_receive_end(state);
 *     if (copy.refusal.number != AMSEOKBIN_OK)
 *         return copy.refusal.number; // 1: shorter than a copy; 2 to 9: its block
 *
 * Pieces have any lengths, 0 too, and may be cut anywhere: the end answers what amseokbin_copy_read answers of the copy at once. It may be
 * asked at any time, and more pieces may follow it. A refused piece is not remembered: the end answers of what was taken. Where one copy
 * follows another, hand over at most the AMSEOKBIN_COPY - state.taken bytes that this one still has, and begin again for the next. Where bytes
 * were lost on the way, begin again with the copy's first. Discovery, updates and mends take whole copies. examples/receive.c is a program.
 */

/* The state between two pieces: how many of the copy's bytes were taken; its signature block, each byte that was taken in its place, zero where it
 * is still to come; the checksums of what was taken of the used bytes of area a and of area b. Every state is answered, also one that no call
 * gave: the bytes of a piece that lie in the block are laid into `block`; then with those that lie in the used bytes of an area its checksum is
 * continued. The used bytes are as many from the area's start as its entry in `block` says, none where no record has that length. */
struct amseokbin_received {
    size_t taken;
    uint8_t block[AMSEOKBIN_SECTOR];
    uint32_t a;
    uint32_t b;
};

/* The state before the first piece: zero in every field. */
struct amseokbin_received amseokbin_receive_begin(void);

/* The state from here on; where the piece is refused, the one that was handed in. */
struct amseokbin_receive_answer {
    struct amseokbin_refusal refusal;
    struct amseokbin_received received;
};

/* Takes a piece. 1 where more than AMSEOKBIN_COPY bytes would have been taken with it: then none of it is, and a shorter one may follow. (Where a
 * state that no call gave has more already, 1 for every piece.) */
struct amseokbin_receive_answer amseokbin_receive_piece(struct amseokbin_received received, const uint8_t *piece, size_t piece_length);

/* Reads the copy whose pieces were taken: received.block is its signature block and, where that is accepted, an area is whole whose entry there is
 * used and has the state's checksum. 1 to 9; 1 where other than AMSEOKBIN_COPY bytes were taken. */
struct amseokbin_copy_answer amseokbin_receive_end(struct amseokbin_received received);

/* ---- Discovery ----------------------------------------------------------------------------------------------------------- */

/* A found record: its side and area, its length and time; `other` is 0 where both copies were accepted, else the other copy's refusal
 * number; and the block of the copy that has it. */
struct amseokbin_found_answer {
    struct amseokbin_refusal refusal;
    uint8_t side;
    uint8_t area;
    uint8_t other;
    uint32_t bytes;
    struct amseokbin_time time;
    struct amseokbin_block block;
};

/* Finds the newest whole record of two copies. 1, 10 to 13. */
struct amseokbin_found_answer amseokbin_discover(const uint8_t *front, size_t front_length, const uint8_t *back, size_t back_length);

/* The same, and copies the record to the start of a buffer; bytes past its length stay. AMSEOKBIN_RECORD bytes are room for all.
 * 1, 10 to 13, and 1 for too little room, last. */
struct amseokbin_found_answer amseokbin_read_found(const uint8_t *front, size_t front_length, const uint8_t *back, size_t back_length,
                                                   uint8_t *buffer, size_t buffer_length);

struct amseokbin_step_answer {
    struct amseokbin_refusal refusal;
    bool in_step;
};

/* Whether two copies are in step; those that discovery refuses are not. 1. */
struct amseokbin_step_answer amseokbin_in_step(const uint8_t *front, size_t front_length, const uint8_t *back, size_t back_length);

/* Whether it is sure that the sectors that could not be read matter to nothing: with any bytes in their places discovery, a mend and an
 * update answer and store the same. Where it is not sure the answer is no. Marks have a byte for each of a copy's AMSEOKBIN_COPY_SECTORS
 * sectors, 0 where it was read; one that is missing counts as not read. */
bool amseokbin_settled(const uint8_t *front, size_t front_length, const uint8_t *back, size_t back_length,
                       const uint8_t *front_marks, size_t front_marks_length, const uint8_t *back_marks, size_t back_marks_length);

/* ---- Stores -------------------------------------------------------------------------------------------------------------- */

/*
 * Updates, mends and formatting answer stores: a device sector, and the 512 bytes that go there. They are asked for by number, from 0 up
 * to the count, and have to be written in that order, with a flush of the device after each whose `flush` is set; that is the last of
 * its group. What was written to the device before has to have been flushed before the first. Where a write or a flush fails, store
 * nothing more, and go on as after a power cut. A sector is 512 bytes, whatever the drive's own is. A power cut in an update leaves, of
 * the sectors of one group, each as it was or as stored, and at most one of them with any bytes; then the new record is found exactly when
 * the front's block has landed, and the old one otherwise, byte for byte (docs/PROMISES.md, demand 3). Of cuts in a mend nothing is
 * promised yet, and of cuts in formatting only what docs/FORMAT.md says.
 */
struct amseokbin_store_answer {
    struct amseokbin_refusal refusal;
    uint64_t sector;
    bool flush;
};

/* Applies a store to the two copies in memory: they are then what reading the device again after that store gives. A sector that lies
 * in neither copy changes nothing, so the device has to be the copies' own. After an update, without this or reading again, the next plan
 * would store over the record that was just written. 1, 4, 7, 8. */
struct amseokbin_refusal amseokbin_apply(struct amseokbin_device device, uint64_t sector, const uint8_t *bytes, size_t bytes_length,
                                         uint8_t *front, size_t front_length, uint8_t *back, size_t back_length);

/* Lays a record into an area of a copy in memory, an amseokbin_area, its last sector filled with zeros. 1, 15. */
struct amseokbin_refusal amseokbin_lay(uint8_t *copy, size_t copy_length, uint8_t area, const uint8_t *record, size_t record_length);

/* ---- Updates ------------------------------------------------------------------------------------------------------------- */

/*
 * An update is worked out once, into a plan that the caller keeps. Its stores are then asked for with the copies that it was made of, as
 * they were or with its earlier stores applied, and with its record. They are in four groups: 0 front area, 1 front block, 2 back area,
 * 3 back block.
 */

/* What the new entry says, and the area of each copy that the record goes to. */
struct amseokbin_update {
    struct amseokbin_entry entry;
    uint8_t front;
    uint8_t back;
};

struct amseokbin_update_answer {
    struct amseokbin_refusal refusal;
    struct amseokbin_update plan;
};

/* Whether an update is refused: 1, 10 to 13, 16, 9 (nanoseconds), 14, 15, 17, 18, 19, the first that applies. */
struct amseokbin_refusal amseokbin_update_check(const uint8_t *front, size_t front_length, const uint8_t *back, size_t back_length,
                                                struct amseokbin_time time, const uint8_t *record, size_t record_length);

/* Works an update out. The same numbers. */
struct amseokbin_update_answer amseokbin_update_plan(const uint8_t *front, size_t front_length,
                                                     const uint8_t *back, size_t back_length, struct amseokbin_time time,
                                                     const uint8_t *record, size_t record_length);

/* How many stores a plan has: 2k + 2 of a record that fills k sectors; 2 of the plan of a refused update, none of which is given. Of a plan
 * that no call made it may be more than AMSEOKBIN_MOST_UPDATE_STORES. */
uint64_t amseokbin_update_count(struct amseokbin_update plan);

/* The group of a store, 0 to 3; AMSEOKBIN_NO_GROUP past the last store. */
uint8_t amseokbin_update_group(struct amseokbin_update plan, uint64_t number);

/* A store. 1; 15 for a length that no record has; 1 for a record whose length is not the plan's; 23 past the last store. With a plan that no
 * call made, or other copies, then also 4, 7, 8 for device numbers of the side's copy that are not allowed, and 6, 9 for a block that cannot
 * be written. */
struct amseokbin_store_answer amseokbin_update_store(struct amseokbin_update plan, const uint8_t *front, size_t front_length,
                                                     const uint8_t *back, size_t back_length,
                                                     const uint8_t *record, size_t record_length,
                                                     uint64_t number, uint8_t *bytes, size_t bytes_length);

/* ---- Formatting ---------------------------------------------------------------------------------------------------------- */

/* Fills both copies in memory: area a holds the record, everything not named is zero. 1, 4, 6 to 9 (9 for nanoseconds), 15, 17 to 19. */
struct amseokbin_refusal amseokbin_format(uint8_t *front, size_t front_length, uint8_t *back, size_t back_length,
                                          struct amseokbin_device device, const uint8_t *pool, size_t pool_length,
                                          const uint8_t *blockdev, size_t blockdev_length, struct amseokbin_time time,
                                          const uint8_t *record, size_t record_length);

/* The stores that write two whole copies to a device, in four groups: 0 the back's areas, 1 the back's header, 2 the front's areas, 3 the
 * front's header. Formatting carries no promise about cuts. */
uint64_t amseokbin_format_count(void);

/* The group of a store, 0 to 3; AMSEOKBIN_NO_GROUP past the last store. */
uint8_t amseokbin_format_group(uint64_t number);

/* A store. 1, 4, 7, 8; 23 past the last store. */
struct amseokbin_store_answer amseokbin_format_store(struct amseokbin_device device, const uint8_t *front, size_t front_length,
                                                     const uint8_t *back, size_t back_length,
                                                     uint64_t number, uint8_t *bytes, size_t bytes_length);

/* ---- Mending ------------------------------------------------------------------------------------------------------------- */

/*
 * As for updates. The groups: 0 the other block with both entries unused, 1 the record, 2 the other block with its entry, 3 perhaps a last
 * store to the kept block.
 */

/* The record's length; whether there is anything to store, the side whose copy is kept, the area of that copy with the record, and whether
 * there is a last store. All zero for copies that are in step. Every number but 0 is yes. */
struct amseokbin_mend {
    uint32_t bytes;
    uint8_t needed;
    uint8_t kept;
    uint8_t area;
    uint8_t last;
};

struct amseokbin_mend_answer {
    struct amseokbin_refusal refusal;
    struct amseokbin_mend plan;
};

/* Works a mend out. 1, 10 to 13. */
struct amseokbin_mend_answer amseokbin_mend_plan(const uint8_t *front, size_t front_length,
                                                 const uint8_t *back, size_t back_length);

/* How many stores a plan has: none for copies that are in step, or of a refused mend. */
uint64_t amseokbin_mend_count(struct amseokbin_mend plan);

/* The group of a store, 0 to 3; AMSEOKBIN_NO_GROUP past the last store. */
uint8_t amseokbin_mend_group(struct amseokbin_mend plan, uint64_t number);

/* A store. 1; 23 past the last store. With a plan that no call made, or other copies, also, before 23, 15 for a kept record of a length
 * that no record has and 1 for one whose length is not the plan's; and then 4, 7, 8 for device numbers of the kept copy that are not
 * allowed, and 6, 9 for a block that cannot be written. */
struct amseokbin_store_answer amseokbin_mend_store(struct amseokbin_mend plan, const uint8_t *front, size_t front_length,
                                                   const uint8_t *back, size_t back_length,
                                                   uint64_t number, uint8_t *bytes, size_t bytes_length);

/* ---- Records ------------------------------------------------------------------------------------------------------------- */

/* Checks a record on a device. 4, 7, 8, 15, 17 to 19; all calls below that take a device and a record give these first. */
struct amseokbin_refusal amseokbin_record_check(struct amseokbin_device device, const uint8_t *record, size_t record_length);

/* The head's kind, an amseokbin_head_kind, the data block size in sectors, the low water mark in blocks, 0 where the head has none, and the
 * number of segments. */
struct amseokbin_head_answer {
    struct amseokbin_refusal refusal;
    uint16_t kind;
    uint32_t block_size;
    uint32_t low_water;
    uint64_t segments;
};

struct amseokbin_head_answer amseokbin_record_head(struct amseokbin_device device, const uint8_t *record, size_t record_length);

struct amseokbin_segment_answer {
    struct amseokbin_refusal refusal;
    struct amseokbin_segment segment;
};

/* The segment at a position, counted from 0. 22 last. */
struct amseokbin_segment_answer amseokbin_record_segment(struct amseokbin_device device, const uint8_t *record, size_t record_length,
                                                         uint64_t position);

struct amseokbin_count_answer {
    struct amseokbin_refusal refusal;
    uint64_t count;
};

/* The segments from a position on, as many as a table has room for, three numbers for each: kind, start, length in sectors; how many were
 * handed on: 0 where none is left, also for a position past the last. Numbers past them stay. The record is checked once for all of them; a walk
 * goes on at the position plus that count, until it is 0. 1 where some are left and there is room for none, fewer than 3 numbers, last. */
struct amseokbin_count_answer amseokbin_record_segments(struct amseokbin_device device, const uint8_t *record, size_t record_length,
                                                        uint64_t position, uint64_t *table, size_t table_length);

/* Begins a record with its data block size, in the first AMSEOKBIN_HEAD bytes of a buffer: a head of kind 16. 1 for too little room, then
 * 17 for a size not allowed. */
struct amseokbin_refusal amseokbin_record_begin(uint8_t *buffer, size_t buffer_length, uint32_t block_size);

/* Begins a record with its data block size and a low water mark in blocks, any number, in the first AMSEOKBIN_MARKED_HEAD bytes of a buffer: a
 * head of kind 17. 1 for too little room, then 17 for a size not allowed. */
struct amseokbin_refusal amseokbin_record_begin_marked(uint8_t *buffer, size_t buffer_length, uint32_t block_size, uint32_t low_water);

/* A record's length in bytes. */
struct amseokbin_length_answer {
    struct amseokbin_refusal refusal;
    uint64_t length;
};

/* Puts a segment at a position of a record that was begun in a buffer; the length is that of the record that ends with it, so where it
 * goes on top of an earlier one the record may be longer than that. The segment and the position may be anything: amseokbin_record_check tests
 * the whole record. 17 for a buffer that does not begin with a whole head within its limits, 1 for too little room, last. */
struct amseokbin_length_answer amseokbin_record_put(uint8_t *buffer, size_t buffer_length, uint64_t position,
                                                    struct amseokbin_segment segment);

/* ---- Heads --------------------------------------------------------------------------------------------------------------- */

/*
 * A record has one head, its first item: of kind 16, or of kind 17, which has a place for a low water mark. It is meant for the
 * number of free blocks inside the thin data device; nothing here counts those. These three calls write the record with another head to a buffer, or
 * as it is where its head is already that one. Block size, segments, their order and the free room stay, and so do bytes past the new
 * record; the answer is its length. AMSEOKBIN_RECORD bytes are always room enough; moving up from kind 16 takes 4 more than the record has.
 */

/* Moves the head up: one of kind 16 becomes one of kind 17 with the mark 0; a record of kind 17 is written as it is, with its mark. 1 for too
 * little room, last. */
struct amseokbin_length_answer amseokbin_head_up(struct amseokbin_device device, const uint8_t *record, size_t record_length,
                                                 uint8_t *changed, size_t changed_length);

/* Moves the head back: one of kind 17 becomes one of kind 16; a record of kind 16 is written as it is. Then 24 where the head has kind 17 and its
 * mark is not 0, and 1 for too little room, last. A record of kind 16 that was moved up and back has the bytes that it had. */
struct amseokbin_length_answer amseokbin_head_back(struct amseokbin_device device, const uint8_t *record, size_t record_length,
                                                   uint8_t *changed, size_t changed_length);

/* Sets the low water mark of a head of kind 17, to any number. Then 17 for a head of kind 16, which has no place for one, also where the mark is 0,
 * and 1 for too little room, last. */
struct amseokbin_length_answer amseokbin_head_mark(struct amseokbin_device device, const uint8_t *record, size_t record_length,
                                                   uint32_t low_water, uint8_t *changed, size_t changed_length);

/* ---- Free room ----------------------------------------------------------------------------------------------------------- */

struct amseokbin_total_answer {
    struct amseokbin_refusal refusal;
    uint64_t sectors;
};

/* Free sectors. */
struct amseokbin_total_answer amseokbin_free_total(struct amseokbin_device device, const uint8_t *record, size_t record_length);

/* The free runs, ascending, to a table with room for so many runs; how many there are. Entries past them stay. 1 for too little room, last. */
struct amseokbin_count_answer amseokbin_free_runs(struct amseokbin_device device, const uint8_t *record, size_t record_length,
                                                  struct amseokbin_run *table, size_t table_length);

/* How many free runs there are. */
struct amseokbin_count_answer amseokbin_run_count(struct amseokbin_device device, const uint8_t *record, size_t record_length);

struct amseokbin_run_answer {
    struct amseokbin_refusal refusal;
    struct amseokbin_run run;
};

/* The free run with a number, counted from 0 and ascending; a run of no sectors at 0 where there is none. */
struct amseokbin_run_answer amseokbin_run_at(struct amseokbin_device device, const uint8_t *record, size_t record_length, uint64_t number);

/* The free run of lowest start that has so many sectors or more. Then 18, 20. */
struct amseokbin_run_answer amseokbin_first_fit(struct amseokbin_device device, const uint8_t *record, size_t record_length,
                                                uint64_t sectors);

/* A new segment's first sector, and the new record's length in bytes. */
struct amseokbin_allocation_answer {
    struct amseokbin_refusal refusal;
    uint64_t start;
    uint64_t length;
};

/* Appends a segment of a kind and so many sectors, in the free run of lowest start that is long enough. The new record goes to a buffer;
 * bytes past it stay. Then 17, 18, 21, 20, and 1 for too little room, last. */
struct amseokbin_allocation_answer amseokbin_allocate(struct amseokbin_device device, const uint8_t *record, size_t record_length,
                                                      uint16_t kind, uint64_t sectors, uint8_t *changed, size_t changed_length);

/* Removes the segment at a position. The new record goes to a buffer; bytes past it stay. Then 22, and 1 for too little room, last. */
struct amseokbin_length_answer amseokbin_release(struct amseokbin_device device, const uint8_t *record, size_t record_length,
                                                 uint64_t position, uint8_t *changed, size_t changed_length);

#ifdef __cplusplus
}
#endif

#endif
