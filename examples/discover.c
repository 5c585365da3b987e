/*
 * Finds the newest record in a dump of two copies: 40,960 bytes, the front copy and then the back.
 *
 *     cc -std=c99 -Wall -Wextra -O2 -Iinclude -o discover examples/discover.c target/staticlib/libamseokbin.a
 *     ./discover DUMP
 *
 * Prints one line: `found`, copy, area, length, seconds, nanoseconds, and `both` or the other copy's refusal number; or
 * `refused`, the number and its words. Exit status: 0 found, 1 refused, 2 the dump could not be read.
 */
#include <inttypes.h>
#include <stdio.h>

#include "amseokbin.h"

#define DUMP (2 * AMSEOKBIN_COPY)

/* One byte more, to see whether the file goes on. */
static uint8_t dump[DUMP + 1];

static int read_dump(const char *name)
{
    FILE *file = fopen(name, "rb");
    if (file == NULL) {
        perror(name);
        return -1;
    }
    size_t length = fread(dump, 1, sizeof dump, file);
    int failed = ferror(file);
    fclose(file);
    if (failed) {
        fprintf(stderr, "%s: cannot be read\n", name);
        return -1;
    }
    if (length != DUMP) {
        fprintf(stderr, "%s: not a dump, which has %u bytes\n", name, DUMP);
        return -1;
    }
    return 0;
}

static void print_found(struct amseokbin_found_answer found)
{
    const char *side = found.side == AMSEOKBIN_FRONT ? "front" : "back";
    const char *area = found.area == AMSEOKBIN_AREA_A ? "a" : "b";
    printf("found %s %s %" PRIu32 " %" PRIu64 " %" PRIu32 " ", side, area, found.bytes, found.time.seconds,
           found.time.nanoseconds);
    if (found.other == AMSEOKBIN_OK)
        printf("both\n");
    else
        printf("%d\n", found.other);
}

static void print_refusal(struct amseokbin_refusal refusal)
{
    struct amseokbin_words words = amseokbin_refusal_words(refusal.number);
    printf("refused %d: %.*s\n", refusal.number, (int)words.used, (const char *)words.bytes);
}

int main(int argc, char **argv)
{
    if (argc != 2) {
        fprintf(stderr, "usage: discover DUMP\n");
        return 2;
    }
    if (read_dump(argv[1]) != 0)
        return 2;
    struct amseokbin_found_answer found =
        amseokbin_discover(dump, AMSEOKBIN_COPY, dump + AMSEOKBIN_COPY, AMSEOKBIN_COPY);
    if (found.refusal.number != AMSEOKBIN_OK) {
        print_refusal(found.refusal);
        return 1;
    }
    print_found(found);
    return 0;
}
