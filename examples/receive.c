/*
 * Reads one copy, 20,480 bytes, from standard input in pieces of 100 bytes at the most, as a board reads it from a cable: it never has more of
 * the copy than one piece.
 *
 *     cc -std=c99 -Wall -Wextra -O2 -Iinclude -o receive examples/receive.c target/staticlib/libamseokbin.a
 *     ./receive <COPY
 *
 * Prints one line: `present`, area, length, seconds and nanoseconds of the copy's present record, or `nothing` where no area is whole; or
 * `refused`, the number and its words. Exit status: 0 a present record, 1 none, or refused, 2 standard input could not be read, standard
 * output not written, or the archive is of another version than the header.
 */
#include <inttypes.h>
#include <stdio.h>

#include "amseokbin.h"

#define PIECE 100

static int print_refusal(struct amseokbin_refusal refusal)
{
    struct amseokbin_words words = amseokbin_refusal_words(refusal.number);
    printf("refused %d: %.*s\n", refusal.number, (int)words.used, (const char *)words.bytes);
    return 1;
}

static int print_copy(struct amseokbin_copy_answer copy)
{
    struct amseokbin_entry entry = copy.present == AMSEOKBIN_PRESENT_A ? copy.block.a : copy.block.b;
    if (copy.present == AMSEOKBIN_PRESENT_NONE) {
        printf("nothing\n");
        return 1;
    }
    printf("present %s %" PRIu32 " %" PRIu64 " %" PRIu32 "\n", copy.present == AMSEOKBIN_PRESENT_A ? "a" : "b", entry.bytes, entry.seconds,
           entry.nanoseconds);
    return 0;
}

/* Takes pieces until standard input ends or one is refused. */
static struct amseokbin_receive_answer read_pieces(void)
{
    static uint8_t piece[PIECE];
    struct amseokbin_receive_answer answer = {{0, 0, 0}, amseokbin_receive_begin()};
    while (answer.refusal.number == AMSEOKBIN_OK && !feof(stdin) && !ferror(stdin)) {
        size_t length = fread(piece, 1, sizeof piece, stdin);
        if (!ferror(stdin))
            answer = amseokbin_receive_piece(answer.received, piece, length);
    }
    return answer;
}

int main(void)
{
    struct amseokbin_receive_answer last;
    struct amseokbin_copy_answer copy;
    int status;
    if (amseokbin_version() != AMSEOKBIN_VERSION)
        return 2;
    last = read_pieces();
    if (ferror(stdin)) {
        perror("standard input");
        return 2;
    }
    copy = amseokbin_receive_end(last.received);
    if (last.refusal.number != AMSEOKBIN_OK)
        status = print_refusal(last.refusal);
    else if (copy.refusal.number != AMSEOKBIN_OK)
        status = print_refusal(copy.refusal);
    else
        status = print_copy(copy);
    return fflush(stdout) == 0 ? status : 2;
}
