/*
 * Replays a recording that comes in pieces: reads it from standard input, feeds it to the replay library
 * and writes the lines to standard output.
 *
 *     pieces             each byte is a piece of its own
 *     pieces 7           pieces of 7 bytes, the last one of what is left
 *     pieces 7 96        the same, with an output of 96 bytes in place of 4,096
 *
 * Any cutting prints the same lines. Build it from the repository's root, after
 * `make library`:
 *
 *     cc -std=c99 -Wall -Wextra -Werror -pedantic -O2 -Iinclude examples/pieces.c \
 *         target/staticlib/libpomrozek_replay.a -o pieces
 */
#include <stdio.h>
#include <stdlib.h>

#include "pomrozek_replay.h"

/* The longest piece and the longest output. */
#define MOST_BYTES 65536

/* The session. pomrozek_replay_start fills all but words and carry, which need no set-up. */
static uint8_t board_memory[POMROZEK_REPLAY_BOARD_BYTES];
static uint16_t access_memory[POMROZEK_REPLAY_ACCESS_WORDS];
static uint32_t record_memory[POMROZEK_REPLAY_RECORD_WORDS];
static uint32_t word_memory[POMROZEK_REPLAY_STATUS_WORDS];
static uint8_t carry_memory[POMROZEK_REPLAY_CARRY_BYTES];
static uint32_t stream[POMROZEK_REPLAY_STREAM_WORDS];

static uint8_t piece[MOST_BYTES];
static uint8_t out[MOST_BYTES];

/* Writes what a call has printed. Returns 0, or -1 where it cannot be written. */
static int write_lines(const uint64_t progress[POMROZEK_REPLAY_PROGRESS_WORDS])
{
    const size_t printed = (size_t)progress[POMROZEK_REPLAY_PRINTED];

    return fwrite(out, 1, printed, stdout) == printed ? 0 : -1;
}

/*
 * Feeds one piece. Where a record waits for room its rest is fed again, since the lines so far are written
 * by then. Returns FED or OVER, or -1 where a line cannot be written.
 */
static int feed(const uint8_t *bytes, size_t length, size_t out_length)
{
    uint64_t progress[POMROZEK_REPLAY_PROGRESS_WORDS];
    uint32_t status;

    do {
        status = pomrozek_replay_feed(board_memory, access_memory, record_memory, word_memory,
                                      carry_memory, stream, bytes, length, out, out_length, progress);
        if (write_lines(progress) != 0)
            return -1;
        bytes += progress[POMROZEK_REPLAY_TAKEN];
        length -= (size_t)progress[POMROZEK_REPLAY_TAKEN];
    } while (status == POMROZEK_REPLAY_FULL);
    return (int)status;
}

/* Announces the end. The output is empty and has room for any line, so that one call is enough. */
static int announce_end(size_t out_length)
{
    uint64_t progress[POMROZEK_REPLAY_PROGRESS_WORDS];

    pomrozek_replay_end(carry_memory, stream, out, out_length, progress);
    return write_lines(progress);
}

/* Replays the standard input. Returns 0, or -1 where it cannot be read or a line cannot be written. */
static int replay(size_t piece_length, size_t out_length)
{
    size_t length;

    pomrozek_replay_start(board_memory, access_memory, record_memory, stream);
    while ((length = fread(piece, 1, piece_length, stdin)) > 0) {
        const int status = feed(piece, length, out_length);

        if (status < 0)
            return -1;
        if (status == POMROZEK_REPLAY_OVER) /* behind a bad record nothing is printed */
            break;
    }
    if (ferror(stdin) || announce_end(out_length) != 0)
        return -1;
    return fflush(stdout) == 0 ? 0 : -1;
}

/* The argument at a place, or `absent` where there is none; 0 where it is no number from `least` on. */
static size_t number_of(int argc, char **argv, int place, size_t absent, size_t least)
{
    unsigned long number;
    char *end;

    if (argc <= place)
        return absent;
    number = strtoul(argv[place], &end, 10);
    if (*end != '\0' || number < least || number > MOST_BYTES)
        return 0;
    return (size_t)number;
}

int main(int argc, char **argv)
{
    const size_t piece_length = number_of(argc, argv, 1, 1, 1);
    /* with less than the room for a line no record would ever be carried out */
    const size_t out_length = number_of(argc, argv, 2, 4096, POMROZEK_REPLAY_LINE_BYTES);

    if (argc > 3 || piece_length == 0 || out_length == 0) {
        fprintf(stderr, "usage: pieces [BYTES OF A PIECE [BYTES OF THE OUTPUT, 96 OR MORE]]\n");
        return 2;
    }
    return replay(piece_length, out_length) == 0 ? 0 : 1;
}
