/*
 * Pomrozek's replay of session recordings that are delivered in pieces of any size. Three functions over
 * memory that the caller lends. x86-64 System V; link target/staticlib/libpomrozek_replay.a
 * (`make library`). It stands alone: pomrozek.h and libpomrozek.a are not needed, and both
 * libraries may be linked into one program.
 *
 * Recordings. A recording is fields one behind the other, each a tag, a length of two bytes, low byte
 * first, and as many bytes. A field is carried out once it is whole, and prints one line; status words
 * print none.
 *
 *     tag  holds                                     length                      prints
 *      1   an access list                            0 to 512                    list OK, list A5
 *      2   status words, standing until the next     a multiple of 4, to 1,020   nothing
 *      3   channel host and message                  1 to 512                    OK 0 0 00c0030702000000
 *      4   a security board configuration (block)    0 to 512                    block OK, block B8 5
 *      6   a board description                       0 to 512                    board OK, board D3
 *
 * The line of a message is its outcome, checks, microseconds and answer in hexadecimal, or `-` for none.
 * Any other tag, judged alone, and any other length, judged once both its bytes are there and before the
 * body, prints `bad record`. A field that the announced end cuts off prints `cut record`. Either line is
 * the recording's last.
 *
 * Pieces. A recording may be cut anywhere, also within a length or behind a tag, and a piece may be empty.
 * Any cutting prints the same lines, whatever the lengths of the pieces and of the outputs.
 *
 * Memory. The caller owns every array. A call reads and writes what it is lent and keeps no pointer once
 * it has returned. The library has no heap, no globals and makes no system calls; of the C library it needs
 * memcpy and memset. All that it knows of a recording is in six arrays, together 4,041 bytes. No bound of
 * the stack is proved.
 *
 * State. A session is one board, access, record, word and carry memory and one stream.
 * pomrozek_replay_start makes it a fresh one, whatever it held. Word and carry memory need no set-up: the
 * stream says how much of them counts. Any content is a session, and no content is undefined.
 *
 * Pointers. Each must be valid for its whole length. Those to 16, 32 and 64 bits must be aligned for their
 * type; those to bytes need no alignment. None may be null, also where its length is 0. Arrays lent to one
 * call must not overlap each other.
 *
 * Calls. One at a time for each session: a second call on the same memory, from an interrupt or from
 * another core, must wait until the first has returned. Sessions with memory of their own are independent
 * of each other.
 */
#ifndef POMROZEK_REPLAY_H
#define POMROZEK_REPLAY_H

#include <stddef.h>
#include <stdint.h>

#ifdef __cplusplus
extern "C" {
#endif

/* The manager's memories: bytes, words of 16 bits and words of 32 bits, laid out as pomrozek.h says. */
#define POMROZEK_REPLAY_BOARD_BYTES 576
#define POMROZEK_REPLAY_ACCESS_WORDS 129
#define POMROZEK_REPLAY_RECORD_WORDS 288

/* The word memory, in words of 32 bits: the status words that stand, from word 0 on. */
#define POMROZEK_REPLAY_STATUS_WORDS 255

/*
 * The carry memory, in bytes: from byte 0 on those of a field that is not whole yet, from its tag on. It
 * has room for the longest field, with tag and length. Where a piece is used up it holds at most 1,022.
 */
#define POMROZEK_REPLAY_CARRY_BYTES 1023

/*
 * The stream, in words of 32 bits, by enum pomrozek_replay_stream. Any content is a stream: more bytes than
 * the carry has count as 1,023, more standing words than there are as 255, and any number but 0 in the last
 * word says that the recording is over. A call leaves 0 or 1 there.
 */
#define POMROZEK_REPLAY_STREAM_WORDS 3

enum pomrozek_replay_stream {
    POMROZEK_REPLAY_HELD = 0,     /* bytes in the carry */
    POMROZEK_REPLAY_STANDING = 1, /* status words that stand */
    POMROZEK_REPLAY_IS_OVER = 2   /* 0 until a bad record is printed or the end is announced */
};

/* Room that any line fits in, with its newline. No record is carried out where less is left. */
#define POMROZEK_REPLAY_LINE_BYTES 96

/* How far a call came, by enum pomrozek_replay_progress. */
#define POMROZEK_REPLAY_PROGRESS_WORDS 2

enum pomrozek_replay_progress {
    POMROZEK_REPLAY_TAKEN = 0,  /* bytes of the piece that were taken, from its start */
    POMROZEK_REPLAY_PRINTED = 1 /* bytes of the output that were printed, from its start */
};

/* What pomrozek_replay_feed and pomrozek_replay_end give. */
enum pomrozek_replay_status {
    POMROZEK_REPLAY_FED = 0,  /* the piece is used up: all its bytes are taken */
    POMROZEK_REPLAY_FULL = 1, /* a record or the end waits for an output with 96 bytes left */
    POMROZEK_REPLAY_OVER = 2  /* the recording is over: nothing more is ever printed */
};

/*
 * Starts a session: document 01's board, nothing accepted, all records free, nothing carried, no status
 * words. Access memory, record memory and stream are then zeros.
 *
 * board    the board memory
 * access   the access memory
 * records  the record memory
 * stream   the stream
 */
void pomrozek_replay_start(uint8_t board[POMROZEK_REPLAY_BOARD_BYTES],
                           uint16_t access[POMROZEK_REPLAY_ACCESS_WORDS],
                           uint32_t records[POMROZEK_REPLAY_RECORD_WORDS],
                           uint32_t stream[POMROZEK_REPLAY_STREAM_WORDS]);

/*
 * Feeds a piece: carries out the records that are whole with it and prints their lines, one behind the
 * other.
 *
 * board      the board memory; changed by a description that is taken
 * access     the access memory; changed by a list or block that is accepted
 * records    the record memory; changed by a message with outcome OK
 * words      the word memory; changed by status words
 * carry      the carry memory
 * stream     the stream
 * piece      the piece's bytes, only read
 * piece_len  their number; any, 0 as well
 * out        buffer for the lines; bytes behind the printed ones keep their values
 * out_len    its length; with less than 96 bytes no record is carried out
 * progress   written by every call; what it held is not looked at
 *
 * Returns FED, FULL or OVER. FULL: a whole or a bad record waits and less than 96 bytes are left of the
 * output. Write out what was printed and call again, with the rest of the piece (from piece + taken on,
 * which may be no byte) and with an output of 96 bytes or more. OVER: the recording was over before, or a
 * bad record has ended it now, whose line is the last one printed; every byte of the piece counts as taken.
 */
uint32_t pomrozek_replay_feed(uint8_t board[POMROZEK_REPLAY_BOARD_BYTES],
                              uint16_t access[POMROZEK_REPLAY_ACCESS_WORDS],
                              uint32_t records[POMROZEK_REPLAY_RECORD_WORDS],
                              uint32_t words[POMROZEK_REPLAY_STATUS_WORDS],
                              uint8_t carry[POMROZEK_REPLAY_CARRY_BYTES],
                              uint32_t stream[POMROZEK_REPLAY_STREAM_WORDS], const uint8_t *piece,
                              size_t piece_len, uint8_t *out, size_t out_len,
                              uint64_t progress[POMROZEK_REPLAY_PROGRESS_WORDS]);

/*
 * Announces the end of the recording, once the last piece is used up (FED). Prints `cut record` where a
 * field is not whole, else nothing, and the recording is over. Announced again, or behind a bad record, it
 * prints nothing.
 *
 * carry     the carry memory, only read
 * stream    the stream
 * out       buffer for the line; bytes behind the printed ones keep their values
 * out_len   its length
 * progress  written by every call; what it held is not looked at. No byte is taken: its first word is 0
 *
 * Returns OVER, or FULL where the recording is not over yet and the output has less than 96 bytes: then
 * nothing is printed and the stream stays as it was. Call again with a longer one.
 */
uint32_t pomrozek_replay_end(const uint8_t carry[POMROZEK_REPLAY_CARRY_BYTES],
                             uint32_t stream[POMROZEK_REPLAY_STREAM_WORDS], uint8_t *out,
                             size_t out_len, uint64_t progress[POMROZEK_REPLAY_PROGRESS_WORDS]);

#ifdef __cplusplus
}
#endif

#endif
