/*
 * The worked session of the bench: a list, then three messages. It prints
 *
 *     list OK
 *     OK 0 0 00c0030702000000
 *     N7 0 0 00c0050100000000
 *     OK 0 0 -
 *
 * and to its log, the standard error, what the sender of each request is to the processor:
 *
 *     OK request of 1 by host 3: recovery master
 *     N7 request of 1 by host 5: secondary 0
 *
 * and last the tallies of processor 1, which no message asks for:
 *
 *     tallies of 1: grants 1, overrides 0, handovers 0, releases 1
 *
 * With the argument `largest` it first describes the largest board, 64 hosts and 32 processors, and prints
 * `board OK` before these lines: the session is the same there. With the argument `block` it offers the
 * list in a block and prints `block OK` for its first line.
 *
 * Build it from the repository's root, after `make library`:
 *
 *     cc -std=c99 -Wall -Wextra -Werror -pedantic -O2 -Iinclude examples/bench.c \
 *         target/staticlib/libpomrozek.a -o bench
 */
#include <stdio.h>
#include <string.h>

#include "pomrozek.h"

/* The manager. pomrozek_start fills the first; the other two are zeros, as a fresh one's. */
static uint8_t board_memory[POMROZEK_BOARD_BYTES];
static uint16_t access_memory[POMROZEK_ACCESS_WORDS];
static uint32_t record_memory[POMROZEK_RECORD_WORDS];

/* The bench list. Processor 1: master 3, secondary 5. Processor 2: master 3, secondaries 6, 10. */
static const uint8_t bench_list[POMROZEK_LIST_BYTES] = {
    0xEA, 0xF1, 0x24, 0x01,                               /* magic, size 292 */
    0x01, 0x03, 0x00, 0x05, 0x00, 0x00, 0x00, 0x00, 0x00, /* entry 0 */
    0x02, 0x03, 0x00, 0x06, 0x00, 0x0A, 0x00, 0x00, 0x00  /* entry 1; the other 30 are unused */
};

/* Type, host, sequence, flags (2 asks for an answer), processor. */
static const uint8_t request_by_3[] = {0x00, 0xC0, 3, 7, 2, 0, 0, 0, 1};
static const uint8_t request_by_5[] = {0x00, 0xC0, 5, 1, 2, 0, 0, 0, 1};
static const uint8_t release_by_3[] = {0x01, 0xC0, 3, 8, 0, 0, 0, 0, 1};

/* Prints a verdict's name: OK, A1 to A8, B1 to B10 for the numbers above 100, D1 to D6 above 200. */
static void print_verdict(uint32_t verdict)
{
    if (verdict == POMROZEK_ACCEPTED)
        printf("OK");
    else if (verdict > 200)
        printf("D%u", (unsigned)(verdict - 200));
    else if (verdict > 100)
        printf("B%u", (unsigned)(verdict - 100));
    else
        printf("A%u", (unsigned)verdict);
}

/* Prints an outcome's name: OK, N1 to N9, or R1 to R3 for the numbers above 100. */
static void print_outcome(uint32_t outcome)
{
    if (outcome == POMROZEK_OK)
        printf("OK");
    else if (outcome > 100)
        printf("R%u", (unsigned)(outcome - 100));
    else
        printf("N%u", (unsigned)outcome);
}

/* What a role is called in the log, by its number. */
static const char *const role_names[] = {
    [POMROZEK_ROLE_NONE] = "none",
    [POMROZEK_ROLE_MASTER] = "recovery master",
    [POMROZEK_ROLE_SECONDARY_0] = "secondary 0",
    [POMROZEK_ROLE_SECONDARY_1] = "secondary 1",
    [POMROZEK_ROLE_SECONDARY_2] = "secondary 2",
    [POMROZEK_ROLE_OPEN] = "open processor",
};

/* Logs a request that came to N7 or OK, with the role that the report tells and no answer holds. */
static void log_request(uint8_t channel, const uint8_t *message, uint32_t outcome, uint32_t role)
{
    if (outcome != POMROZEK_OK && outcome != POMROZEK_N7)
        return;
    fprintf(stderr, "%s request of %u by host %u: %s\n", outcome == POMROZEK_OK ? "OK" : "N7",
            (unsigned)message[8], (unsigned)channel, role_names[role]);
}

/* Logs the four tallies of a processor, which stand in its row of the record memory. */
static void log_tallies(uint8_t processor)
{
    const uint8_t row = board_memory[POMROZEK_BOARD_PLACES + processor];
    const uint32_t *words;

    if (row >= POMROZEK_ROWS) /* not on the board */
        return;
    words = record_memory + POMROZEK_ROW_WORDS * row;
    fprintf(stderr, "tallies of %u: grants %u, overrides %u, handovers %u, releases %u\n",
            (unsigned)processor, (unsigned)words[POMROZEK_GRANTS], (unsigned)words[POMROZEK_OVERRIDES],
            (unsigned)words[POMROZEK_HANDOVERS], (unsigned)words[POMROZEK_RELEASES]);
}

/* Prints the answer's bytes in hexadecimal, or a dash where none were written. */
static void print_answer(const uint8_t *answer, uint32_t written)
{
    uint32_t i;

    if (written == 0)
        printf("-");
    for (i = 0; i < written; i++)
        printf("%02x", (unsigned)answer[i]);
}

/*
 * Describes the largest board, and prints the verdict: hosts 1 to 64, of which 3 and 10 are secure, and
 * processors 32 down to 1, each R5 and alone, so that processor 1 has the last row.
 */
static void describe(void)
{
    uint8_t bytes[5 * POMROZEK_HOSTS + 6 * POMROZEK_ROWS];
    size_t length = 0;
    uint8_t number;

    for (number = 1; number <= POMROZEK_HOSTS; number++) {
        bytes[length++] = 1; /* a host: two bytes */
        bytes[length++] = 2;
        bytes[length++] = 0;
        bytes[length++] = number;
        bytes[length++] = number == 3 || number == 10;
    }
    for (number = POMROZEK_ROWS; number >= 1; number--) {
        bytes[length++] = 2; /* a processor: three bytes */
        bytes[length++] = 3;
        bytes[length++] = 0;
        bytes[length++] = number;
        bytes[length++] = 0; /* R5 */
        bytes[length++] = 0; /* alone */
    }
    printf("board ");
    print_verdict(pomrozek_board(board_memory, access_memory, bytes, length));
    printf("\n");
}

/* Offers the list and prints the verdict. */
static void offer(const uint8_t *list, size_t length)
{
    printf("list ");
    print_verdict(pomrozek_list(board_memory, access_memory, list, length));
    printf("\n");
}

/*
 * Offers the list in a block and prints the verdict, and with B8 the host. In its hierarchy hosts 5 and 6
 * have supervisor 3, which has 10; the OTP part holds nothing.
 */
static void offer_block(const uint8_t *list)
{
    static const uint8_t hierarchy[] = {0x27, 0x8D, 68, 0, 5, 3, 6, 3, 3, 10};
    static const uint8_t otp[] = {0x81, 0x40, 69, 0};
    uint8_t block[POMROZEK_BLOCK_BYTES] = {0, 1}; /* the ABI bytes */
    uint32_t loop[POMROZEK_LOOP_WORDS];
    uint32_t verdict;

    memcpy(block + 2, list, POMROZEK_LIST_BYTES);
    memcpy(block + 294, hierarchy, sizeof hierarchy);
    memcpy(block + 362, otp, sizeof otp);
    verdict = pomrozek_block(board_memory, access_memory, 0, 1, block, sizeof block, loop);
    printf("block ");
    print_verdict(verdict);
    if (verdict == POMROZEK_B8)
        printf(" %u", (unsigned)loop[0]);
    printf("\n");
}

/*
 * Sends one message from the queue of host `channel`, prints outcome, checks, microseconds and answer,
 * and logs a request. These messages need no status word: the pointer is valid, the length 0.
 */
static void deliver(uint8_t channel, const uint8_t *message, size_t length)
{
    static const uint32_t status[1] = {0};
    uint8_t answer[POMROZEK_ANSWER_BYTES] = {0};
    uint32_t report[POMROZEK_REPORT_WORDS];
    uint32_t outcome;

    outcome = pomrozek_message(board_memory, access_memory, record_memory, channel, message, length,
                               status, 0, answer, sizeof answer, report);
    print_outcome(outcome);
    printf(" %u %u ", (unsigned)report[POMROZEK_CHECKS], (unsigned)report[POMROZEK_MICROS]);
    print_answer(answer, report[POMROZEK_WRITTEN]);
    printf("\n");
    if (message[0] == 0x00 && message[1] == 0xC0)
        log_request(channel, message, outcome, report[POMROZEK_ROLE]);
}

int main(int argc, char **argv)
{
    const char *mode = argc > 1 ? argv[1] : "";

    pomrozek_start(board_memory); /* document 01's board */
    if (strcmp(mode, "largest") == 0)
        describe();
    if (strcmp(mode, "block") == 0)
        offer_block(bench_list);
    else
        offer(bench_list, sizeof bench_list);
    deliver(3, request_by_3, sizeof request_by_3); /* free and permitted: granted */
    deliver(5, request_by_5, sizeof request_by_5); /* held by 3, and 5 is no recovery master: N7 */
    deliver(3, release_by_3, sizeof release_by_3); /* carried out; flag bit 1 is clear: no answer */
    log_tallies(1);
    return 0;
}
