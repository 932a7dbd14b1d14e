/*
 * Pomrozek: a manager of processor boot that speaks TISCI messages. Five functions over memory that the
 * caller lends. x86-64 System V; link target/staticlib/libpomrozek.a (`make library`).
 *
 * Memory. The caller owns every array. A call reads and writes what it is lent and keeps no pointer
 * once it has returned. The library has no heap, no globals and makes no system calls: the archive
 * has no writable data and leaves no symbol undefined, not even memcpy or memset. No bound of the stack
 * is proved; docs/INTEGRATION.md says what is known of it.
 *
 * State. A manager is one board memory, one access memory and one record memory. pomrozek_start
 * fills the board memory; access and record memory all zeros are a fresh manager's, so static arrays
 * need no set-up. Any content is a state, and no content is undefined. A board memory of zeros is a
 * board with every processor number in row 0 and no host but 0: call pomrozek_start first.
 *
 * Pointers. Each must be aligned for its type and valid for its whole length. None may be null,
 * also where its length is 0. Arrays lent to one call must not overlap each other.
 *
 * Calls. One at a time for each manager: a second call on the same memory, from an interrupt or
 * from another core, must wait until the first has returned. Managers with memory of their own are
 * independent of each other.
 */
#ifndef POMROZEK_H
#define POMROZEK_H

#include <stddef.h>
#include <stdint.h>

#ifdef __cplusplus
extern "C" {
#endif

/* A board has at most 32 processors, each with a row, and 64 hosts besides host 0. */
#define POMROZEK_ROWS 32
#define POMROZEK_HOSTS 64

/*
 * The board memory, in bytes. By host number: 0 no host, 2 a secure host, any other number a host
 * that is not secure; the byte of host 0 is not looked at, since host 0 is on every board. Then by
 * processor number: its row, or a number from 32 on where it is not on the board. Then by row: the
 * class of its processor, 0 for R5 and 1 for ARMv8, of which the lowest bit counts. Then by row: its
 * home, the row where its control word is kept, of which the lowest five bits count.
 *
 * A description that is taken leaves 1 or 2 for its hosts and 0 for the others; its processors' rows
 * in their order, from 0, and 32 for the others; their classes; as home of an ARMv8 processor in a
 * cluster the row of the cluster's first, of any other its own row. Rows without a processor have
 * class 0 and themselves as home.
 */
#define POMROZEK_BOARD_BYTES 576
#define POMROZEK_BOARD_PLACES 256  /* the row of processor p is byte 256 + p */
#define POMROZEK_BOARD_CLASSES 512 /* the class of row r is byte 512 + r */
#define POMROZEK_BOARD_HOMES 544   /* the home of row r is byte 544 + r */

/*
 * The access memory, in words of 16 bits. Word 0 is 0 until a list is accepted, alone or in a block, and
 * 1 from then on; any number but 0 counts as accepted. Which of the two it was is not kept. Then four words
 * for each row, from word 1 + 4 * row on: recovery master (0: no entry) and three secondaries (0: unused).
 */
#define POMROZEK_ACCESS_WORDS 129

/*
 * The record memory, in words of 32 bits. Eight words for each row, from word 8 * row on: controller
 * (0: none), boot vector low, boot vector high, config word, and the four tallies, by enum
 * pomrozek_tally. Then one control word for each home: that of row r is word 256 + the home of r. The
 * processors of an ARMv8 cluster have one home, and so one control word; their tallies are each one's own.
 */
#define POMROZEK_RECORD_WORDS 288
#define POMROZEK_ROW_WORDS 8  /* the words of row r are from word 8 * r on */
#define POMROZEK_CONTROLS 256 /* the control word of home h is word 256 + h */

/*
 * The tallies of a processor, by their place in its row: how often its controller was changed, and how. A
 * message counts if its outcome is OK, answered or not, and if it left another controller than before. So a
 * recovery master that requests what it holds counts nowhere, and neither does a handover to oneself. Each
 * tally stays at POMROZEK_TALLY_CAP once there. No answer and no report holds them.
 *
 * After any sequence of calls from a fresh manager each tally is the number of its messages since the list
 * or block was accepted, up to the cap. While neither grants nor releases has come to the cap, grants minus
 * releases is 1 if the processor is held and 0 if it is free. Memory that something else wrote may hold
 * anything: calls then count on from what stands there.
 */
enum pomrozek_tally {
    POMROZEK_GRANTS = 4,    /* requests granted while it was free */
    POMROZEK_OVERRIDES = 5, /* requests of its recovery master that took it from another host */
    POMROZEK_HANDOVERS = 6, /* handovers to another host */
    POMROZEK_RELEASES = 7   /* releases */
};
#define POMROZEK_TALLY_CAP 4294967295u

/* The report of a message call, by enum pomrozek_report. */
#define POMROZEK_REPORT_WORDS 4

/* The longest answer, and the shortest answer buffer that is not refused (R1). */
#define POMROZEK_ANSWER_BYTES 29

/* The one length of an access list, and that of a security board configuration, here called a block. */
#define POMROZEK_LIST_BYTES 292
#define POMROZEK_BLOCK_BYTES 431

/* The loop host of a block call. */
#define POMROZEK_LOOP_WORDS 1

/*
 * What pomrozek_list gives: 0, or k for Ak. A1 to A4 are tested in this order, then entries 0 to
 * 31, each A5 to A8. What pomrozek_block gives: 0, k for Ak, or 100 + k for Bk, tested in this order: A1,
 * B1, B2; of the list inside A3 to A8, as above; of the hierarchy B3, B4, for each used entry in turn B5,
 * B6, B7, and after the last one B8; of the OTP part B9, B10. What pomrozek_board gives: 0, A1, or 200 + k
 * for Dk. A1 is tested first, then for each item in turn D1 to D6 in this order. The first fault is
 * reported.
 */
enum pomrozek_verdict {
    POMROZEK_ACCEPTED = 0, /* the list, the block's list, or the board is in force from now on */
    POMROZEK_A1 = 1,       /* a list or a block was accepted before, whatever the new one holds */
    POMROZEK_A2 = 2,       /* length is not 292 */
    POMROZEK_A3 = 3,       /* magic is not 0xF1EA */
    POMROZEK_A4 = 4,       /* size field is not 292 */
    POMROZEK_A5 = 5,       /* an entry's processor is not on the board */
    POMROZEK_A6 = 6,       /* an entry's processor is named by an earlier used entry */
    POMROZEK_A7 = 7,       /* an entry's recovery master is not a board host, or is 0 */
    POMROZEK_A8 = 8,       /* an entry's secondary is neither 0 nor a board host */
    POMROZEK_B1 = 101,     /* a block's length is not 431 */
    POMROZEK_B2 = 102,     /* its ABI bytes are not the two that the caller names */
    POMROZEK_B3 = 103,     /* the hierarchy's magic is not 0x8D27 */
    POMROZEK_B4 = 104,     /* its size field is not 68 */
    POMROZEK_B5 = 105,     /* an entry's host is not a board host */
    POMROZEK_B6 = 106,     /* an entry's supervisor is not a board host; 0 is one */
    POMROZEK_B7 = 107,     /* an entry's host is named by an earlier used entry */
    POMROZEK_B8 = 108,     /* following supervisors runs in a loop */
    POMROZEK_B9 = 109,     /* the OTP part's magic is not 0x4081 */
    POMROZEK_B10 = 110,    /* its size field is not 69 */
    POMROZEK_D1 = 201,     /* an item has a bad tag or length, or is cut off */
    POMROZEK_D2 = 202,     /* its number is 0 */
    POMROZEK_D3 = 203,     /* an earlier item of its kind has its number */
    POMROZEK_D4 = 204,     /* its secure mark or its class is neither 0 nor 1 */
    POMROZEK_D5 = 205,     /* an earlier processor of its cluster has another class */
    POMROZEK_D6 = 206      /* there are 64 hosts before a host, or 32 processors before a processor */
};

/*
 * What pomrozek_message gives: 0, k for Nk, or 100 + k for Rk, in the order they are tested. OK
 * writes an ACK and N1 to N9 a NAK, each only where flag bit 1 of the message asks for an answer.
 * R1, R2 and R3 write nothing. Every outcome but OK leaves the records as they were.
 */
enum pomrozek_outcome {
    POMROZEK_R1 = 101, /* answer buffer shorter than 29 bytes */
    POMROZEK_R2 = 102, /* message shorter than 8 bytes or longer than 60 */
    POMROZEK_N1 = 1,   /* no access list accepted yet, alone or in a block */
    POMROZEK_N2 = 2,   /* channel host not a board host, or 0, or unlike the header's host */
    POMROZEK_N3 = 3,   /* message type not one of the eight */
    POMROZEK_N4 = 4,   /* message shorter than its structure */
    POMROZEK_N5 = 5,   /* authenticated boot, which is not offered on this part */
    POMROZEK_N6 = 6,   /* processor not on the board */
    POMROZEK_N7 = 7,   /* sender lacks the right */
    POMROZEK_N8 = 8,   /* operand wrong, as a wait's matches (byte 10) above its waits (byte 9) */
    POMROZEK_R3 = 103, /* get status with no status word, or wait with fewer than its waits */
    POMROZEK_N9 = 9,   /* wait ran out */
    POMROZEK_OK = 0    /* carried out */
};

/*
 * The words of a report. Checks and microseconds are 0 but for a wait that ends OK or N9. The role is
 * none but for a request (0xC000) that ends OK or N7.
 */
enum pomrozek_report {
    POMROZEK_CHECKS = 0,  /* status words examined */
    POMROZEK_MICROS = 1,  /* microseconds that the wait stands for, at most 65,280 */
    POMROZEK_WRITTEN = 2, /* answer bytes written: 0, 8 or 29 */
    POMROZEK_ROLE = 3     /* the sender's role, by enum pomrozek_role */
};

/*
 * What the sender of a request is to the processor that it names. A host that is recovery master and
 * secondary counts as master, and one that is secondary in several places by the lowest. The role goes to
 * the log only: an answer says ACK or NAK and no more. A request that comes to N7 carries the role that it
 * is refused with.
 */
enum pomrozek_role {
    POMROZEK_ROLE_NONE = 0,        /* the entry does not name the host; or no role is told, see above */
    POMROZEK_ROLE_MASTER = 1,      /* recovery master */
    POMROZEK_ROLE_SECONDARY_0 = 2, /* the entry's first secondary */
    POMROZEK_ROLE_SECONDARY_1 = 3, /* its second */
    POMROZEK_ROLE_SECONDARY_2 = 4, /* its third */
    POMROZEK_ROLE_OPEN = 5         /* the processor has no entry: it is open to every board host but 0 */
};

/*
 * Fills the board memory with document 01's board, whatever it held: hosts 3 and 10, secure, and 4, 5,
 * 6, 12, 13; processors 1 and 2, R5, and 32 and 33, ARMv8 and one cluster, in rows 0 to 3. It stands
 * until a description is taken. Call it with access and record memory all zeros, never while a list is
 * in force: the entries and records would then be another board's.
 *
 * board  the board memory
 */
void pomrozek_start(uint8_t board[POMROZEK_BOARD_BYTES]);

/*
 * Offers a board description: items one behind the other, each a tag, a length of two bytes, low byte
 * first, and as many bytes. Tag 1 is a host: 2 bytes, its number and 1 for secure or 0 for not. Tag 2
 * is a processor: 3 bytes, its number, its class (0 for R5, 1 for ARMv8) and the number of its
 * cluster, 0 for none. Host 0 is not listed. No bytes at all are a good description, of a board with
 * host 0 alone.
 *
 * board            the board memory; changed only if the description is taken, and then whole
 * access           the access memory, only read: once a list or a block is accepted every description
 *                  gets A1
 * description      the description's bytes, only read
 * description_len  their number; any
 *
 * Returns the verdict, by enum pomrozek_verdict. A refused description changes nothing.
 */
uint32_t pomrozek_board(uint8_t board[POMROZEK_BOARD_BYTES],
                        const uint16_t access[POMROZEK_ACCESS_WORDS], const uint8_t *description,
                        size_t description_len);

/*
 * Offers an access list.
 *
 * board     the board memory, only read
 * access    the access memory; changed only if the list is accepted
 * list      the list's bytes, only read
 * list_len  their number; any number but 292 gets A2, or A1 once a list is in force, alone or in a block
 *
 * Returns the verdict, by enum pomrozek_verdict. A refused list changes nothing.
 */
uint32_t pomrozek_list(const uint8_t board[POMROZEK_BOARD_BYTES],
                       uint16_t access[POMROZEK_ACCESS_WORDS], const uint8_t *list,
                       size_t list_len);

/*
 * Offers a security board configuration: two ABI bytes, the access list at 2, the host hierarchy at 294
 * (magic 0x8D27, size 68, 32 pairs of host and supervisor, host 0 for an unused one) and the OTP part at
 * 362 (magic 0x4081, size 69, 65 bytes that are not judged). If the block is accepted, its list takes effect
 * exactly as a lone list would. Nothing else of it is kept or used.
 *
 * board       the board memory, only read
 * access      the access memory; changed only if the block is accepted
 * abi_first   the first ABI byte that the block must have, TI's boardcfg_abi_maj
 * abi_second  the second, TI's boardcfg_abi_min
 * block       the block's bytes, only read
 * block_len   their number; any number but 431 gets B1, or A1 once a list is in force
 * loop        written by every call: with B8 the first host in entry order that lies on a loop, and not
 *             only on a way into one; with any other verdict 0
 *
 * Returns the verdict, by enum pomrozek_verdict. A refused block changes nothing but the loop word. Among
 * what the call keeps on the stack is a table of 256 bytes.
 */
uint32_t pomrozek_block(const uint8_t board[POMROZEK_BOARD_BYTES],
                        uint16_t access[POMROZEK_ACCESS_WORDS], uint8_t abi_first,
                        uint8_t abi_second, const uint8_t *block, size_t block_len,
                        uint32_t loop[POMROZEK_LOOP_WORDS]);

/*
 * Carries out one message.
 *
 * board        the board memory, only read
 * access       the access memory, only read
 * records      the record memory; changed only on OK, and only the named processor's words, of
 *              which the control word may be its cluster's
 * channel      host of the queue that the message came in on, never taken from the message
 * message      the message from its eight-byte header on, only read; bytes beyond its structure are
 *              ignored
 * message_len  their number: 8 to 60, anything else gets R2
 * status       status words of the processor, the first being the status now, only read
 * status_len   their number: 1 for get status, `waits` (byte 9) for wait status, 0 for all others;
 *              more do no harm
 * answer       buffer for the answer; bytes beyond the answer keep their values
 * answer_len   its length; below 29 gets R1
 * report       written by every call; what it held is not looked at
 *
 * Returns the outcome, by enum pomrozek_outcome. Outcome and role are for the log: the answer says ACK
 * or NAK alone.
 */
uint32_t pomrozek_message(const uint8_t board[POMROZEK_BOARD_BYTES],
                          const uint16_t access[POMROZEK_ACCESS_WORDS],
                          uint32_t records[POMROZEK_RECORD_WORDS], uint8_t channel,
                          const uint8_t *message, size_t message_len, const uint32_t *status,
                          size_t status_len, uint8_t *answer, size_t answer_len,
                          uint32_t report[POMROZEK_REPORT_WORDS]);

#ifdef __cplusplus
}
#endif

#endif
