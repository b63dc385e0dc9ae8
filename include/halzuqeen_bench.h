/* Halzuqeen's bench board, for tests of hosts: the plain board of document 01 as a call for C and for whatever links C: crates/bench_c,
 * built by `tools/staticlib bench_c` to target/staticlib/libbench_c.a, an archive of its own that links beside libcore_c.a or without it.
 *
 * It is proved to meet every packet as the board does that the session's proofs are about (crates/flow/specs/Exchange.antt, 'meet'; as
 * bytes, for every content and length of the buffers: crates/bench_c/specs/BoardCalls.antt). With it a host runs without hardware:
 * examples/bench_wire.c. It keeps nothing between calls; what a caller owes is as for the core's calls (halzuqeen.h). */
#ifndef HALZUQEEN_BENCH_H
#define HALZUQEEN_BENCH_H

/* The packet is an outcome of the core's. */
#include "halzuqeen.h"

#ifdef __cplusplus
extern "C" {
#endif

/* Sizes in bytes. */
#define HALZUQEEN_BENCH_BOARD_SIZE 46
#define HALZUQEEN_BENCH_EVENT_SIZE 11
#define HALZUQEEN_BENCH_CALL_SIZE 10
#define HALZUQEEN_BENCH_ANSWER_SIZE 8

/* Offsets in a board. */
#define HALZUQEEN_BENCH_BOARD_IDCODE 0            /* 4 bytes */
#define HALZUQEEN_BENCH_BOARD_HIGH 4              /* the silicon ID's high and low byte */
#define HALZUQEEN_BENCH_BOARD_LOW 5
#define HALZUQEEN_BENCH_BOARD_REVISION 6
#define HALZUQEEN_BENCH_BOARD_FAMILY 7
#define HALZUQEEN_BENCH_BOARD_PRIVILEGED_SUM 8    /* 4 bytes, of which 28 bits count */
#define HALZUQEEN_BENCH_BOARD_STORED_LEVEL 12     /* the low four bits count; it is written with the others 0 */
#define HALZUQEEN_BENCH_BOARD_LEVEL_IN_EFFECT 13
#define HALZUQEEN_BENCH_BOARD_SYSARG 14           /* this to the posted word: 4 bytes each */
#define HALZUQEEN_BENCH_BOARD_SYSREQ 18
#define HALZUQEEN_BENCH_BOARD_TEST_MODE 22
#define HALZUQEEN_BENCH_BOARD_TAR 26
#define HALZUQEEN_BENCH_BOARD_POSTED 30           /* the word that the next DRW read gives */
#define HALZUQEEN_BENCH_BOARD_RUNNING 34          /* 0 no call under way: the rest is not looked at, and written as 0; 1 a call */
#define HALZUQEEN_BENCH_BOARD_CALL 35             /* how it will go, as a call's 10 bytes */
#define HALZUQEEN_BENCH_BOARD_CALL_NUMBER 45

/* Offsets in an event, which says what becomes of a transfer. */
#define HALZUQEEN_BENCH_EVENT_OUTCOME 0   /* 0 OK, 1 WAIT, 2 FAULT, 3 wrong parity, 4 silence, not carried out, 5 silence, carried out,
                                           * 6 noise, not carried out, 7 noise, carried out */
#define HALZUQEEN_BENCH_EVENT_ACK 1       /* the acknowledgement of a noise; 1, 2, 4 and 7, which are none, count as 0 */
#define HALZUQEEN_BENCH_EVENT_WORD 2      /* this and the parity: what is free in the answer; 4 bytes */
#define HALZUQEEN_BENCH_EVENT_PARITY 6
#define HALZUQEEN_BENCH_EVENT_ELSEWHERE 7 /* the word at an address where nothing is, and the bits that are any; 4 bytes */

/* Offsets in a call, which says how a call of the chip's ROM goes. */
#define HALZUQEEN_BENCH_CALL_BUSY_READS 0 /* how many DRW reads of SYSREQ find it under way, 4 bytes */
#define HALZUQEEN_BENCH_CALL_SUCCEEDS 4   /* 0 or 1 */
#define HALZUQEEN_BENCH_CALL_SYSARG 5     /* after a failure, 4 bytes; one with top digit A counts as 0 */
#define HALZUQEEN_BENCH_CALL_NEW_LEVEL 9  /* 1: a failed 0x0D on macro 0 has stored the level; else 0 */

/* Offsets in an answer. */
#define HALZUQEEN_BENCH_ANSWER_RESET_DONE 0 /* 1 after XRES and line reset, and the next two and the word are 0; else 0 */
#define HALZUQEEN_BENCH_ANSWER_ACK 1
#define HALZUQEEN_BENCH_ANSWER_PARITY 2
#define HALZUQEEN_BENCH_ANSWER_USED 3       /* bit 0: the event was used; bit 1: the call was used */
#define HALZUQEEN_BENCH_ANSWER_WORD 4       /* 4 bytes */

/* The board meets a packet.
 * part, macros: as in document 01's table of parts.
 * board, board_length: HALZUQEEN_BENCH_BOARD_SIZE bytes, which become the board after the packet.
 * flash, locks, latch: the board's memory, each with its length in bytes; the locks are all macros', one after the other. A board of the
 *     part's own sizes has rows * row bytes, rows / 8 and row bytes; of other sizes, what is past an end reads as 0 and takes no write.
 * params, params_length: PARAMS as words, with its length in words: 2 + row bytes / 4.
 * residue_flash, residue_locks, residue_latch: the residue, what a failed call leaves in flash, locks and latch, cut or filled with 0
 *     to their sizes; lent the same as long as a call is under way. All may be of length 0.
 * event, event_length: HALZUQEEN_BENCH_EVENT_SIZE bytes. call, call_length: HALZUQEEN_BENCH_CALL_SIZE bytes, looked at when the packet
 *     starts a call.
 * packet, packet_length: HALZUQEEN_OUTCOME_SIZE bytes, an outcome of kind 1 to 4 as starting or a step wrote it.
 * answer, answer_length: HALZUQEEN_BENCH_ANSWER_SIZE bytes, which become the answer.
 * Refused is, with nothing written: 12 a board, event, call, packet or answer of another length; 11 part or macros; 13 a running,
 * succeeds or new level over 1, an outcome over 7, a kind that is not 1 to 4. */
uint32_t halzuqeen_bench_meet(uint8_t part, uint8_t macros, uint8_t *board, size_t board_length, uint8_t *flash, size_t flash_length,
    uint8_t *locks, size_t locks_length, uint8_t *latch, size_t latch_length, uint32_t *params, size_t params_length,
    const uint8_t *residue_flash, size_t residue_flash_length, const uint8_t *residue_locks, size_t residue_locks_length,
    const uint8_t *residue_latch, size_t residue_latch_length, const uint8_t *event, size_t event_length, const uint8_t *call,
    size_t call_length, const uint8_t *packet, size_t packet_length, uint8_t *answer, size_t answer_length);

#ifdef __cplusplus
}
#endif

#endif
