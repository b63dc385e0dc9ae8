/* exchange() on the core's bench board: the plain board of document 01, as a call (halzuqeen_bench_meet).
 *
 * The environment says which board, and what becomes of its transfers and calls:
 *     BOARD   "PART MACROS STORED_LEVEL", or "1 1 1"
 *     WAITS   each transfer whose number this divides is answered WAIT
 *     SLIP    from this transfer on there is silence
 *     NOISE   from this transfer on there is noise
 *     BUSY    how many reads of SYSREQ find each call under way
 *     FAIL    the number of the call that fails */
#include <stdio.h>
#include <stdlib.h>
#include <string.h>

#include "halzuqeen_bench.h"
#include "wire.h"

enum { BOARD = HALZUQEEN_BENCH_BOARD_SIZE, EVENT = HALZUQEEN_BENCH_EVENT_SIZE, CALL = HALZUQEEN_BENCH_CALL_SIZE,
    ANSWER = HALZUQEEN_BENCH_ANSWER_SIZE };
enum { MOST_FLASH = 131072, MOST_LOCKS = 128, MOST_ROW = 128 }; /* part 3 with two macros */

static uint8_t flash[MOST_FLASH], locks[MOST_LOCKS], latch[MOST_ROW], board[BOARD];
static uint32_t params[2 + MOST_ROW / 4];
static unsigned part = 1, macros = 1;
static unsigned long transfers, calls;

/* Number, row bytes, rows of a macro; then the silicon ID's high byte and the family. */
static const struct { unsigned number, row, rows; uint8_t high, family; } parts[] = {
    { 1, 64, 256, 0x0A, 0x9A }, { 2, 128, 256, 0x04, 0x93 }, { 3, 128, 512, 0x11, 0xA1 } };

static unsigned long setting(const char *name)
{
    const char *text = getenv(name);
    return text == NULL ? 0 : strtoul(text, NULL, 10);
}

static void put_word(uint8_t *bytes, unsigned long word)
{
    int i;
    for (i = 0; i < 4; i++)
        bytes[i] = (uint8_t)(word >> 8 * i & 0xFF);
}

/* A board with nothing in its flash, no call under way, and the stored level in effect. */
static void set_up(void)
{
    const char *text = getenv("BOARD");
    unsigned level = 1;
    if (text != NULL && sscanf(text, "%u %u %u", &part, &macros, &level) != 3)
        part = 0;
    if (part < 1 || part > 3 || macros < 1 || macros > 2) {
        fputs("BOARD = PART MACROS STORED_LEVEL\n", stderr);
        exit(3);
    }
    put_word(board + HALZUQEEN_BENCH_BOARD_IDCODE, 0x0BB11477);
    board[HALZUQEEN_BENCH_BOARD_HIGH] = parts[part - 1].high;
    board[HALZUQEEN_BENCH_BOARD_FAMILY] = parts[part - 1].family;
    put_word(board + HALZUQEEN_BENCH_BOARD_PRIVILEGED_SUM, 0x0ABCDEF1);
    board[HALZUQEEN_BENCH_BOARD_STORED_LEVEL] = (uint8_t)level;
    board[HALZUQEEN_BENCH_BOARD_LEVEL_IN_EFFECT] = (uint8_t)level;
}

/* What becomes of the next transfer, and of the next call. */
static void set_outcomes(uint8_t *event, uint8_t *call)
{
    unsigned long waits = setting("WAITS"), slip = setting("SLIP"), noise = setting("NOISE");
    if (slip != 0 && transfers + 1 >= slip)
        event[HALZUQEEN_BENCH_EVENT_OUTCOME] = 4;
    else if (noise != 0 && transfers + 1 >= noise)
        event[HALZUQEEN_BENCH_EVENT_OUTCOME] = 6;
    else if (waits != 0 && (transfers + 1) % waits == 0)
        event[HALZUQEEN_BENCH_EVENT_OUTCOME] = 1;
    event[HALZUQEEN_BENCH_EVENT_ACK] = 5;
    put_word(event + HALZUQEEN_BENCH_EVENT_WORD, 0xFFFFFFFF);
    put_word(call + HALZUQEEN_BENCH_CALL_BUSY_READS, setting("BUSY"));
    call[HALZUQEEN_BENCH_CALL_SUCCEEDS] = calls + 1 != setting("FAIL");
}

struct answer exchange(const uint8_t outcome[8])
{
    uint8_t event[EVENT] = { 0 }, call[CALL] = { 0 }, given[ANSWER];
    struct answer answer = { 0, 0, 0, 0 };
    size_t row, rows;
    uint32_t number;
    if (transfers == 0 && board[HALZUQEEN_BENCH_BOARD_FAMILY] == 0)
        set_up();
    row = parts[part - 1].row;
    rows = macros * parts[part - 1].rows;
    set_outcomes(event, call);
    number = halzuqeen_bench_meet((uint8_t)part, (uint8_t)macros, board, BOARD, flash, rows * row, locks, rows / 8, latch, row,
        params, 2 + row / 4, NULL, 0, NULL, 0, NULL, 0, event, EVENT, call, CALL, outcome, HALZUQEEN_OUTCOME_SIZE, given, ANSWER);
    if (number != 0) {
        fprintf(stderr, "the bench board refused: %u\n", (unsigned)number);
        exit(3);
    }
    transfers += given[HALZUQEEN_BENCH_ANSWER_USED] & 1u;
    calls += given[HALZUQEEN_BENCH_ANSWER_USED] >> 1 & 1u;
    answer.reset_done = given[HALZUQEEN_BENCH_ANSWER_RESET_DONE];
    answer.ack = given[HALZUQEEN_BENCH_ANSWER_ACK];
    answer.parity = given[HALZUQEEN_BENCH_ANSWER_PARITY];
    answer.word = given[HALZUQEEN_BENCH_ANSWER_WORD] | (uint32_t)given[HALZUQEEN_BENCH_ANSWER_WORD + 1] << 8
        | (uint32_t)given[HALZUQEEN_BENCH_ANSWER_WORD + 2] << 16 | (uint32_t)given[HALZUQEEN_BENCH_ANSWER_WORD + 3] << 24;
    return answer;
}
