/* exchange() on pins: SWD as Arm's Debug Interface v5 has it and source document 004 in its appendix C.
 * SWDIO changes and is sampled while SWDCLK is low; the board samples and changes it on the rising edge.
 * Between packets SWDCLK rests high and SWDIO low. */
#include "halzuqeen.h"
#include "pins.h"
#include "wire.h"

enum { OK = 1, WAIT = 2, FAULT = 4 };

/* An attempt of step 1 must be rare enough for thirty of them to span the board's start (5 ms), and often
 * enough to meet its window (400 us): one each 187 us at 4 MHz. */
enum { XRES_LOW_US = 100, ATTEMPT_PAUSE_US = 160 };

/* Clocks in which the host drives nothing: a turnaround, or what the board may still send. */
static void let_pass(int count)
{
    int i;
    for (i = 0; i < count; i++) {
        pins_clock(0);
        pins_release();
        pins_clock(1);
    }
}

/* At most 32 bits to the board, the lowest first. */
static void put(uint32_t bits, int count)
{
    int i;
    for (i = 0; i < count; i++) {
        pins_clock(0);
        pins_drive((int)(bits >> i & 1));
        pins_clock(1);
    }
}

/* At most 32 bits from the board, the lowest first. */
static uint32_t get(int count)
{
    uint32_t bits = 0;
    int i;
    for (i = 0; i < count; i++) {
        pins_clock(0);
        bits |= (uint32_t)pins_sample() << i;
        pins_clock(1);
    }
    return bits;
}

static void line_reset(void)
{
    pins_pause_us(ATTEMPT_PAUSE_US);
    put(0xFFFFFFFF, 32); /* at least 50 clocks high .. */
    put(0xFFFFFFFF, 24);
    put(0, 3); /* .. then at least one low */
}

static void xres(void)
{
    pins_drive(0);
    pins_xres(0);
    pins_pause_us(XRES_LOW_US);
    pins_xres(1);
}

/* One packet of 46 clocks: request, turnaround, acknowledgement, data and parity, with the turnaround after
 * the acknowledgement of a write or after the parity of a read. */
static struct answer transfer(const uint8_t *outcome)
{
    struct answer answer = {0, 0, 0, 0};
    const uint8_t *word = outcome + HALZUQEEN_OUTCOME_WORD;
    int reads = outcome[HALZUQEEN_OUTCOME_KIND] == HALZUQEEN_READ;
    put(outcome[HALZUQEEN_OUTCOME_REQUEST], 8);
    let_pass(1);
    answer.ack = (uint8_t)get(3);
    if (answer.ack == OK && reads) {
        answer.word = get(32);
        answer.parity = (uint8_t)get(1);
    } else if (answer.ack != OK && answer.ack != WAIT && answer.ack != FAULT) {
        let_pass(33); /* silence or noise: as long as a word and its parity take */
    }
    let_pass(1);
    if (answer.ack == OK && !reads) {
        put(word[0] | (uint32_t)word[1] << 8 | (uint32_t)word[2] << 16 | (uint32_t)word[3] << 24, 32);
        put(outcome[HALZUQEEN_OUTCOME_PARITY], 1);
    }
    put(0, 3); /* idle, so that the board can finish */
    return answer;
}

struct answer exchange(const uint8_t outcome[8])
{
    struct answer done = {1, 0, 0, 0};
    if (outcome[HALZUQEEN_OUTCOME_KIND] == HALZUQEEN_XRES)
        xres();
    else if (outcome[HALZUQEEN_OUTCOME_KIND] == HALZUQEEN_LINE_RESET)
        line_reset();
    else
        return transfer(outcome);
    return done;
}
