/* What a host needs of its wire: carry one request of the core to the board and bring the answer back. */
#ifndef WIRE_H
#define WIRE_H

#include <stdint.h>

struct answer {
    uint8_t reset_done; /* 1 after XRES or a line reset; the rest is then 0 */
    uint8_t ack;        /* the three acknowledgement bits, the first one lowest */
    uint32_t word;      /* of a read answered OK */
    uint8_t parity;     /* its parity bit as it stood on the wire */
};

/* The eight bytes of an outcome that is a packet (kind 1 to 4). */
struct answer exchange(const uint8_t outcome[8]);

#endif
