/* Halzuqeen's calls for C and for whatever links C: crates/core_c, built by `tools/staticlib core_c` to target/staticlib/libcore_c.a.
 *
 * Every lent buffer is a pointer and a length in bytes. The core keeps nothing between calls and takes nothing from a heap: the image,
 * its header and the session stand in the caller's bytes. Numbers of several bytes have the low byte first.
 *
 * Every call returns 0, or the number of a refusal (document 01, 'Who brings a number about'):
 *    1 to 10  the text or the image: line form, record sum, record type, data not next due, end record, version, image ID, level, sum, row
 *    11       part or macros
 *    12       a buffer under size, or an image lent for reading not of its exact size
 *    13       a session that is impossible for its part, or bytes that no session has
 *    14       a reset answered by an acknowledgement, or the reverse
 *    15       KILL without leave
 *
 * What is lent for a header, a session, an outcome or a length may be longer than its size below: bytes past the size are not looked at
 * and stay. Under size it is 12, in the order that each call says.
 * With a refusal every output that fits is written: a header, a session that starting gives and a length are all 0, an outcome has the
 * refusal. An output that is under size stays as it was, since there is no room in it. A refused step leaves the session as it got it.
 *
 * What is proved, for every content and length of the buffers: the number returned and every byte of every buffer after the call equal
 * the definitions of crates/calls/specs/Calls.antt. What a caller owes: each pointer is good for its length (with length 0 it is not
 * looked at), and during a call no buffer that the call may write overlaps another and no other thread uses it. */
#ifndef HALZUQEEN_H
#define HALZUQEEN_H

#include <stddef.h>
#include <stdint.h>

#ifdef __cplusplus
extern "C" {
#endif

/* Sizes in bytes. */
#define HALZUQEEN_HEADER_SIZE 17
#define HALZUQEEN_SESSION_SIZE 45
#define HALZUQEEN_OUTCOME_SIZE 8
#define HALZUQEEN_LENGTH_SIZE 8

/* Offsets in a header. */
#define HALZUQEEN_HEADER_PART 0
#define HALZUQEEN_HEADER_MACROS 1
#define HALZUQEEN_HEADER_SUM 2       /* 2 bytes */
#define HALZUQEEN_HEADER_METADATA 4  /* 12 bytes, as the text has them */
#define HALZUQEEN_HEADER_LEVEL 16

/* Offsets in a session. Its fields are the core's: a caller keeps them, and may look at them to show how far a session is. All zeros is
 * the session of zeros that a refused start gives, and a step refuses it with 13. */
#define HALZUQEEN_SESSION_HEADER 0     /* 17 bytes */
#define HALZUQEEN_SESSION_ENTRY 17     /* 0 OPEN, 1 PROTECTED; over 1: no session */
#define HALZUQEEN_SESSION_FINISHED 18  /* 0 or 1; over 1: no session */
#define HALZUQEEN_SESSION_NUMBER 19    /* of the report, once finished */
#define HALZUQEEN_SESSION_STEP 20      /* of the report, once finished */
#define HALZUQEEN_SESSION_AT 21        /* the standing move; this and the rest 4 bytes each */
#define HALZUQEEN_SESSION_WAITS 25
#define HALZUQEEN_SESSION_POLLS 29
#define HALZUQEEN_SESSION_ATTEMPTS 33
#define HALZUQEEN_SESSION_KEPT 37
#define HALZUQEEN_SESSION_TRANSFERS 41

/* Offsets in an outcome. */
#define HALZUQEEN_OUTCOME_KIND 0
#define HALZUQEEN_OUTCOME_NUMBER 1     /* the refusal's number (1 to 15), or the report's (0 done, 16 to 30, 33) */
#define HALZUQEEN_OUTCOME_REQUEST 1    /* a read's or a write's request byte */
#define HALZUQEEN_OUTCOME_PARITY 2     /* a write's parity bit */
#define HALZUQEEN_OUTCOME_STEP 2       /* a report's flow step */
#define HALZUQEEN_OUTCOME_WORD 4       /* a write's word, 4 bytes */
#define HALZUQEEN_OUTCOME_TRANSFERS 4  /* a report's reads and writes handed out, 4 bytes */

/* Kinds of an outcome. Bytes that a kind does not name are 0. */
#define HALZUQEEN_REFUSED 0     /* the number */
#define HALZUQEEN_XRES 1        /* pulse XRES */
#define HALZUQEEN_LINE_RESET 2  /* reset the line */
#define HALZUQEEN_READ 3        /* the request byte */
#define HALZUQEEN_WRITE 4       /* the request byte, the word and its parity bit */
#define HALZUQEEN_REPORT 5      /* the number, the flow step, the transfers */

/* Reads an Intel hex text of this part with so many macros into an image and its header.
 * part, macros: as in document 01's table of parts.
 * text, text_length: the text.
 * image, image_length: at least the image's size: flash, then row locks. With 0 its bytes are the image's; with 1 to 10 they are zeroed;
 *     bytes past the image's size stay, and with 11 or 12 all of them do.
 * header, header_length: at least HALZUQEEN_HEADER_SIZE bytes, which become the image's header, zeros with a refusal.
 * Checks 11, whatever the lengths are; 12, of the header and the image; then the text, 1 to 5 record by record, and 6 to 10. */
uint32_t halzuqeen_read(uint8_t part, uint8_t macros, const uint8_t *text, size_t text_length, uint8_t *image, size_t image_length,
    uint8_t *header, size_t header_length);

/* Writes the Intel hex text of an image.
 * header, header_length: the image's header, at least HALZUQEEN_HEADER_SIZE bytes.
 * image, image_length: the image's bytes, exactly of its size.
 * text, text_length: at least as long as the text; bytes past the text stay, and with a refusal all of them do.
 * length, length_length: at least HALZUQEEN_LENGTH_SIZE bytes, which become the text's length, 0 with a refusal.
 * A header under size is 12, since no part can be read from it. Then checks 11; 12, of length, image and text; 6 to 10. */
uint32_t halzuqeen_write(const uint8_t *header, size_t header_length, const uint8_t *image, size_t image_length, uint8_t *text,
    size_t text_length, uint8_t *length, size_t length_length);

/* Starts a session that programs an image; the first request is XRES.
 * header, header_length, image, image_length: as for writing.
 * leave: 0 refuses an image of level KILL with 15; anything else lets it pass.
 * session, session_length: at least HALZUQEEN_SESSION_SIZE bytes, which become the session, zeros with a refusal: a session that stood
 *     there is gone, and a step refuses the zeros with 13.
 * outcome, outcome_length: at least HALZUQEEN_OUTCOME_SIZE bytes, which become XRES or the refusal.
 * A header under size is 12, since no part can be read from it. Then checks 11; 12, of session, outcome and image; 6 to 10; 15. */
uint32_t halzuqeen_start(const uint8_t *header, size_t header_length, const uint8_t *image, size_t image_length, uint8_t leave,
    uint8_t *session, size_t session_length, uint8_t *outcome, size_t outcome_length);

/* Takes the answer to the standing request; gives the next request, or the report, which every later step repeats.
 * session, session_length: as starting or the step before it left them, at least HALZUQEEN_SESSION_SIZE bytes; with a refusal they stay.
 * image, image_length: the image that the session was started on, the same bytes at every step.
 * reset_done: anything but 0 says that the reset asked for is done, and the next three are not looked at; 0 says that they answer a
 *     transfer.
 * ack: the acknowledgement, bit 0 first on the wire: 1 OK, 2 WAIT, 4 FAULT, 7 silence (nobody drives the wire: report 29), anything else,
 *     also over 7, noise (report 33); an attempt to read IDCODE is only ended by either.
 * word, parity: the word and the parity bit of a read answered OK; otherwise not looked at.
 * outcome, outcome_length: as for starting; with a refusal it has the refusal.
 * A session under size is 12, since there is none to look at. Then checks 13, whatever outcome and image are; 12, of outcome and image;
 * 14. */
uint32_t halzuqeen_step(uint8_t *session, size_t session_length, const uint8_t *image, size_t image_length, uint8_t reset_done,
    uint8_t ack, uint32_t word, uint8_t parity, uint8_t *outcome, size_t outcome_length);

#ifdef __cplusplus
}
#endif

#endif
