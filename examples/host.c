/* A small host: reads a hex file, programs one board, prints the report.
 *
 *     host PART MACROS FILE [kill]
 *
 * 'kill' is the leave that an image of level KILL needs. It prints 'done TRANSFERS', 'refused NUMBER'
 * or 'failed NUMBER step STEP transfers TRANSFERS', and ends with status 0, 2 or 1. Status 3: it was called wrongly,
 * or the file can't be read. */
#include <stdio.h>
#include <stdlib.h>
#include <string.h>

#include "halzuqeen.h"
#include "wire.h"

enum { HEADER = HALZUQEEN_HEADER_SIZE, SESSION = HALZUQEEN_SESSION_SIZE, OUTCOME = HALZUQEEN_OUTCOME_SIZE };
enum { MOST_TEXT = 1 << 21, MOST_IMAGE = 131200 }; /* part 3 with two macros; its text with a record for each byte */

static uint8_t text[MOST_TEXT], image[MOST_IMAGE];

/* A part or a number of macros; 0, which is neither, for what is no byte. */
static unsigned one_byte(const char *word)
{
    unsigned long number = strtoul(word, NULL, 10);
    return number > 255 ? 0 : (unsigned)number;
}

/* The image's bytes: 'image lent .. of exact size' (12). */
static size_t image_bytes(unsigned part, unsigned macros)
{
    return part == 1 ? 16416 : part == 2 ? 32800 : macros * 65600u;
}

static size_t load(const char *path)
{
    FILE *file = fopen(path, "rb");
    size_t length;
    if (file == NULL) {
        perror(path);
        exit(3);
    }
    length = fread(text, 1, sizeof text, file);
    if (ferror(file) || length == sizeof text) {
        fprintf(stderr, "%s: %s\n", path, ferror(file) ? "can't be read" : "too long");
        exit(3);
    }
    fclose(file);
    return length;
}

static int refused(uint32_t number)
{
    printf("refused %u\n", (unsigned)number);
    return 2;
}

/* The report in an outcome of kind 5. */
static int reported(const uint8_t *outcome)
{
    const uint8_t *bytes = outcome + HALZUQEEN_OUTCOME_TRANSFERS;
    unsigned long transfers = bytes[0] | (unsigned long)bytes[1] << 8 | (unsigned long)bytes[2] << 16
        | (unsigned long)bytes[3] << 24;
    int number = outcome[HALZUQEEN_OUTCOME_NUMBER];
    if (number == 0) {
        printf("done %lu\n", transfers);
        return 0;
    }
    printf("failed %d step %d transfers %lu\n", number, outcome[HALZUQEEN_OUTCOME_STEP], transfers);
    return 1;
}

/* One request out, one answer in, until the report. */
static int program(const uint8_t *header, size_t size, int leave)
{
    uint8_t session[SESSION], outcome[OUTCOME];
    uint32_t number = halzuqeen_start(header, HEADER, image, size, leave != 0, session, SESSION, outcome, OUTCOME);
    while (number == 0 && outcome[HALZUQEEN_OUTCOME_KIND] != HALZUQEEN_REPORT) {
        struct answer answer = exchange(outcome);
        number = halzuqeen_step(session, SESSION, image, size, answer.reset_done, answer.ack, answer.word,
            answer.parity, outcome, OUTCOME);
    }
    return number == 0 ? reported(outcome) : refused(number);
}

int main(int count, char **words)
{
    uint8_t header[HEADER];
    unsigned part, macros;
    size_t length, size;
    uint32_t number;
    if (count < 4) {
        fputs("host PART MACROS FILE [kill]\n", stderr);
        return 3;
    }
    part = one_byte(words[1]);
    macros = one_byte(words[2]);
    length = load(words[3]);
    size = image_bytes(part, macros);
    if (size > MOST_IMAGE)
        return refused(11);
    number = halzuqeen_read((uint8_t)part, (uint8_t)macros, text, length, image, size, header, HEADER);
    if (number != 0)
        return refused(number);
    return program(header, size, count > 4 && strcmp(words[4], "kill") == 0);
}
