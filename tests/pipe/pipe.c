/* The drive on a pipe, as the program recorder has it, by the header and the archive alone: one drive, lent to each call and changed where it
 * stands. docs/PROGRAMS.md has the records and the answers. */
#include "jhartupal.h"

#include <stdbool.h>
#include <stdio.h>
#include <string.h>

enum { HEAD = 5, MOST_BODY = 70000, MOST_ROOM = 4096, FILL = 0x5A };
enum { SETUP_BODY = 153, FRAME_BODY = 2, DATA_BODY = 12, NEXT_BODY = 16, EVENT_BODY = 1 }; /* a body's bytes at least: a frame or a window may have none */
#define NO_CALL (JHARTUPAL_REFUSED + UINT64_C(255)) /* answered as a refusal is */

static struct jhartupal_drive drive;
static bool made;
static uint8_t body[MOST_BODY], lent[MOST_ROOM];
static const uint8_t *window; /* what is told of a window after the call, and how many bytes */
static size_t length;

/* A number of n bytes, big-endian. */
static uint64_t number(const uint8_t *at, size_t n) {
    uint64_t value = 0;
    for (size_t i = 0; i < n; i++) {
        value = value << 8 | at[i];
    }
    return value;
}

/* A refused setup has to leave the drive as it was, so the drive that is in use is lent. */
static uint64_t setup_call(size_t n) {
    struct jhartupal_setup setup;
    uint64_t said;
    if (n < SETUP_BODY) {
        return NO_CALL;
    }
    setup.capacity = number(body, 8);
    setup.address = (uint32_t)number(body + 8, 4);
    memcpy(setup.identity, body + 12, sizeof setup.identity);
    memcpy(setup.accept, body + 40, sizeof setup.accept);
    setup.writable = body[152];
    said = jhartupal_make(&drive, &setup);
    made = made || said == 0;
    return said;
}

static uint64_t frame_call(size_t n) {
    size_t room = (size_t)number(body, 2);
    if (n < FRAME_BODY || room > MOST_ROOM || !made) {
        return NO_CALL;
    }
    return jhartupal_frame(&drive, body + FRAME_BODY, n - FRAME_BODY, 0, body, 0, lent, room);
}

/* A frame with a window, which is told after the answer, refused or not. */
static uint64_t data_call(size_t n) {
    size_t room = (size_t)number(body, 2), size = (size_t)number(body + 10, 2);
    uint64_t start = number(body + 2, 8);
    if (n < DATA_BODY || size > n - DATA_BODY || room > MOST_ROOM || !made) {
        return NO_CALL;
    }
    window = body + DATA_BODY + size;
    length = n - DATA_BODY - size;
    return jhartupal_frame(&drive, body + DATA_BODY, size, start, body + DATA_BODY + size, length, lent, room);
}

static uint64_t next_call(size_t n) {
    uint32_t address = (uint32_t)number(body, 4);
    uint16_t ox_id = (uint16_t)number(body + 4, 2);
    size_t room = (size_t)number(body + 6, 2);
    uint64_t start = number(body + 8, 8);
    if (n < NEXT_BODY || room > MOST_ROOM || !made) {
        return NO_CALL;
    }
    return jhartupal_next(&drive, address, ox_id, start, body + NEXT_BODY, n - NEXT_BODY, lent, room);
}

static uint64_t event_call(size_t n) {
    if (n < EVENT_BODY || !made) {
        return NO_CALL;
    }
    switch (body[0]) {
    case 1:
        return jhartupal_loop_reset(&drive);
    case 2:
        return jhartupal_time_over(&drive);
    case 3:
        return jhartupal_power_on(&drive);
    default:
        return NO_CALL;
    }
}

static uint64_t call(uint8_t letter, size_t n) {
    switch (letter) {
    case 'S':
        return setup_call(n);
    case 'F':
        return frame_call(n);
    case 'D':
        return data_call(n);
    case 'N':
        return next_call(n);
    case 'E':
        return event_call(n);
    default:
        return NO_CALL;
    }
}

/* Looks past the room too: what was not lent is not to be written. */
static bool filled_from(size_t n) {
    while (n < MOST_ROOM && lent[n] == FILL) {
        n++;
    }
    return n == MOST_ROOM;
}

/* Writes the answer at once, and answers whether it was one and was taken. */
static bool answer(uint64_t said) {
    uint64_t refusal = said < JHARTUPAL_REFUSED ? 0 : said - JHARTUPAL_REFUSED;
    size_t n = said < JHARTUPAL_REFUSED ? (size_t)said : 0;
    uint8_t line[3 + MOST_ROOM + 1];
    if (n > MOST_ROOM || refusal > 255) {
        fprintf(stderr, "pipe: a call answers %llu\n", (unsigned long long)said);
        return false;
    }
    line[0] = (uint8_t)refusal;
    line[1] = (uint8_t)(n >> 8);
    line[2] = (uint8_t)n;
    memcpy(line + 3, lent, n);
    line[3 + n] = filled_from(n);
    return fwrite(line, 1, n + 4, stdout) == n + 4 && fwrite(window, 1, length, stdout) == length && fflush(stdout) == 0;
}

/* Reads a body of n bytes, of one that is too long its end alone, and answers whether all of it was there. */
static bool take(uint64_t n) {
    for (; n > MOST_BODY; n -= MOST_BODY) {
        if (fread(body, 1, MOST_BODY, stdin) < MOST_BODY) {
            return false;
        }
    }
    return fread(body, 1, (size_t)n, stdin) == n;
}

/* Reads a record and answers it, and answers whether there may be another. A record that is cut has no answer. */
static bool record(unsigned long long which, bool *failed) {
    uint8_t head[HEAD];
    size_t got = fread(head, 1, HEAD, stdin);
    uint64_t n = got == HEAD ? number(head + 1, 4) : 0;
    if (got == 0) {
        return false;
    }
    if (got < HEAD || !take(n)) {
        fprintf(stderr, "pipe: record %llu: cut by the end of the input\n", which);
        *failed = true;
        return false;
    }
    memset(lent, FILL, sizeof lent);
    window = body;
    length = 0;
    *failed = !answer(n > MOST_BODY ? NO_CALL : call(head[0], (size_t)n));
    return !*failed;
}

int main(void) {
    unsigned long long which = 1;
    bool failed = false;
    while (record(which, &failed)) {
        which++;
    }
    return failed ? 1 : 0;
}
