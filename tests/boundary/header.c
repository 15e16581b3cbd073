/* The numbers of the header, each beside the one that documents 01 and 02 give, written out by hand: every other file here uses the names alone. */
#include "check.h"

struct number {
    const char *name;
    uint64_t is, by_hand;
};

#define NUMBER(name, by_hand) {#name, JHARTUPAL_##name, by_hand}

static const struct number numbers[] = {
    /* the base is 1.0, and each request of document 02 is the next minor number */
    NUMBER(VERSION_MAJOR, 1),
    NUMBER(VERSION_MINOR, 2),
    /* "Numbers returned for refused calls" */
    NUMBER(SHORT_BUFFER, 1),
    NUMBER(ILL_FORMED, 2),
    NUMBER(BAD_SIZE, 3),
    NUMBER(NOT_OURS, 4),
    NUMBER(BAD_SOURCE, 5),
    NUMBER(UNKNOWN_FORM, 6),
    NUMBER(UNPROVEN, 7),
    NUMBER(BAD_SETUP, 8),
    NUMBER(NO_EXCHANGE, 9),
    NUMBER(BAD_WINDOW, 10),
    NUMBER(NO_WRITE, 11), /* 02, request 2: "11, data frame for no open write" */
    /* "reply buffer under 2,136 bytes", "frame not 24 to 2,136 bytes" */
    NUMBER(REPLY, 2136),
    NUMBER(LEAST_FRAME, 24),
    NUMBER(MOST_FRAME, 2136),
    /* "Capacity 1 to 4,294,967,295 blocks of 512 bytes; .. 28 identity bytes; words 1 to 28 of the login accept" */
    NUMBER(LEAST_BLOCKS, 1),
    NUMBER(MOST_BLOCKS, 4294967295),
    NUMBER(BLOCK, 512),
    NUMBER(IDENTITY, 28),
    NUMBER(ACCEPT, 28 * 4),
    /* a READ(10)'s or WRITE(10)'s count has 16 bits; "at most 65,536 bytes"; 02: "the bytes left, 65,536 at most"; "the login's W18 size, 2,048 at most" */
    NUMBER(MOST_COUNT, 65535),
    NUMBER(MOST_WINDOW, 65536),
    NUMBER(MOST_BURST, 65536),
    NUMBER(MOST_DATA, 2048),
    /* "from 256 to 2,112"; "8 logins at most, each with 8 places"; "names as eight-byte arrays" */
    NUMBER(LEAST_SIZE, 256),
    NUMBER(MOST_SIZE, 2112),
    NUMBER(LOGINS, 8),
    NUMBER(PLACES, 8),
    NUMBER(NAME, 8),
    /* "attention 29h", "gets 2Fh" */
    NUMBER(NO_ATTENTION, 0),
    NUMBER(RESET, 0x29),
    NUMBER(CLEARED, 0x2F),
    /* the documents give these no numbers: the library's own, of `wanted_fits` and `direction_fits` (crates/formed/specs) and `code_of` (crates/boundary/specs) */
    NUMBER(FREE, 0),
    NUMBER(BLOCKS, 1),
    NUMBER(INQUIRY, 2),
    NUMBER(INQUIRY_OTHER_UNIT, 3),
    NUMBER(READ_CAPACITY, 4),
    NUMBER(SENSE_NONE, 5),
    NUMBER(SENSE_RESET, 6),
    NUMBER(SENSE_CLEARED, 7),
    NUMBER(SENSE_OTHER_UNIT, 8),
    NUMBER(TO_HOST, 0),
    NUMBER(FROM_HOST, 1),
    NUMBER(REFUSED, 65536),
    /* what bench/stack reckons for either library, rounded up */
    NUMBER(STACK_MAKE, 12544),
    NUMBER(STACK_FRAME, 8384),
    NUMBER(STACK_NEXT, 3584),
    NUMBER(STACK_EVENT, 1408),
};

void header(void) {
    for (size_t i = 0; i < sizeof numbers / sizeof numbers[0]; i++) {
        const struct number *n = &numbers[i];
        check(n->is == n->by_hand, "JHARTUPAL_%s is %llu and not %llu", n->name, (unsigned long long)n->is, (unsigned long long)n->by_hand);
    }
}
