/* Writing from the host (document 02, request 2): WRITEs by bursts and frames into windows over their bytes alone, every reply held to the document's bytes, and the unit,
 * "taken as one list of bytes, each window cut from it and put back before the next call", held to what was sent. */
#include "check.h"

enum { HOST = 0x02, ID = 0x0E01, CAPACITY = 1000, SIZE = 300, FIRST = 8 }; /* the WRITEs start at FIRST */

static uint8_t unit[JHARTUPAL_BLOCK * CAPACITY], sent_bytes[JHARTUPAL_BLOCK * CAPACITY];

static void silent(const char *what, uint64_t said) {
    check(said == 0, "%s: answers %llu and not 0", what, (unsigned long long)said);
}

/* A drive with a paired login, and a unit that is known. */
static void begin(struct jhartupal_drive *d) {
    made(d, CAPACITY);
    paired(d, HOST, SIZE);
    for (size_t i = 0; i < sizeof unit; i++) {
        unit[i] = (uint8_t)(i ^ i >> 8);
        sent_bytes[i] = (uint8_t)(i * 5 + (i >> 9) * 3 + 1);
    }
}

/* Data of the WRITE, at its place in a window cut from the unit, so many bytes ahead of it and after it, and put back. */
static uint64_t puts_in(struct jhartupal_drive *d, uint32_t offset, size_t n, size_t blocks_ahead, size_t after) {
    struct frame f = sending(HOST, ID, (uint16_t)(offset / SIZE), offset, sent_bytes + offset, n);
    uint64_t block = FIRST + offset / JHARTUPAL_BLOCK - blocks_ahead;
    size_t length = JHARTUPAL_BLOCK * blocks_ahead + offset % JHARTUPAL_BLOCK + n + after;
    uint64_t said = frame_with(d, f.b, f.n, &(struct window){block, unit + JHARTUPAL_BLOCK * block, length}, ROOM);
    memcpy(unit + JHARTUPAL_BLOCK * block, window_left, length);
    return said;
}

static uint64_t next_of(struct jhartupal_drive *d) {
    return next_out(d, HOST, ID, UINT64_MAX, identity, 0, ROOM);
}

/* The exchange that is open at the login's first place. */
static void stands(const char *what, const struct jhartupal_drive *d, uint32_t count, uint32_t dl, uint32_t sent, uint8_t awaited) {
    const struct jhartupal_exchange *e = &d->port.logins[0].places[0];
    check(e->start == FIRST && e->blocks == count && e->wanted == JHARTUPAL_BLOCK * count && e->expected == dl && e->sent == sent && e->ox_id == ID && e->count == 0
              && e->kind == JHARTUPAL_BLOCKS && e->direction == JHARTUPAL_FROM_HOST && e->awaited == awaited,
          "%s: after %u bytes the exchange is %llu, %u, %u, %u, %u, %04X, %u, %u, %u, %u", what, sent, (unsigned long long)e->start, e->blocks, e->wanted, e->expected, e->sent, e->ox_id,
          e->count, e->kind, e->direction, e->awaited);
}

/* The unit is as it was but for the bytes that were sent. */
static void holds(const char *what, uint32_t n) {
    bool fine = true;
    for (size_t i = 0; i < sizeof unit; i++) {
        size_t at = i - JHARTUPAL_BLOCK * FIRST;
        fine = fine && unit[i] == (i >= JHARTUPAL_BLOCK * FIRST && at < n ? sent_bytes[at] : (uint8_t)(i ^ i >> 8));
    }
    check(fine, "%s: the unit holds the %u bytes sent, and all else as it was", what, n);
}

/* A WRITE of blocks in frames of most so many bytes, to the FCP_RSP that frees the place. */
static void write_all(const char *what, uint16_t count, uint32_t dl, uint32_t most, uint8_t flags, uint32_t residual) {
    struct jhartupal_drive d, before;
    struct frame f = writing(HOST, ID, FIRST, count, dl), rsp = response(&f, flags, residual);
    uint32_t all = (uint32_t)JHARTUPAL_BLOCK * count, total = dl < all ? dl : all, offset = 0;
    begin(&d);
    memcpy(&before, &d, sizeof d);
    silent(what, take(&d, &f));
    while (offset < total) {
        uint32_t burst = total - offset < JHARTUPAL_MOST_BURST ? total - offset : JHARTUPAL_MOST_BURST, end = offset + burst;
        struct frame ready = transfer_ready(&f, offset, burst);
        stands(what, &d, count, dl, offset, 0);
        replies(what, next_of(&d), &ready);
        while (offset < end) {
            uint32_t n = end - offset < most ? end - offset : most;
            stands(what, &d, count, dl, offset, 1);
            silent(what, next_of(&d)); /* "nothing while data is awaited" */
            silent(what, puts_in(&d, offset, n, offset % 2, offset % 3));
            offset += n;
        }
    }
    stands(what, &d, count, dl, total, 0);
    replies(what, next_of(&d), &rsp);
    check(same(&d, &before), "%s: the place is free again", what);
    holds(what, total);
}

/* WRITEs that open nothing: of no blocks, and of none that are expected; of a unit that may not be written, and what tests 6 to 8 refuse. */
static void no_exchange(void) {
    struct jhartupal_drive d, before;
    struct frame f = writing(HOST, ID, FIRST, 0, 0), wanted = response(&f, 0, 0);
    begin(&d);
    memcpy(&before, &d, sizeof d);
    replies("WRITE of no blocks", take(&d, &f), &wanted);
    f = writing(HOST, ID, FIRST, 2, 0);
    wanted = response(&f, 0x04, 1024);
    replies("WRITE of no bytes", take(&d, &f), &wanted);
    f = writing(HOST, ID, FIRST, 2, 1024);
    f.b[35] = 0x02; /* the read bit does not help */
    wanted = fault(&f, 0x02);
    replies("WRITE without the write bit", take(&d, &f), &wanted);
    f = writing(HOST, ID, CAPACITY - 1, 2, 1024);
    check(take(&d, &f) == 24 + 44 && reply[50] == 0x05 && reply[60] == 0x21, "WRITE past the unit: 05/21/00");
    f = writing(HOST, ID, FIRST, 2, 1024);
    f.b[37] = 0x01;
    check(take(&d, &f) == 24 + 44 && reply[50] == 0x05 && reply[60] == 0x24, "WRITE with byte 1 bit 0: 05/24/00");
    check(same(&d, &before), "no WRITE has opened an exchange");
    check(make(&d, CAPACITY, OWN, identity, accept_words(), 0) == 0, "a unit that may not be written");
    paired(&d, HOST, SIZE);
    f = writing(HOST, ID, CAPACITY, 0, 0);
    check(take(&d, &f) == 24 + 44 && reply[50] == 0x07 && reply[60] == 0x27, "a unit that may not be written: 07/27/00");
}

/* "A data frame at another offset than the next is answered at once with RSP_CODE 03, else past the burst with 01, and ends the exchange", whatever its window. */
static void faults(void) {
    static const struct { const char *what; uint32_t offset; size_t n; uint8_t code; bool asked; } all[] = {
        {"data at a later offset", 4, 4, 0x03, true},       {"data at a later offset, past the burst", 4, 1024, 0x03, true},
        {"data past the burst by 1", 0, 1025, 0x01, true},  {"no data at a later offset", 1024, 0, 0x03, true},
        {"data that were not asked for", 0, 1, 0x01, false}, {"data at a later offset, not asked for", 1, 1, 0x03, false}};
    for (size_t i = 0; i < sizeof all / sizeof all[0]; i++) {
        struct jhartupal_drive d, before;
        struct frame f = writing(HOST, ID, FIRST, 2, 1024), g = sending(HOST, ID, 0, all[i].offset, sent_bytes, all[i].n), wanted = fault(&f, all[i].code);
        begin(&d);
        memcpy(&before, &d, sizeof d);
        take(&d, &f);
        if (all[i].asked) {
            next_of(&d);
        }
        replies(all[i].what, frame_with(&d, g.b, g.n, &(struct window){UINT64_MAX, unit, JHARTUPAL_MOST_WINDOW + 1}, ROOM), &wanted);
        check(same(&d, &before), "%s: the exchange has ended, and nothing else has", all[i].what);
        check(next_of(&d) == JHARTUPAL_REFUSED + JHARTUPAL_NO_EXCHANGE, "%s: no exchange any more", all[i].what);
    }
}

/* A data frame of no bytes is taken, awaited or not, and changes nothing; with any other frame the window is not looked at. */
static void nothing_moved(void) {
    struct jhartupal_drive d, before;
    struct frame f = writing(HOST, ID, FIRST, 2, 1024), g = test_unit(HOST), good = response(&g, 0, 0);
    struct window far = {UINT64_MAX, unit, JHARTUPAL_MOST_WINDOW + 1};
    begin(&d);
    silent("WRITE with a window that is too long", frame_with(&d, f.b, f.n, &far, ROOM));
    memcpy(&before, &d, sizeof d);
    silent("no data, not asked for", puts_in(&d, 0, 0, 1, 0));
    check(same(&d, &before), "no data, not asked for: nothing has changed");
    next_of(&d);
    memcpy(&before, &d, sizeof d);
    silent("no data, awaited", puts_in(&d, 0, 0, 0, 0));
    check(same(&d, &before), "no data, awaited: nothing has changed");
    replies("TEST UNIT READY with a window that is too long", frame_with(&d, g.b, g.n, &far, ROOM), &good);
    check(next_out(&d, HOST, ID, 0, unit, JHARTUPAL_MOST_WINDOW + 1, ROOM) == JHARTUPAL_REFUSED + JHARTUPAL_BAD_WINDOW, "awaited, a window of 65,537 for the next frame");
    holds("no data", 0);
}

void writes(void) {
    write_all("one frame", 1, 512, 2048, 0, 0);
    write_all("frames of 300 bytes", 4, 2048, 300, 0, 0);
    write_all("frames of 2,112 bytes", 9, 4608, JHARTUPAL_MOST_FRAME - 24, 0, 0);
    write_all("frames of 1 byte", 1, 512, 1, 0, 0);
    write_all("1,001 of 1,024 bytes", 2, 1001, 256, 0x04, 23);
    write_all("1,024 of 2,048 bytes", 2, 2048, 256, 0x08, 1024);
    write_all("257 blocks, three bursts", 257, 131584, 2048, 0, 0);
    write_all("257 blocks, frames that do not end with a burst", 257, 131584, 2000, 0, 0);
    no_exchange();
    faults();
    nothing_moved();
}
