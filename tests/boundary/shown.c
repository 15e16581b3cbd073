/* README's example, example.c, as it stands there: linked here with a port chip and a store, and made to read and write across block 8,388,608. */
#include "check.h"

void chip_send(const uint8_t *frame, size_t n);
void store_read(uint64_t block, uint8_t *bytes, size_t n);
void store_write(uint64_t block, const uint8_t *bytes, size_t n);
int power_up(const struct jhartupal_setup *setup);
void frame_arrived(const uint8_t *frame, size_t n);
void may_send(size_t login, size_t place);

static struct frame seen;
static unsigned frames_sent;

void chip_send(const uint8_t *frame, size_t n) {
    seen.n = n;
    memcpy(seen.b, frame, n);
    frames_sent++;
}

/* The blocks from FIRST on that were written, the unit's last ones. */
enum { FIRST = 8388602, LAST = 8388609, KEPT = JHARTUPAL_BLOCK * (LAST - FIRST + 1) };
static uint8_t stored[KEPT];
static bool written;

void store_read(uint64_t block, uint8_t *bytes, size_t n) {
    memcpy(bytes, unit_bytes(block, n), n);
    for (size_t i = 0; written && i < n; i++) {
        uint64_t at = block * JHARTUPAL_BLOCK + i - (uint64_t)FIRST * JHARTUPAL_BLOCK;
        bytes[i] = at < KEPT ? stored[at] : bytes[i];
    }
}

void store_write(uint64_t block, const uint8_t *bytes, size_t n) {
    if (!written) {
        memcpy(stored, unit_bytes(FIRST, KEPT), KEPT);
        written = true;
    }
    for (size_t i = 0; i < n; i++) {
        uint64_t at = block * JHARTUPAL_BLOCK + i - (uint64_t)FIRST * JHARTUPAL_BLOCK;
        if (at < KEPT) {
            stored[at] = bytes[i];
        }
    }
}

/* This many frames were sent so far, and this is the last. */
static void shows(const char *what, unsigned frames, const struct frame *last) {
    check(frames_sent == frames && seen.n == last->n && memcmp(seen.b, last->b, last->n) == 0, "example: %s, %u frames sent and not %u", what, frames_sent, frames);
}

/* The setup of a drive of so many blocks. */
static const struct jhartupal_setup *with_blocks(uint64_t blocks) {
    static struct jhartupal_setup setup;
    setup.capacity = blocks;
    setup.address = OWN;
    setup.writable = 1;
    memcpy(setup.identity, identity, sizeof identity);
    memcpy(setup.accept, accept_words(), sizeof setup.accept);
    return &setup;
}

static void arrives(struct frame f) {
    frame_arrived(f.b, f.n);
}

/* A WRITE of two blocks in frames of 300 bytes, and the blocks beside them as they were. */
static void writes_too(unsigned before) {
    struct frame f = writing(0x04, 0x0D02, 8388607, 2, 1024), wanted = transfer_ready(&f, 0, 1024);
    uint8_t bytes[1024], kept[KEPT];
    for (size_t i = 0; i < sizeof bytes; i++) {
        bytes[i] = (uint8_t)(i * 7 + i / 256);
    }
    memcpy(kept, unit_bytes(FIRST, KEPT), KEPT);
    memcpy(kept + JHARTUPAL_BLOCK * (8388607 - FIRST), bytes, sizeof bytes);
    arrives(f);
    may_send(0, 0);
    shows("FCP_XFER_RDY", before + 1, &wanted);
    may_send(0, 0); /* awaited: nothing is sent */
    for (uint32_t offset = 0; offset < 1024; offset += 300) {
        arrives(sending(0x04, 0x0D02, (uint16_t)(offset / 300), offset, bytes + offset, offset < 900 ? 300 : 124));
    }
    shows("data taken", before + 1, &wanted);
    wanted = response(&f, 0, 0);
    may_send(0, 0);
    shows("FCP_RSP of a WRITE", before + 2, &wanted);
    check(written && memcmp(stored, kept, KEPT) == 0, "example: the unit holds what was written, and all else as it was");
}

void example(void) {
    struct frame f = plogi(0x04, 300), g = reading(0x04, 0x0D01, 8388606, 4, 2048), wanted = login_acc(&f);
    check(power_up(with_blocks(8388610)) == 1, "example: a drive");
    arrives(f);
    shows("login", 1, &wanted);
    arrives(prli(0x04));
    arrives(test_unit(0x04));
    arrives(g);
    for (uint32_t i = 0; i < 7; i++) {
        uint32_t offset = 300 * i, n = i < 6 ? 300 : 248;
        wanted = data(&g, (uint16_t)i, offset, unit_bytes(8388606, 2048) + offset, n, i == 6);
        may_send(0, 0);
        shows("data", 4 + i, &wanted);
    }
    wanted = response(&g, 0, 0);
    may_send(0, 0);
    shows("FCP_RSP", 11, &wanted);
    may_send(0, 0); /* the place is free, and nothing is sent */
    arrives(answer_frame(0x03));
    shows("nothing to send, and refused", 11, &wanted);
    writes_too(11);
    check(power_up(with_blocks(0)) == 0, "example: no drive of no blocks");
}
