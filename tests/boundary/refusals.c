/* Each refusal, and the order of them: every call here breaks what its number says, and what comes later. What is promised of a refused
 * call, that no field of the state and no lent byte changes, is held of each call (lend.c). */
#include "check.h"

enum { TOO_LONG = JHARTUPAL_MOST_WINDOW + 1 };

static void refused(const char *what, uint64_t said, enum jhartupal_refusal number) {
    check(said == (uint64_t)JHARTUPAL_REFUSED + number, "%s: answers %llu and not 65,536 + %u", what, (unsigned long long)said, (unsigned)number);
}

/* "Making a drive: 8" */
static void setups(void) {
    static const uint32_t addresses[] = {0x00, 0x03, 0xF0, 0xFF, 0x01EF, 0x0100EF, 0x010000EF};
    static const struct { const char *name; size_t at; uint64_t value; size_t n; } broken[] = {
        {"W2 size 252", 10, 0x00FC, 2}, {"W2 size 258", 10, 0x0102, 2}, {"W2 size 2,116", 10, 0x0844, 2}, {"port name", 20, 0, 8}, {"node name", 28, 0, 8},
        {"W17 bit 31", 68, 0x7F, 1}, {"W18 size 252", 74, 0x00FC, 2}, {"W18 size 2,116", 74, 0x0844, 2}, {"W19/B1", 77, 0, 1}, {"W20/B1 0", 81, 0, 1}, {"W20/B1 2", 81, 2, 1}};
    uint8_t words[4 + JHARTUPAL_ACCEPT];
    struct jhartupal_drive d;
    full(&d);
    refused("capacity 0", make(&d, JHARTUPAL_LEAST_BLOCKS - 1, OWN, identity, accept_words(), 1), JHARTUPAL_BAD_SETUP);
    refused("capacity 2^32", make(&d, JHARTUPAL_MOST_BLOCKS + 1, OWN, identity, accept_words(), 1), JHARTUPAL_BAD_SETUP);
    refused("capacity 2^64 - 1", make(&d, UINT64_MAX, OWN, identity, accept_words(), 1), JHARTUPAL_BAD_SETUP);
    for (size_t i = 0; i < sizeof addresses / sizeof addresses[0]; i++) {
        refused("own address", make(&d, 100, addresses[i], identity, accept_words(), 1), JHARTUPAL_BAD_SETUP);
    }
    for (size_t i = 0; i < sizeof broken / sizeof broken[0]; i++) {
        memcpy(words + 4, accept_words(), JHARTUPAL_ACCEPT);
        put(words + broken[i].at, broken[i].value, broken[i].n);
        refused(broken[i].name, make(&d, 100, OWN, identity, words + 4, 1), JHARTUPAL_BAD_SETUP);
    }
    refused("writable 2", make(&d, 100, OWN, identity, accept_words(), 2), JHARTUPAL_BAD_SETUP);
    refused("writable FFh", make(&d, 100, OWN, identity, accept_words(), 0xFF), JHARTUPAL_BAD_SETUP);
    check(make(&d, 100, OWN, identity, accept_words(), 0) == 0 && d.unit.writable == 0, "a drive that may not be written is made");
    check(make(&d, JHARTUPAL_LEAST_BLOCKS, 0x01, identity, accept_words(), 1) == 0 && d.unit.capacity == JHARTUPAL_LEAST_BLOCKS
              && d.unit.writable == 1 && d.port.address == 0x01,
          "a drive of one block is made");
}

static struct frame with(struct frame f, size_t at, uint8_t value) {
    f.b[at] = value;
    return f;
}

static void breaks(struct jhartupal_drive *d, const char *what, struct frame f, enum jhartupal_refusal number) {
    refused(what, take(d, &f), number);
}

/* "Frame in: 1 to 7 in order", then 11, then 10 (02, request 2) */
static void frames(void) {
    static const size_t sizes[] = {0, 1, JHARTUPAL_LEAST_FRAME - 4, JHARTUPAL_LEAST_FRAME - 1, JHARTUPAL_LEAST_FRAME + 1, JHARTUPAL_LEAST_FRAME + 2,
                                   JHARTUPAL_LEAST_FRAME + 3, JHARTUPAL_MOST_FRAME + 1, JHARTUPAL_MOST_FRAME + 2, JHARTUPAL_MOST_FRAME + 3, JHARTUPAL_MOST_FRAME + 4};
    struct jhartupal_drive d, ill;
    struct frame ours = test_unit(hosts[0]), from = with(ours, 8, 0x01), to = with(from, 7, 0x03), worst = with(to, 3, 0xEE), login = plogi(hosts[0], JHARTUPAL_LEAST_SIZE);
    full(&d);
    event(&d, LOOP_RESET);
    memcpy(&ill, &d, sizeof d);
    ill.unit.capacity = 0;
    refused("no room", frame_in(&ill, worst.b, 20, 0), JHARTUPAL_SHORT_BUFFER);
    refused("room of 2,135", frame_in(&ill, worst.b, 20, ROOM - 1), JHARTUPAL_SHORT_BUFFER);
    refused("no well-formed state", frame_in(&ill, worst.b, 20, ROOM), JHARTUPAL_ILL_FORMED);
    refused("no well-formed state, more room", frame_in(&ill, worst.b, 20, MOST_ROOM), JHARTUPAL_ILL_FORMED);
    for (size_t i = 0; i < sizeof sizes / sizeof sizes[0]; i++) {
        refused("size", frame_in(&d, worst.b, sizes[i], ROOM), JHARTUPAL_BAD_SIZE);
    }
    refused("to another, 24 bytes", frame_in(&d, worst.b, JHARTUPAL_LEAST_FRAME, ROOM), JHARTUPAL_NOT_OURS);
    refused("to another, 2,136 bytes", frame_in(&d, worst.b, JHARTUPAL_MOST_FRAME, ROOM), JHARTUPAL_NOT_OURS);
    breaks(&d, "to another, upper byte", with(to, 1, 0x01), JHARTUPAL_NOT_OURS);
    breaks(&d, "to another, middle byte", with(to, 2, 0x01), JHARTUPAL_NOT_OURS);
    breaks(&d, "from no address", to, JHARTUPAL_BAD_SOURCE);
    breaks(&d, "from 00h", with(to, 7, 0x00), JHARTUPAL_BAD_SOURCE);
    breaks(&d, "from us", with(to, 7, OWN), JHARTUPAL_BAD_SOURCE);
    breaks(&d, "from an upper byte", with(from, 5, 0x01), JHARTUPAL_BAD_SOURCE);
    breaks(&d, "R_CTL and TYPE", from, JHARTUPAL_UNKNOWN_FORM);
    breaks(&d, "DF_CTL", with(ours, 13, 0x01), JHARTUPAL_UNKNOWN_FORM);
    breaks(&d, "SEQ_CNT", with(ours, 15, 0x01), JHARTUPAL_UNKNOWN_FORM);
    breaks(&d, "fill bits of F_CTL", with(ours, 11, 0x02), JHARTUPAL_UNKNOWN_FORM);
    refused("a 22h frame without payload", frame_in(&d, login.b, JHARTUPAL_LEAST_FRAME, ROOM), JHARTUPAL_UNKNOWN_FORM);
    breaks(&d, "a command, unproven", ours, JHARTUPAL_UNPROVEN);
    breaks(&d, "PRLI, unproven", prli(hosts[1]), JHARTUPAL_UNPROVEN);
    breaks(&d, "ABTS, unproven", abts(hosts[2], 0x1000), JHARTUPAL_UNPROVEN);
    breaks(&d, "an answer, unproven", answer_frame(hosts[7]), JHARTUPAL_UNPROVEN);
    breaks(&d, "data, unproven", sending(hosts[0], 0x0999, 0, 0, identity, 4), JHARTUPAL_UNPROVEN);
}

/* A frame of data with a window of so many bytes from a block on. */
static void data_breaks(struct jhartupal_drive *d, const char *what, struct frame f, uint64_t start, size_t n, enum jhartupal_refusal number) {
    refused(what, frame_with(d, f.b, f.n, &(struct window){start, unit_bytes(0, TOO_LONG), n}, ROOM), number);
}

/* "The form rule admits (01h, 08h), with any SEQ_CNT and a fill count within its payload"; "11, data frame for no open write, after 7; then 10 for its window" */
static void datas(void) {
    struct jhartupal_drive d, only;
    struct frame open = writing(hosts[0], 0x2000, 10, 4, 2048), none = sending(hosts[0], 0x2000, 0, 0, identity, 0), four = sending(hosts[0], 0x2000, 7, 0, identity, 4);
    made(&d, 100);
    paired(&d, hosts[0], JHARTUPAL_LEAST_SIZE);
    paired(&d, hosts[1], JHARTUPAL_LEAST_SIZE);
    data_breaks(&d, "01h with TYPE 00h", with(four, 8, 0x00), 10, 512, JHARTUPAL_UNKNOWN_FORM);
    data_breaks(&d, "01h with DF_CTL", with(four, 13, 0x10), 10, 512, JHARTUPAL_UNKNOWN_FORM);
    for (uint8_t fill = 1; fill <= 3; fill++) {
        data_breaks(&d, "01h, more fill than payload", with(none, 11, fill), 10, 512, JHARTUPAL_UNKNOWN_FORM);
        data_breaks(&d, "01h, less fill than payload, no exchange", with(four, 11, fill), 10, 512, JHARTUPAL_NO_WRITE);
    }
    data_breaks(&d, "data of no login", sending(0x1B, 0x2000, 0, 0, identity, 4), 10, TOO_LONG, JHARTUPAL_NO_WRITE);
    data_breaks(&d, "data of no exchange", four, 10, TOO_LONG, JHARTUPAL_NO_WRITE);
    take(&d, &open);
    data_breaks(&d, "data of another's exchange", sending(hosts[1], 0x2000, 0, 0, identity, 4), 10, TOO_LONG, JHARTUPAL_NO_WRITE);
    data_breaks(&d, "data of another OX_ID", sending(hosts[0], 0x2001, 0, 0, identity, 4), 10, TOO_LONG, JHARTUPAL_NO_WRITE);
    check(next_out(&d, hosts[0], 0x2000, 0, identity, 0, ROOM) == 36, "WRITE: FCP_XFER_RDY");
    data_breaks(&d, "data, a window of 65,537", four, 10, TOO_LONG, JHARTUPAL_BAD_WINDOW);
    data_breaks(&d, "data, an empty window", four, 10, 0, JHARTUPAL_BAD_WINDOW);
    data_breaks(&d, "data, a window a byte too short", four, 10, 3, JHARTUPAL_BAD_WINDOW);
    data_breaks(&d, "data, a window from the block after", four, 11, 2048, JHARTUPAL_BAD_WINDOW);
    data_breaks(&d, "data, a window that ends before", four, 9, JHARTUPAL_BLOCK, JHARTUPAL_BAD_WINDOW);
    data_breaks(&d, "data, a window from the last block of 64 bits", four, UINT64_MAX, JHARTUPAL_MOST_WINDOW, JHARTUPAL_BAD_WINDOW);
    data_breaks(&d, "no data, a window from the block after", none, 11, 2048, JHARTUPAL_BAD_WINDOW);
    open = reading(hosts[0], 0x2002, 10, 4, 2048);
    take(&d, &open);
    data_breaks(&d, "data of a READ", sending(hosts[0], 0x2002, 0, 0, identity, 4), 10, TOO_LONG, JHARTUPAL_NO_WRITE);
    memset(&only, 0, sizeof only);
    check(make(&only, 100, OWN, identity, accept_words(), 0) == 0, "a drive that may not be written");
    paired(&only, hosts[0], JHARTUPAL_LEAST_SIZE);
    data_breaks(&only, "data to a unit that may not be written", four, 10, 512, JHARTUPAL_NO_WRITE);
}

/* "Next frame out: 1, 2, 9, 7, 10" */
static void nexts(void) {
    static const uint32_t strangers[] = {0x1B, 0x00, 0x03, OWN, 0x0101, 0x01000001};
    struct jhartupal_drive d, ill, unproven;
    full(&d);
    memcpy(&unproven, &d, sizeof d);
    event(&unproven, LOOP_RESET);
    memcpy(&ill, &unproven, sizeof d);
    ill.port.logins[7].places[7].kind = JHARTUPAL_SENSE_OTHER_UNIT + 1;
    const uint8_t *bytes = unit_bytes(d.port.logins[0].places[0].start, TOO_LONG);
    uint64_t block = d.port.logins[0].places[0].start;
    refused("no room", next_out(&ill, hosts[0], 0x0999, block, bytes, TOO_LONG, 0), JHARTUPAL_SHORT_BUFFER);
    refused("room of 2,135", next_out(&ill, hosts[0], 0x0999, block, bytes, TOO_LONG, ROOM - 1), JHARTUPAL_SHORT_BUFFER);
    refused("no well-formed state", next_out(&ill, hosts[0], 0x0999, block, bytes, TOO_LONG, ROOM), JHARTUPAL_ILL_FORMED);
    refused("no such OX_ID, unproven", next_out(&unproven, hosts[0], 0x0999, block, bytes, TOO_LONG, ROOM), JHARTUPAL_NO_EXCHANGE);
    for (size_t i = 0; i < sizeof strangers / sizeof strangers[0]; i++) {
        refused("no such login", next_out(&unproven, strangers[i], 0x1000, block, bytes, TOO_LONG, ROOM), JHARTUPAL_NO_EXCHANGE);
    }
    refused("unproven", next_out(&unproven, hosts[0], 0x1000, block, bytes, TOO_LONG, ROOM), JHARTUPAL_UNPROVEN);
    refused("READ, a window of 65,537", next_out(&d, hosts[0], 0x1000, block, bytes, TOO_LONG, ROOM), JHARTUPAL_BAD_WINDOW);
    refused("INQUIRY, a window of 65,537", next_out(&d, hosts[0], 0x1002, block, bytes, TOO_LONG, ROOM), JHARTUPAL_BAD_WINDOW);
    refused("a window from the block after", next_out(&d, hosts[0], 0x1000, block + 1, bytes, JHARTUPAL_MOST_WINDOW, ROOM), JHARTUPAL_BAD_WINDOW);
    refused("a window that ends before", next_out(&d, hosts[0], 0x1000, block - 1, bytes, JHARTUPAL_BLOCK + JHARTUPAL_LEAST_SIZE - 1, ROOM), JHARTUPAL_BAD_WINDOW);
    refused("an empty window", next_out(&d, hosts[0], 0x1000, block, bytes, 0, ROOM), JHARTUPAL_BAD_WINDOW);
    refused("a window from the last block of 64 bits", next_out(&d, hosts[0], 0x1000, UINT64_MAX, bytes, JHARTUPAL_MOST_WINDOW, ROOM), JHARTUPAL_BAD_WINDOW);
    check(next_out(&d, hosts[0], 0x1000, block, bytes, JHARTUPAL_MOST_WINDOW, MOST_ROOM) == 24 + JHARTUPAL_LEAST_SIZE, "a window of 65,536 and a room of 4,096 are fine");
}

/* "Refusals: 2 also for the new rule" (02, request 1): in its place, after 1 and before all others. */
static void one_name_twice(void) {
    struct jhartupal_drive d;
    struct frame worst = with(with(with(test_unit(hosts[0]), 8, 0x01), 7, 0x03), 3, 0xEE);
    full(&d);
    memcpy(d.port.logins[6].port_name, d.port.logins[1].port_name, JHARTUPAL_NAME);
    refused("one port name twice, room of 2,135", frame_in(&d, worst.b, 20, ROOM - 1), JHARTUPAL_SHORT_BUFFER);
    refused("one port name twice", frame_in(&d, worst.b, 20, ROOM), JHARTUPAL_ILL_FORMED);
    refused("one port name twice, next, room of 2,135", next_out(&d, hosts[0], 0x0999, 0, identity, 0, ROOM - 1), JHARTUPAL_SHORT_BUFFER);
    refused("one port name twice, next", next_out(&d, hosts[0], 0x0999, 0, identity, 0, ROOM), JHARTUPAL_ILL_FORMED);
    for (int i = LOOP_RESET; i <= POWER_ON; i++) {
        refused("one port name twice, an event", event(&d, i), JHARTUPAL_ILL_FORMED);
    }
}

/* Memory that no drive was made in. */
static void no_drive(void) {
    struct jhartupal_drive d;
    struct frame f = plogi(0x01, JHARTUPAL_LEAST_SIZE);
    memset(&d, 0, sizeof d);
    breaks(&d, "zeros", f, JHARTUPAL_ILL_FORMED);
    memset(&d, 0xFF, sizeof d);
    breaks(&d, "ones", f, JHARTUPAL_ILL_FORMED);
    for (int i = LOOP_RESET; i <= POWER_ON; i++) {
        refused("an event and no drive", event(&d, i), JHARTUPAL_ILL_FORMED);
    }
}

void refusals(void) {
    setups();
    frames();
    datas();
    nexts();
    one_name_twice();
    no_drive();
}
