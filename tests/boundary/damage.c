/* Every rule of "Well formed" broken by itself, at every place that it is asked of, beside states that just keep it: a frame, a next frame
 * and the three events answer 2 exactly then, with nothing changed (lend.c). */
#include "check.h"

enum { ILL = 0, FINE = 1, CAPACITY = 16777216, MOST_WANTED = JHARTUPAL_BLOCK * JHARTUPAL_MOST_COUNT };

/* All five calls with a state. Not well formed: each is refused with 2; otherwise none is. */
static void sees(const char *rule, size_t i, size_t j, const struct jhartupal_drive *state, int fine) {
    struct jhartupal_drive d;
    struct frame f = test_unit(0x1B); /* of an address without login: answered with a LOGO */
    uint64_t said[5];
    memcpy(&d, state, sizeof d);
    said[0] = frame_in(&d, f.b, f.n, ROOM);
    memcpy(&d, state, sizeof d);
    said[1] = next_out(&d, hosts[0], 0x1000, 0, identity, sizeof identity, ROOM);
    for (int e = LOOP_RESET; e <= POWER_ON; e++) {
        memcpy(&d, state, sizeof d);
        said[2 + e] = event(&d, e);
    }
    unsigned twos = 0;
    for (size_t k = 0; k < 5; k++) {
        twos += said[k] == JHARTUPAL_REFUSED + JHARTUPAL_ILL_FORMED;
    }
    check(twos == (fine ? 0 : 5), "%s (login %zu, place %zu): %u of 5 calls answer 2: %llu %llu %llu %llu %llu", rule, i, j, twos, (unsigned long long)said[0],
          (unsigned long long)said[1], (unsigned long long)said[2], (unsigned long long)said[3], (unsigned long long)said[4]);
    check(well_formed(state) == (fine == FINE), "%s (login %zu, place %zu): this test's own rule differs", rule, i, j);
}

/* A field of a struct gets a number. */
struct change {
    const char *rule;
    size_t at, wide;
    uint64_t value;
    int fine;
};

static void apply(void *base, const struct change *c) {
    uint8_t *at = (uint8_t *)base + c->at;
    for (size_t i = 0; i < c->wide; i++) { /* as x86-64 stores it */
        at[i] = i < 8 ? (uint8_t)(c->value >> 8 * i) : 0;
    }
}

#define OF(type, field) offsetof(struct jhartupal_##type, field), sizeof(((struct jhartupal_##type *)0)->field)

/* "setup rules hold", of a drive with no logins. A word's byte b stands at 4 w + b - 4 of the accept words. */
#define WORD(w, b, bytes) offsetof(struct jhartupal_drive, port.accept) + 4 * (w) + (b) - 4, bytes
static const struct change setups[] = {
    {"\"Capacity 1 to ..\": 0", OF(drive, unit.capacity), JHARTUPAL_LEAST_BLOCKS - 1, ILL},
    {"\"Capacity 1 to ..\": 1", OF(drive, unit.capacity), JHARTUPAL_LEAST_BLOCKS, FINE},
    {"\".. to 4,294,967,295\"", OF(drive, unit.capacity), JHARTUPAL_MOST_BLOCKS, FINE},
    {"\".. to 4,294,967,295\": one more", OF(drive, unit.capacity), JHARTUPAL_MOST_BLOCKS + 1, ILL},
    {"\".. to 4,294,967,295\": a high bit", OF(drive, unit.capacity), UINT64_C(1) << 63 | 1, ILL},
    {"a unit that may not be written", OF(drive, unit.writable), 0, FINE},
    {"writable is 0 or 1: 2", OF(drive, unit.writable), 2, ILL},
    {"writable is 0 or 1: FFh", OF(drive, unit.writable), 0xFF, ILL},
    {"own address 01h", OF(drive, port.address), 0x01, FINE},
    {"own address: \"among FC-AL's 127\"", OF(drive, port.address), 0x03, ILL},
    {"own address: \"among FC-AL's 127\", F7h", OF(drive, port.address), 0xF7, ILL},
    {"own address: \"00h excepted\"", OF(drive, port.address), 0x00, ILL},
    {"own address: \"upper bytes 0000h\"", OF(drive, port.address), 0x0100EF, ILL},
    {"own address: bits 31 to 24", OF(drive, port.address), 0x010000EF, ILL},
    {"accept W2 size 252", WORD(2, 2, 2), 0xFC00, ILL},
    {"accept W2 size 256", WORD(2, 2, 2), 0x0001, FINE},
    {"accept W2 size 258", WORD(2, 2, 2), 0x0201, ILL},
    {"accept W2 size 2,112", WORD(2, 2, 2), 0x4008, FINE},
    {"accept W2 size 2,116", WORD(2, 2, 2), 0x4408, ILL},
    {"accept port name zero", WORD(5, 0, 8), 0, ILL},
    {"accept port name, its last byte alone", WORD(5, 0, 8), UINT64_C(1) << 56, FINE},
    {"accept node name zero", WORD(7, 0, 8), 0, ILL},
    {"accept node name, its first byte alone", WORD(7, 0, 8), 1, FINE},
    {"accept W17 bit 31", WORD(17, 0, 1), 0x7F, ILL},
    {"accept W17 bit 31 alone", WORD(17, 0, 1), 0x80, FINE},
    {"accept W18 size 252", WORD(18, 2, 2), 0xFC00, ILL},
    {"accept W18 size 258", WORD(18, 2, 2), 0x0201, ILL},
    {"accept W18 size 2,112", WORD(18, 2, 2), 0x4008, FINE},
    {"accept W18 size 2,116", WORD(18, 2, 2), 0x4408, ILL},
    {"accept W18 size 256, upper bits", WORD(18, 2, 2), 0x00F1, FINE},
    {"accept W19/B1 0", WORD(19, 1, 1), 0, ILL},
    {"accept W19/B1 FFh", WORD(19, 1, 1), 0xFF, FINE},
    {"accept W20/B1 0", WORD(20, 1, 1), 0, ILL},
    {"accept W20/B1 = 01h: 2", WORD(20, 1, 1), 2, ILL},
    {"identity: any bytes", OF(drive, unit.identity), 0, FINE},
};

/* Of each login that is used, with its eight exchanges open */
static const struct change busy[] = {
    {"used is 0 or 1: 2", OF(login, used), 2, ILL},
    {"used is 0 or 1: FFh", OF(login, used), 0xFF, ILL},
    {"a free place has no open exchange", OF(login, used), 0, ILL},
    {"proven is 0 or 1: 0", OF(login, proven), 0, FINE},
    {"proven is 0 or 1: 2", OF(login, proven), 2, ILL},
    {"\"exchanges only at paired logins\"", OF(login, paired), 0, ILL},
    {"attention 29h", OF(login, attention), JHARTUPAL_RESET, FINE},
    {"attention 2Fh", OF(login, attention), JHARTUPAL_CLEARED, FINE},
    {"attention is 0, 29h or 2Fh: 1", OF(login, attention), JHARTUPAL_NO_ATTENTION + 1, ILL},
    {"attention is 0, 29h or 2Fh: 2Ah", OF(login, attention), JHARTUPAL_RESET + 1, ILL},
    {"\"W19/B1 not 0\"", OF(login, concurrent), 0, ILL},
    {"\"W20/B1 not 0\"", OF(login, sequences), 0, ILL},
    {"W19/B1 FFh", OF(login, concurrent), 0xFF, FINE},
    {"W20/B1 FFh", OF(login, sequences), 0xFF, FINE},
    {"size 252", OF(login, size), JHARTUPAL_LEAST_SIZE - 4, ILL},
    {"size 258", OF(login, size), JHARTUPAL_LEAST_SIZE + 2, ILL},
    {"size 260", OF(login, size), JHARTUPAL_LEAST_SIZE + 4, FINE},
    {"size 2,112", OF(login, size), JHARTUPAL_MOST_SIZE, FINE},
    {"size 2,116", OF(login, size), JHARTUPAL_MOST_SIZE + 4, ILL},
    {"size 4,352, whose low 12 bits are 256", OF(login, size), 0x1000 + JHARTUPAL_LEAST_SIZE, ILL},
    {"another address", OF(login, address), 0x18, FINE},
    {"\"addresses valid\": 03h", OF(login, address), 0x03, ILL},
    {"\"00h excepted\"", OF(login, address), 0x00, ILL},
    {"\"upper bytes 0000h\"", OF(login, address), 0x010018, ILL},
    {"bits 31 to 24 of an address", OF(login, address), 0x01000018, ILL},
    {"\"not ours\"", OF(login, address), OWN, ILL},
    {"port name zero", OF(login, port_name), 0, ILL},
    {"port name, its last byte alone", OF(login, port_name), UINT64_C(1) << 56, FINE},
    {"node name zero", OF(login, node_name), 0, ILL},
    {"node name, its last byte alone", OF(login, node_name), UINT64_C(1) << 56, FINE},
};

/* Of each login with no open exchange */
static const struct change idle[] = {
    {"a free place", OF(login, used), 0, FINE},
    {"used is 0 or 1: 2, no exchange", OF(login, used), 2, ILL},
    {"unpaired", OF(login, paired), 0, FINE},
    {"paired is 0 or 1: 2", OF(login, paired), 2, ILL},
};

/* At each place of each login, all of size 256 */
struct damage {
    const char *rule;
    struct jhartupal_exchange e; /* start, blocks, wanted, expected, sent, OX_ID, count, direction, awaited, kind */
    int fine;
};

static const struct damage damages_of[] = {
    {"a READ, halfway", {10, 4, 2048, 2048, 512, 0x3000, 2, 0, 0, JHARTUPAL_BLOCKS}, FINE},
    {"READ of no blocks", {10, 0, 0, 2048, 0, 0x3000, 0, 0, 0, JHARTUPAL_BLOCKS}, ILL},
    {"READ of 65,535 blocks", {10, JHARTUPAL_MOST_COUNT, MOST_WANTED, 2048, 0, 0x3000, 0, 0, 0, JHARTUPAL_BLOCKS}, FINE},
    {"READ of 65,536 blocks", {10, JHARTUPAL_MOST_COUNT + 1, MOST_WANTED + JHARTUPAL_BLOCK, 2048, 0, 0x3000, 0, 0, 0, JHARTUPAL_BLOCKS}, ILL},
    {"READ: \"count x 512\", one less", {10, 4, 2047, 1024, 512, 0x3000, 2, 0, 0, JHARTUPAL_BLOCKS}, ILL},
    {"READ: \"count x 512\", one more", {10, 4, 2049, 1024, 512, 0x3000, 2, 0, 0, JHARTUPAL_BLOCKS}, ILL},
    {"READ of the last block", {CAPACITY - 1, 1, JHARTUPAL_BLOCK, JHARTUPAL_BLOCK, 0, 0x3000, 0, 0, 0, JHARTUPAL_BLOCKS}, FINE},
    {"READ: \"address not below capacity\"", {CAPACITY, 1, JHARTUPAL_BLOCK, JHARTUPAL_BLOCK, 0, 0x3000, 0, 0, 0, JHARTUPAL_BLOCKS}, ILL},
    {"READ: \"address plus count above it\"", {CAPACITY - 3, 4, 2048, 2048, 0, 0x3000, 0, 0, 0, JHARTUPAL_BLOCKS}, ILL},
    {"READ from block 2^32 on", {UINT64_C(1) << 32, 4, 2048, 2048, 0, 0x3000, 0, 0, 0, JHARTUPAL_BLOCKS}, ILL},
    {"READ from the last block of 64 bits", {UINT64_MAX, 1, JHARTUPAL_BLOCK, JHARTUPAL_BLOCK, 0, 0x3000, 0, 0, 0, JHARTUPAL_BLOCKS}, ILL},
    {"FCP_DL 0", {10, 4, 2048, 0, 0, 0x3000, 0, 0, 0, JHARTUPAL_BLOCKS}, ILL},
    {"FCP_DL 1", {10, 4, 2048, 1, 0, 0x3000, 0, 0, 0, JHARTUPAL_BLOCKS}, FINE},
    {"FCP_DL 0, INQUIRY", {0, 0, 36, 0, 0, 0x3000, 0, 0, 0, JHARTUPAL_INQUIRY}, ILL},
    {"no such kind: 9", {10, 4, 2048, 2048, 0, 0x3000, 0, 0, 0, JHARTUPAL_SENSE_OTHER_UNIT + 1}, ILL},
    {"no such kind: 9, of few bytes", {0, 0, 8, 8, 0, 0x3000, 0, 0, 0, JHARTUPAL_SENSE_OTHER_UNIT + 1}, ILL},
    {"no such kind: FFh", {0, 0, 8, 8, 0, 0x3000, 0, 0, 0, 0xFF}, ILL},
    {"a free place, whatever stands there", {UINT64_MAX, 7, 7, 0, 9, 0x1000, 3, 0, 0, JHARTUPAL_FREE}, FINE},
    {"INQUIRY: nothing", {0, 0, 0, 36, 0, 0x3000, 0, 0, 0, JHARTUPAL_INQUIRY}, ILL},
    {"INQUIRY: 36", {0, 0, 36, 255, 0, 0x3000, 0, 0, 0, JHARTUPAL_INQUIRY}, FINE},
    {"INQUIRY: 37", {0, 0, 37, 255, 0, 0x3000, 0, 0, 0, JHARTUPAL_INQUIRY}, ILL},
    {"INQUIRY of another LUN: nothing", {0, 0, 0, 36, 0, 0x3000, 0, 0, 0, JHARTUPAL_INQUIRY_OTHER_UNIT}, ILL},
    {"INQUIRY of another LUN: 36", {0, 0, 36, 255, 0, 0x3000, 0, 0, 0, JHARTUPAL_INQUIRY_OTHER_UNIT}, FINE},
    {"INQUIRY of another LUN: 37", {0, 0, 37, 255, 0, 0x3000, 0, 0, 0, JHARTUPAL_INQUIRY_OTHER_UNIT}, ILL},
    {"READ CAPACITY: 7", {0, 0, 7, 8, 0, 0x3000, 0, 0, 0, JHARTUPAL_READ_CAPACITY}, ILL},
    {"READ CAPACITY: 8", {0, 0, 8, 8, 0, 0x3000, 0, 0, 0, JHARTUPAL_READ_CAPACITY}, FINE},
    {"READ CAPACITY: 9", {0, 0, 9, 8, 0, 0x3000, 0, 0, 0, JHARTUPAL_READ_CAPACITY}, ILL},
    {"REQUEST SENSE: nothing", {0, 0, 0, 18, 0, 0x3000, 0, 0, 0, JHARTUPAL_SENSE_NONE}, ILL},
    {"REQUEST SENSE: 18", {0, 0, 18, 18, 0, 0x3000, 0, 0, 0, JHARTUPAL_SENSE_NONE}, FINE},
    {"REQUEST SENSE: 19", {0, 0, 19, 18, 0, 0x3000, 0, 0, 0, JHARTUPAL_SENSE_NONE}, ILL},
    {"REQUEST SENSE with 29h: 1", {0, 0, 1, 18, 0, 0x3000, 0, 0, 0, JHARTUPAL_SENSE_RESET}, FINE},
    {"REQUEST SENSE with 29h: 19", {0, 0, 19, 18, 0, 0x3000, 0, 0, 0, JHARTUPAL_SENSE_RESET}, ILL},
    {"REQUEST SENSE with 2Fh: 18", {0, 0, 18, 18, 0, 0x3000, 0, 0, 0, JHARTUPAL_SENSE_CLEARED}, FINE},
    {"REQUEST SENSE with 2Fh: nothing", {0, 0, 0, 18, 0, 0x3000, 0, 0, 0, JHARTUPAL_SENSE_CLEARED}, ILL},
    {"REQUEST SENSE of another LUN: 18", {0, 0, 18, 18, 0, 0x3000, 0, 0, 0, JHARTUPAL_SENSE_OTHER_UNIT}, FINE},
    {"REQUEST SENSE of another LUN: 19", {0, 0, 19, 18, 0, 0x3000, 0, 0, 0, JHARTUPAL_SENSE_OTHER_UNIT}, ILL},
    /* of every kind but blocks a start or blocks, and all else as in a line above that is fine */
    {"INQUIRY: a start, 1", {1, 0, 36, 255, 0, 0x3000, 0, 0, 0, JHARTUPAL_INQUIRY}, ILL},
    {"INQUIRY: a block", {0, 1, 36, 255, 0, 0x3000, 0, 0, 0, JHARTUPAL_INQUIRY}, ILL},
    {"INQUIRY of another LUN: a start, 2^32", {UINT64_C(1) << 32, 0, 36, 255, 0, 0x3000, 0, 0, 0, JHARTUPAL_INQUIRY_OTHER_UNIT}, ILL},
    {"INQUIRY of another LUN: blocks, 65,536", {0, JHARTUPAL_MOST_COUNT + 1, 36, 255, 0, 0x3000, 0, 0, 0, JHARTUPAL_INQUIRY_OTHER_UNIT}, ILL},
    {"READ CAPACITY: a start, 1", {1, 0, 8, 8, 0, 0x3000, 0, 0, 0, JHARTUPAL_READ_CAPACITY}, ILL},
    {"READ CAPACITY: a block", {0, 1, 8, 8, 0, 0x3000, 0, 0, 0, JHARTUPAL_READ_CAPACITY}, ILL},
    {"REQUEST SENSE: a start, 1", {1, 0, 18, 18, 0, 0x3000, 0, 0, 0, JHARTUPAL_SENSE_NONE}, ILL},
    {"REQUEST SENSE: blocks, the most of 32 bits", {0, UINT32_MAX, 18, 18, 0, 0x3000, 0, 0, 0, JHARTUPAL_SENSE_NONE}, ILL},
    {"REQUEST SENSE with 29h: a start, 2^63", {UINT64_C(1) << 63, 0, 1, 18, 0, 0x3000, 0, 0, 0, JHARTUPAL_SENSE_RESET}, ILL},
    {"REQUEST SENSE with 29h: a block", {0, 1, 1, 18, 0, 0x3000, 0, 0, 0, JHARTUPAL_SENSE_RESET}, ILL},
    {"REQUEST SENSE with 2Fh: a start, the last of 64 bits", {UINT64_MAX, 0, 18, 18, 0, 0x3000, 0, 0, 0, JHARTUPAL_SENSE_CLEARED}, ILL},
    {"REQUEST SENSE with 2Fh: blocks, 2^31", {0, UINT32_C(1) << 31, 18, 18, 0, 0x3000, 0, 0, 0, JHARTUPAL_SENSE_CLEARED}, ILL},
    {"REQUEST SENSE of another LUN: a start, as of a READ", {10, 0, 18, 18, 0, 0x3000, 0, 0, 0, JHARTUPAL_SENSE_OTHER_UNIT}, ILL},
    {"REQUEST SENSE of another LUN: blocks, the most of a READ", {0, JHARTUPAL_MOST_COUNT, 18, 18, 0, 0x3000, 0, 0, 0, JHARTUPAL_SENSE_OTHER_UNIT}, ILL},
    {"all sent", {10, 4, 2048, 2048, 2048, 0x3000, 8, 0, 0, JHARTUPAL_BLOCKS}, FINE},
    {"\"bytes sent at most its total\"", {10, 4, 2048, 2048, 2304, 0x3000, 9, 0, 0, JHARTUPAL_BLOCKS}, ILL},
    {"all that FCP_DL lets be sent", {10, 4, 2048, 1000, 1000, 0x3000, 4, 0, 0, JHARTUPAL_BLOCKS}, FINE},
    {"\"the smaller of wanted and FCP_DL\"", {10, 4, 2048, 1000, 1024, 0x3000, 4, 0, 0, JHARTUPAL_BLOCKS}, ILL},
    {"\"the smaller of wanted and FCP_DL\", wanted", {0, 0, 8, 2048, 256, 0x3000, 1, 0, 0, JHARTUPAL_READ_CAPACITY}, ILL},
    {"\"a whole number of full frames\"", {10, 4, 2048, 2048, 500, 0x3000, 2, 0, 0, JHARTUPAL_BLOCKS}, ILL},
    {"INQUIRY, all sent", {0, 0, 36, 36, 36, 0x3000, 1, 0, 0, JHARTUPAL_INQUIRY}, FINE},
    {"INQUIRY, short of its total", {0, 0, 36, 36, 35, 0x3000, 1, 0, 0, JHARTUPAL_INQUIRY}, ILL},
    {"the frames sent, one less", {10, 4, 2048, 2048, 512, 0x3000, 1, 0, 0, JHARTUPAL_BLOCKS}, ILL},
    {"the frames sent, one more", {10, 4, 2048, 2048, 512, 0x3000, 3, 0, 0, JHARTUPAL_BLOCKS}, ILL},
    {"none sent, one counted", {10, 4, 2048, 2048, 0, 0x3000, 1, 0, 0, JHARTUPAL_BLOCKS}, ILL},
    {"65,536 frames sent", {10, JHARTUPAL_MOST_COUNT, MOST_WANTED, MOST_WANTED, 16777216, 0x3000, 0, 0, 0, JHARTUPAL_BLOCKS}, FINE},
    {"131,070 frames sent", {10, JHARTUPAL_MOST_COUNT, MOST_WANTED, MOST_WANTED, MOST_WANTED, 0x3000, 65534, 0, 0, JHARTUPAL_BLOCKS}, FINE},
    {"131,070 frames sent, one more", {10, JHARTUPAL_MOST_COUNT, MOST_WANTED, MOST_WANTED, MOST_WANTED, 0x3000, 65535, 0, 0, JHARTUPAL_BLOCKS}, ILL},
    /* of a read, and of made data, nothing is awaited, and nothing but blocks comes from the host */
    {"READ: data awaited", {10, 4, 2048, 2048, 512, 0x3000, 2, 0, 1, JHARTUPAL_BLOCKS}, ILL},
    {"READ: awaited 2", {10, 4, 2048, 2048, 512, 0x3000, 2, 0, 2, JHARTUPAL_BLOCKS}, ILL},
    {"READ: awaited FFh", {10, 4, 2048, 2048, 512, 0x3000, 2, 0, 0xFF, JHARTUPAL_BLOCKS}, ILL},
    {"INQUIRY: data awaited", {0, 0, 36, 36, 0, 0x3000, 0, 0, 1, JHARTUPAL_INQUIRY}, ILL},
    {"direction is 0 or 1: 2", {10, 4, 2048, 2048, 0, 0x3000, 0, 2, 0, JHARTUPAL_BLOCKS}, ILL},
    {"direction is 0 or 1: FFh", {10, 4, 2048, 2048, 0, 0x3000, 0, 0xFF, 0, JHARTUPAL_BLOCKS}, ILL},
    {"direction is 0 or 1: 2, INQUIRY", {0, 0, 36, 36, 0, 0x3000, 0, 2, 0, JHARTUPAL_INQUIRY}, ILL},
    {"INQUIRY from the host", {0, 0, 36, 36, 0, 0x3000, 0, 1, 0, JHARTUPAL_INQUIRY}, ILL},
    {"INQUIRY of another LUN from the host", {0, 0, 36, 36, 0, 0x3000, 0, 1, 0, JHARTUPAL_INQUIRY_OTHER_UNIT}, ILL},
    {"READ CAPACITY from the host", {0, 0, 8, 8, 0, 0x3000, 0, 1, 0, JHARTUPAL_READ_CAPACITY}, ILL},
    {"REQUEST SENSE from the host", {0, 0, 18, 18, 0, 0x3000, 0, 1, 0, JHARTUPAL_SENSE_NONE}, ILL},
    {"REQUEST SENSE with 29h from the host", {0, 0, 18, 18, 0, 0x3000, 0, 1, 0, JHARTUPAL_SENSE_RESET}, ILL},
    {"REQUEST SENSE with 2Fh from the host", {0, 0, 18, 18, 0, 0x3000, 0, 1, 0, JHARTUPAL_SENSE_CLEARED}, ILL},
    {"REQUEST SENSE of another LUN from the host, awaited", {0, 0, 18, 18, 0, 0x3000, 0, 1, 1, JHARTUPAL_SENSE_OTHER_UNIT}, ILL},
    {"a free place, whatever its direction", {0, 0, 0, 0, 0, 0x3000, 0, 2, 2, JHARTUPAL_FREE}, FINE},
    /* a write, of a unit that may be written */
    {"a WRITE, not asked for", {10, 4, 2048, 2048, 0, 0x3000, 0, 1, 0, JHARTUPAL_BLOCKS}, FINE},
    {"a WRITE, awaited", {10, 4, 2048, 2048, 0, 0x3000, 0, 1, 1, JHARTUPAL_BLOCKS}, FINE},
    {"a WRITE, awaited, a part has come", {10, 4, 2048, 2048, 7, 0x3000, 0, 1, 1, JHARTUPAL_BLOCKS}, FINE},
    {"a WRITE, awaited 2", {10, 4, 2048, 2048, 7, 0x3000, 0, 1, 2, JHARTUPAL_BLOCKS}, ILL},
    {"a WRITE, awaited FFh", {10, 4, 2048, 2048, 0, 0x3000, 0, 1, 0xFF, JHARTUPAL_BLOCKS}, ILL},
    {"a WRITE, all has come", {10, 4, 2048, 2048, 2048, 0x3000, 0, 1, 0, JHARTUPAL_BLOCKS}, FINE},
    {"a WRITE, all has come, awaited", {10, 4, 2048, 2048, 2048, 0x3000, 0, 1, 1, JHARTUPAL_BLOCKS}, ILL},
    {"a WRITE, all but one has come, awaited", {10, 4, 2048, 2048, 2047, 0x3000, 0, 1, 1, JHARTUPAL_BLOCKS}, FINE},
    {"a WRITE, more than all has come", {10, 4, 2048, 2048, 2049, 0x3000, 0, 1, 0, JHARTUPAL_BLOCKS}, ILL},
    {"a WRITE, more than all has come, awaited", {10, 4, 2048, 2048, 2049, 0x3000, 0, 1, 1, JHARTUPAL_BLOCKS}, ILL},
    {"a WRITE, all that FCP_DL lets come", {10, 4, 2048, 1001, 1001, 0x3000, 0, 1, 0, JHARTUPAL_BLOCKS}, FINE},
    {"a WRITE, more than FCP_DL", {10, 4, 2048, 1001, 1002, 0x3000, 0, 1, 0, JHARTUPAL_BLOCKS}, ILL},
    {"a WRITE, within a burst, not awaited", {10, 4, 2048, 2048, 512, 0x3000, 0, 1, 0, JHARTUPAL_BLOCKS}, ILL},
    {"a WRITE, a frame counted", {10, 4, 2048, 2048, 512, 0x3000, 1, 1, 1, JHARTUPAL_BLOCKS}, ILL},
    {"a WRITE, the frames of a READ counted", {10, 4, 2048, 2048, 512, 0x3000, 2, 1, 1, JHARTUPAL_BLOCKS}, ILL},
    {"a WRITE, a burst has come", {10, 257, 131584, 131584, JHARTUPAL_MOST_BURST, 0x3000, 0, 1, 0, JHARTUPAL_BLOCKS}, FINE},
    {"a WRITE, a burst has come, awaited", {10, 257, 131584, 131584, JHARTUPAL_MOST_BURST, 0x3000, 0, 1, 1, JHARTUPAL_BLOCKS}, FINE},
    {"a WRITE, a burst but one byte, not awaited", {10, 257, 131584, 131584, JHARTUPAL_MOST_BURST - 1, 0x3000, 0, 1, 0, JHARTUPAL_BLOCKS}, ILL},
    {"a WRITE, a byte past a burst, not awaited", {10, 257, 131584, 131584, JHARTUPAL_MOST_BURST + 1, 0x3000, 0, 1, 0, JHARTUPAL_BLOCKS}, ILL},
    {"a WRITE, a byte past a burst, awaited", {10, 257, 131584, 131584, JHARTUPAL_MOST_BURST + 1, 0x3000, 0, 1, 1, JHARTUPAL_BLOCKS}, FINE},
    {"a WRITE, FCP_DL 0", {10, 4, 2048, 0, 0, 0x3000, 0, 1, 0, JHARTUPAL_BLOCKS}, ILL},
    {"a WRITE of no blocks", {10, 0, 0, 2048, 0, 0x3000, 0, 1, 0, JHARTUPAL_BLOCKS}, ILL},
    {"a WRITE of 65,535 blocks", {10, JHARTUPAL_MOST_COUNT, MOST_WANTED, MOST_WANTED, 0, 0x3000, 0, 1, 1, JHARTUPAL_BLOCKS}, FINE},
    {"a WRITE of 65,536 blocks", {10, JHARTUPAL_MOST_COUNT + 1, MOST_WANTED + JHARTUPAL_BLOCK, 2048, 0, 0x3000, 0, 1, 0, JHARTUPAL_BLOCKS}, ILL},
    {"a WRITE: \"count x 512\", one more", {10, 4, 2049, 2048, 0, 0x3000, 0, 1, 0, JHARTUPAL_BLOCKS}, ILL},
    {"a WRITE of the last block", {CAPACITY - 1, 1, JHARTUPAL_BLOCK, JHARTUPAL_BLOCK, 0, 0x3000, 0, 1, 1, JHARTUPAL_BLOCKS}, FINE},
    {"a WRITE: \"address plus count above it\"", {CAPACITY - 3, 4, 2048, 2048, 0, 0x3000, 0, 1, 0, JHARTUPAL_BLOCKS}, ILL},
};

#define COUNT(table) (sizeof(table) / sizeof(table)[0])

static void setup_rules(void) {
    struct jhartupal_drive d, good;
    made(&good, CAPACITY);
    for (size_t k = 0; k < COUNT(setups); k++) {
        memcpy(&d, &good, sizeof d);
        apply(&d, &setups[k]);
        sees(setups[k].rule, 0, 0, &d, setups[k].fine);
    }
}

static void login_rules(const struct jhartupal_drive *good, const struct change *table, size_t n, bool open) {
    struct jhartupal_drive d;
    for (size_t i = 0; i < JHARTUPAL_LOGINS; i++) {
        for (size_t k = 0; k < n; k++) {
            memcpy(&d, good, sizeof d);
            for (size_t j = 0; j < JHARTUPAL_PLACES && !open; j++) {
                d.port.logins[i].places[j].kind = JHARTUPAL_FREE;
            }
            apply(&d.port.logins[i], &table[k]);
            sees(table[k].rule, i, 0, &d, table[k].fine);
        }
    }
}

static void exchange_rules(const struct jhartupal_drive *good) {
    struct jhartupal_drive d;
    for (size_t i = 0; i < JHARTUPAL_LOGINS; i++) {
        for (size_t j = 0; j < JHARTUPAL_PLACES; j++) {
            for (size_t k = 0; k < COUNT(damages_of); k++) {
                memcpy(&d, good, sizeof d);
                d.port.logins[i].places[j] = damages_of[k].e;
                sees(damages_of[k].rule, i, j, &d, damages_of[k].fine);
            }
        }
    }
}

/* "WRITE(10) on units whose setup allows it" (02): an open write, at each place, of a unit that may be written or not; the READs of it stay. */
static void read_only(const struct jhartupal_drive *good) {
    static const struct jhartupal_exchange write = {10, 4, 2048, 2048, 0, 0x3000, 0, JHARTUPAL_FROM_HOST, 0, JHARTUPAL_BLOCKS};
    struct jhartupal_drive d;
    for (size_t i = 0; i < JHARTUPAL_LOGINS; i++) {
        for (size_t j = 0; j < JHARTUPAL_PLACES; j++) {
            memcpy(&d, good, sizeof d);
            d.unit.writable = 0;
            sees("a unit that may not be written, and reads of it", i, j, &d, FINE);
            d.port.logins[i].places[j] = write;
            sees("a write of a unit that may not be written", i, j, &d, ILL);
            d.unit.writable = 1;
            sees("a write of a unit that may be written", i, j, &d, FINE);
        }
    }
}

/* A login ends, and all but its exchanges stays where it was. */
static void left_free(struct jhartupal_login *l) {
    memset(l->places, 0, sizeof l->places);
    l->used = 0;
}

/* "login addresses .. distinct", "OX_IDs distinct within a login": each two places; of free ones nothing is asked. */
static void each_two(const struct jhartupal_drive *good) {
    struct jhartupal_drive d;
    for (size_t i = 0; i < JHARTUPAL_LOGINS; i++) {
        for (size_t j = 0; j < JHARTUPAL_PLACES; j++) {
            for (size_t k = 0; k < j; k++) {
                memcpy(&d, good, sizeof d);
                d.port.logins[i].places[j].ox_id = d.port.logins[i].places[k].ox_id;
                sees("\"OX_IDs distinct within a login\"", i, j, &d, ILL);
                d.port.logins[i].places[k].kind = JHARTUPAL_FREE;
                sees("the OX_ID of a free place", i, j, &d, FINE);
            }
        }
        for (size_t k = 0; k < i; k++) {
            memcpy(&d, good, sizeof d);
            d.port.logins[i].address = d.port.logins[k].address;
            sees("\"login addresses .. distinct\"", i, k, &d, ILL);
            left_free(&d.port.logins[k]);
            sees("the address of a free place", i, k, &d, FINE);
        }
    }
}

/* The names of two logins: all eight bytes of the port names are compared, where both places are in use, and no node name. */
static void two_names(const struct jhartupal_drive *good, size_t i, size_t k) {
    struct jhartupal_drive d;
    struct jhartupal_login *l = &d.port.logins[i], *m = &d.port.logins[k];
    for (unsigned unused = 0; unused < 4; unused++) { /* none of the two places is free, one, the other, or both */
        memcpy(&d, good, sizeof d);
        memcpy(l->port_name, m->port_name, JHARTUPAL_NAME);
        if (unused & 1) {
            left_free(l);
        }
        if (unused & 2) {
            left_free(m);
        }
        sees(unused == 0 ? "\"Login port names are then distinct\"" : "the port name of a free place", i, k, &d, unused == 0 ? ILL : FINE);
    }
    for (unsigned b = 0; b < JHARTUPAL_NAME; b++) { /* the first bit of the first byte to the last of the last */
        memcpy(&d, good, sizeof d);
        memcpy(l->port_name, m->port_name, JHARTUPAL_NAME);
        l->port_name[b] = (uint8_t)(l->port_name[b] ^ 0x80 >> b);
        sees("port names that differ in one bit", i, b, &d, FINE);
    }
    memcpy(&d, good, sizeof d);
    memcpy(l->node_name, m->node_name, JHARTUPAL_NAME);
    sees("one node name", i, k, &d, FINE);
    memcpy(l->port_name, m->node_name, JHARTUPAL_NAME);
    sees("a port name that is another's node name, and its own", i, k, &d, FINE);
}

/* "Login port names are then distinct" (02, request 1): each two places, whichever comes first. */
static void each_two_names(const struct jhartupal_drive *good) {
    struct jhartupal_drive d;
    for (size_t i = 0; i < JHARTUPAL_LOGINS; i++) {
        for (size_t k = 0; k < JHARTUPAL_LOGINS; k++) {
            if (k != i) {
                two_names(good, i, k);
            }
        }
        memcpy(&d, good, sizeof d);
        memcpy(d.port.logins[i].port_name, accept_words() + 16, JHARTUPAL_NAME);
        sees("the drive's own port name", i, 0, &d, FINE); /* the drive is no login */
    }
}

/* "nothing more is asked of them": of a free place for a login only that it has no open exchange. */
static void left_over(const struct jhartupal_drive *good) {
    struct jhartupal_drive d;
    for (size_t i = 0; i < JHARTUPAL_LOGINS; i++) {
        memcpy(&d, good, sizeof d);
        memset(&d.port.logins[i], 0xFF, sizeof d.port.logins[i]);
        d.port.logins[i].used = 0;
        for (size_t j = 0; j < JHARTUPAL_PLACES; j++) {
            d.port.logins[i].places[j].kind = JHARTUPAL_FREE;
        }
        sees("a free place, whatever stands there", i, 0, &d, FINE);
        for (size_t j = 0; j < JHARTUPAL_PLACES; j++) {
            d.port.logins[i].places[j] = damages_of[0].e;
            sees("a free place and one open exchange", i, j, &d, ILL);
            d.port.logins[i].places[j].kind = JHARTUPAL_FREE;
        }
    }
}

void damages(void) {
    struct jhartupal_drive good;
    full(&good);
    sees("eight logins with eight exchanges", 0, 0, &good, FINE);
    setup_rules();
    login_rules(&good, busy, COUNT(busy), true);
    login_rules(&good, idle, COUNT(idle), false);
    exchange_rules(&good);
    read_only(&good);
    each_two(&good);
    each_two_names(&good);
    left_over(&good);
}
