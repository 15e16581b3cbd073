/* "Well formed", written from the sentences of document 01 and of 02's requests 1 and 2, and the readings of them: what the drive's own test is held to. */
#include "check.h"

/* "a low byte among FC-AL's 127 loop addresses, 00h excepted": the characters to EFh whose 8B/10B code has as many ones as zeros, which is
 * so where both parts of it have, the one of five bits and the one of three, or neither. A bit here says that the part has not. */
static bool valid_address(uint32_t n) {
    const uint32_t five = 0xE9818117, three = 0x91;
    return 0x00 < n && n <= 0xEF && (five >> (n & 31) & 1) == (three >> (n >> 5) & 1);
}

/* "from 256 to 2,112 and a multiple of 4" */
static bool size_fits(unsigned size) {
    return JHARTUPAL_LEAST_SIZE <= size && size <= JHARTUPAL_MOST_SIZE && size % 4 == 0;
}

static bool named(const uint8_t *name) {
    for (size_t i = 0; i < JHARTUPAL_NAME; i++) {
        if (name[i] != 0) {
            return true;
        }
    }
    return false;
}

/* "words 1 to 28 of the login accept, which must pass the PLOGI rules below with W20/B1 = 01h" */
static bool words_pass(const uint8_t *words) {
    uint8_t w[4 + JHARTUPAL_ACCEPT];
    memcpy(w + 4, words, JHARTUPAL_ACCEPT);
    return size_fits((w[10] << 8 | w[11]) & 0xFFF) && named(w + 20) && named(w + 28) && (w[68] & 0x80) != 0 && size_fits((w[74] << 8 | w[75]) & 0xFFF)
        && w[77] != 0 && w[81] == 1;
}

/* "each exchange is one an accepted command could open": of the commands only READ(10) and WRITE(10) name blocks, and the others leave both fields 0 */
static bool could_want(const struct jhartupal_exchange *e, uint64_t capacity) {
    bool no_blocks = e->start == 0 && e->blocks == 0;
    switch (e->kind) {
    case JHARTUPAL_BLOCKS: /* READ(10), WRITE(10): "address not below capacity, or address plus count above it" is refused; "count x 512" */
        return 1 <= e->blocks && e->blocks <= JHARTUPAL_MOST_COUNT && e->wanted == JHARTUPAL_BLOCK * e->blocks && e->start < capacity && e->blocks <= capacity - e->start;
    case JHARTUPAL_INQUIRY: /* INQUIRY: "36 or byte 4 if smaller", and so of another LUN */
    case JHARTUPAL_INQUIRY_OTHER_UNIT:
        return no_blocks && 1 <= e->wanted && e->wanted <= 36;
    case JHARTUPAL_READ_CAPACITY: /* READ CAPACITY: "8" */
        return no_blocks && e->wanted == 8;
    case JHARTUPAL_SENSE_NONE: /* REQUEST SENSE: "18 or byte 4 if smaller", with 00/00/00, 29h, 2Fh, or of another LUN */
    case JHARTUPAL_SENSE_RESET:
    case JHARTUPAL_SENSE_CLEARED:
    case JHARTUPAL_SENSE_OTHER_UNIT:
        return no_blocks && 1 <= e->wanted && e->wanted <= 18;
    default:
        return false;
    }
}

/* "WRITE(10) on units whose setup allows it" (02): only its data come from the host */
static bool could_open(const struct jhartupal_exchange *e, const struct jhartupal_unit *u) {
    bool from_host = e->direction == JHARTUPAL_FROM_HOST && e->kind == JHARTUPAL_BLOCKS && u->writable == 1;
    return 1 <= e->expected && could_want(e, u->capacity) && (e->direction == JHARTUPAL_TO_HOST || from_host);
}

/* "with bytes sent at most its total and, short of it, a whole number of full frames"; and the frames counted modulo 65,536 */
static bool sent_fits(const struct jhartupal_exchange *e, uint32_t total, unsigned size) {
    uint32_t frame = size < JHARTUPAL_MOST_DATA ? size : JHARTUPAL_MOST_DATA;
    uint32_t frames = e->sent / frame + (e->sent % frame != 0);
    return e->awaited == 0 && e->sent <= total && (e->sent == total || e->sent % frame == 0) && e->count == (frames & 0xFFFF);
}

/* "next frames are FCP_XFER_RDY .. for the bytes left, 65,536 at most, nothing while data is awaited, then FCP_RSP" (02); the drive counts no frames of its own */
static bool taken_fits(const struct jhartupal_exchange *e, uint32_t total) {
    bool between = e->sent == total || e->sent % JHARTUPAL_MOST_BURST == 0;
    return e->sent <= total && e->count == 0 && (e->awaited == 0 ? between : e->awaited == 1 && e->sent < total);
}

/* "the full-frame rule binds reads only" (02) */
static bool moved_fits(const struct jhartupal_exchange *e, unsigned size) {
    uint32_t total = e->wanted < e->expected ? e->wanted : e->expected;
    return e->direction == JHARTUPAL_FROM_HOST ? taken_fits(e, total) : sent_fits(e, total, size);
}

static bool places_fit(const struct jhartupal_login *l, const struct jhartupal_unit *u) {
    for (size_t j = 0; j < JHARTUPAL_PLACES; j++) {
        const struct jhartupal_exchange *e = &l->places[j];
        if (e->kind == JHARTUPAL_FREE) {
            continue;
        }
        if (l->used == 0 || l->paired == 0 || !could_open(e, u) || !moved_fits(e, l->size)) {
            return false; /* "exchanges only at paired logins" */
        }
        for (size_t k = 0; k < j; k++) { /* "OX_IDs distinct within a login" */
            if (l->places[k].kind != JHARTUPAL_FREE && l->places[k].ox_id == e->ox_id) {
                return false;
            }
        }
    }
    return true;
}

/* "login addresses valid, .. not ours; stored parameters pass the PLOGI rules"; flags are 0 or 1, the attention none, 29h or 2Fh */
static bool login_fits(const struct jhartupal_login *l, uint32_t own) {
    bool flags = l->proven <= 1 && l->paired <= 1 && (l->attention == JHARTUPAL_NO_ATTENTION || l->attention == JHARTUPAL_RESET || l->attention == JHARTUPAL_CLEARED);
    return flags && valid_address(l->address) && l->address != own && named(l->port_name) && named(l->node_name) && size_fits(l->size) && l->concurrent != 0
        && l->sequences != 0;
}

/* "login addresses .. distinct"; "Login port names are then distinct, and the well-formed rule says so" (02): among places in use */
static bool apart(const struct jhartupal_login *l, const struct jhartupal_login *m) {
    return l->used == 0 || m->used == 0 || (l->address != m->address && memcmp(l->port_name, m->port_name, JHARTUPAL_NAME) != 0);
}

bool well_formed(const struct jhartupal_drive *d) {
    const struct jhartupal_port *p = &d->port;
    if (d->unit.capacity < JHARTUPAL_LEAST_BLOCKS || d->unit.capacity > JHARTUPAL_MOST_BLOCKS || d->unit.writable > 1 || !valid_address(p->address)
        || !words_pass(p->accept)) {
        return false; /* "setup rules hold" */
    }
    for (size_t i = 0; i < JHARTUPAL_LOGINS; i++) {
        const struct jhartupal_login *l = &p->logins[i];
        if (l->used > 1 || (l->used == 1 && !login_fits(l, p->address)) || !places_fit(l, &d->unit)) {
            return false;
        }
        for (size_t k = 0; k < i; k++) {
            if (!apart(l, &p->logins[k])) {
                return false;
            }
        }
    }
    return true;
}
