/* What a caller tells by the header alone, held to every call: which place is taken and what a freed one holds, what 0 says of a frame in, what a data frame comes to, and what a
 * next frame answers. */
#include "check.h"

/* Bytes of a login's own fields, before its padding and its places. */
enum { LOGIN_FIELDS = offsetof(struct jhartupal_login, node_name) + JHARTUPAL_NAME };

static uint32_t number(const uint8_t *at, size_t bytes) {
    uint32_t n = 0;
    for (size_t i = 0; i < bytes; i++) {
        n = n << 8 | at[i];
    }
    return n;
}

static size_t least(size_t a, size_t b) {
    return a < b ? a : b;
}

/* The place of the login of an address, and of its open exchange of an OX_ID; 8 where there is none. */
static size_t login_of(const struct jhartupal_drive *d, uint32_t address) {
    size_t i = 0;
    while (i < JHARTUPAL_LOGINS && !(d->port.logins[i].used == 1 && d->port.logins[i].address == address)) {
        i++;
    }
    return i;
}

static size_t exchange_of(const struct jhartupal_login *l, uint16_t ox_id) {
    size_t j = 0;
    while (j < JHARTUPAL_PLACES && !(l->places[j].kind != JHARTUPAL_FREE && l->places[j].ox_id == ox_id)) {
        j++;
    }
    return j;
}

static bool zeros(const void *at, size_t n) {
    static const uint8_t none[sizeof(struct jhartupal_login)];
    return memcmp(at, none, n) == 0;
}

/* "Where a login or an exchange ends, every field of its place is 0 then, but for what takes that place in the same call." */
void freed(const struct jhartupal_drive *before, const struct jhartupal_drive *after) {
    for (size_t i = 0; i < JHARTUPAL_LOGINS; i++) {
        const struct jhartupal_login *l = &before->port.logins[i], *m = &after->port.logins[i];
        promise(l->used == 0 || m->used == 1 || (zeros(m, LOGIN_FIELDS) && zeros(m->places, sizeof m->places)),
                "the login at place %zu has ended, and its place is not all 0", i);
        for (size_t j = 0; j < JHARTUPAL_PLACES; j++) {
            promise(l->places[j].kind == JHARTUPAL_FREE || m->places[j].kind != JHARTUPAL_FREE || zeros(&m->places[j], sizeof m->places[j]),
                    "the exchange at place %zu of login %zu has ended, and its place is not all 0", j, i);
        }
    }
}

/* "the lowest free place of its login" */
static bool opened(const struct jhartupal_drive *before, const struct jhartupal_drive *after, const uint8_t *frame) {
    size_t i = login_of(after, number(frame + 5, 3)), j = 0;
    if (i == JHARTUPAL_LOGINS) {
        return false;
    }
    while (j < JHARTUPAL_PLACES && before->port.logins[i].places[j].kind != JHARTUPAL_FREE) {
        j++;
    }
    return j < JHARTUPAL_PLACES && j == exchange_of(&after->port.logins[i], (uint16_t)number(frame + 16, 2));
}

/* What a PLOGI ends: "the sender's own login", and "where it passes the rules .. the login of its port name"; name is 0 where it does not pass. */
static bool ended_by(const struct jhartupal_login *l, uint32_t from, const uint8_t *name) {
    return l->used == 1 && (l->address == from || (name != 0 && memcmp(l->port_name, name, JHARTUPAL_NAME) == 0));
}

/* "The new login then takes the lowest free place" */
static bool seated(const struct jhartupal_drive *before, const struct jhartupal_drive *after, uint32_t from, const uint8_t *name) {
    size_t i = 0;
    while (i < JHARTUPAL_LOGINS && before->port.logins[i].used == 1 && !ended_by(&before->port.logins[i], from, name)) {
        i++;
    }
    return i < JHARTUPAL_LOGINS && i == login_of(after, from);
}

static bool same_login(const struct jhartupal_login *l, const struct jhartupal_login *m) {
    return memcmp(l, m, LOGIN_FIELDS) == 0 && memcmp(l->places, m->places, sizeof l->places) == 0;
}

/* Each login that the PLOGI ends is gone, and each other place is as it was, but for the one that the new login takes. */
static bool no_other(const struct jhartupal_drive *before, const struct jhartupal_drive *after, uint32_t from, const uint8_t *name) {
    for (size_t i = 0, seat = name != 0 ? login_of(after, from) : JHARTUPAL_LOGINS; i < JHARTUPAL_LOGINS; i++) {
        const struct jhartupal_login *l = &before->port.logins[i], *m = &after->port.logins[i];
        if (i != seat && !(ended_by(l, from, name) ? m->used == 0 : same_login(l, m))) {
            return false;
        }
    }
    return true;
}

/* A PLOGI that was accepted, that failed a rule (03 and an explanation), or that had a wrong size (03,00) or no room (09,29). */
static void plogi_told(const struct jhartupal_drive *before, const struct jhartupal_drive *after, const uint8_t *frame) {
    uint32_t from = number(frame + 5, 3);
    if (reply[24] == 0x02) {
        promise(seated(before, after, from, frame + 44), "an accepted PLOGI is not at the lowest free place");
        promise(no_other(before, after, from, frame + 44), "an accepted PLOGI ends what it does not name, or leaves what it names");
    } else if (reply[29] == 0x03 && reply[30] != 0x00) {
        promise(no_other(before, after, from, 0), "a PLOGI that fails a rule ends another login, or leaves the sender's");
    } else {
        promise(same(before, after), "a PLOGI of wrong size or without room changes the state");
    }
}

void frame_told(const struct jhartupal_drive *before, const struct jhartupal_drive *after, const uint8_t *frame, uint64_t said) {
    promise(said == 0 || (said >= 28 && said <= 140), "a frame in is answered with %llu bytes", (unsigned long long)said);
    if (said == 0) {
        promise(frame[0] == 0x06 ? opened(before, after, frame) : frame[0] == 0x01 || (frame[0] == 0x23 && same(before, after)), "a frame with R_CTL %02X is answered with 0",
                frame[0]);
    } else if (frame[0] == 0x22 && frame[24] == 0x03) {
        plogi_told(before, after, frame);
    }
}

/* The n bytes that come next of a READ or WRITE are in the window. */
static bool held(const struct jhartupal_exchange *e, size_t n, uint64_t start, size_t length) {
    uint64_t block = e->start + e->sent / JHARTUPAL_BLOCK;
    return start <= block && block - start <= JHARTUPAL_MOST_WINDOW && (block - start) * JHARTUPAL_BLOCK + e->sent % JHARTUPAL_BLOCK + n <= length;
}

/* Where the burst of a WRITE ends, by the number end of the header; where none is awaited, at what has come. */
static uint32_t end_of(const struct jhartupal_exchange *e) {
    uint64_t all = least(e->wanted, e->expected), next = ((uint64_t)e->sent / JHARTUPAL_MOST_BURST + 1) * JHARTUPAL_MOST_BURST;
    return e->awaited == 0 ? e->sent : (uint32_t)least(all, next);
}

/* Whether the m bytes of a data frame have gone to their place in the window, and no other byte of it has changed. */
static bool gone_in(const struct jhartupal_exchange *e, const uint8_t *frame, size_t m, const struct window *w) {
    size_t at = (size_t)(e->start + e->sent / JHARTUPAL_BLOCK - w->start) * JHARTUPAL_BLOCK + e->sent % JHARTUPAL_BLOCK;
    return memcmp(window_left, w->bytes, at) == 0 && memcmp(window_left + at, frame + 24, m) == 0 && memcmp(window_left + at + m, w->bytes + at + m, w->n - at - m) == 0;
}

/* A data frame that none of 1 to 7 refuses: "11", else a fault, else "10", else it is taken. */
void data_told(const struct jhartupal_drive *before, const struct jhartupal_drive *after, const uint8_t *frame, size_t n, const struct window *w, uint64_t said) {
    size_t i = login_of(before, number(frame + 5, 3)), j = i == JHARTUPAL_LOGINS ? JHARTUPAL_PLACES : exchange_of(&before->port.logins[i], (uint16_t)number(frame + 16, 2));
    size_t m = n - 24 - (frame[11] & 3);
    uint32_t offset = number(frame + 20, 4);
    if (j == JHARTUPAL_PLACES || before->port.logins[i].places[j].direction == JHARTUPAL_TO_HOST) {
        promise(said == JHARTUPAL_REFUSED + JHARTUPAL_NO_WRITE, "a data frame for no open write answers %llu", (unsigned long long)said);
        return;
    }
    const struct jhartupal_exchange *e = &before->port.logins[i].places[j], *f = &after->port.logins[i].places[j];
    if (offset != e->sent || e->sent + m > end_of(e)) {
        promise(said == 56 && reply[51] == (offset != e->sent ? 0x03 : 0x01) && f->kind == JHARTUPAL_FREE, "a data frame at %u of %zu bytes, after %u, answers %llu", offset, m, e->sent,
                (unsigned long long)said);
    } else if (w->n > JHARTUPAL_MOST_WINDOW || !held(e, m, w->start, w->n)) {
        promise(said == JHARTUPAL_REFUSED + JHARTUPAL_BAD_WINDOW, "a data frame without its window answers %llu", (unsigned long long)said);
    } else {
        promise(said == 0 && f->sent == e->sent + m && f->awaited == (e->awaited == 1 && f->sent < end_of(e)) && gone_in(e, frame, m, w), "a data frame at %u of %zu bytes answers %llu",
                offset, m, (unsigned long long)said);
    }
}

/* What the next frame of a WRITE answers: what has come, what is awaited, or what is left to ask for. */
static uint64_t write_answer(const struct jhartupal_exchange *e) {
    if (e->awaited == 1) {
        return 0;
    }
    return e->sent < least(e->wanted, e->expected) ? 36 : 48;
}

/* What the next frame of a login's exchange answers, by the numbers full, total and n of the header. */
static uint64_t answer_of(const struct jhartupal_login *l, const struct jhartupal_exchange *e, uint64_t start, size_t length) {
    size_t n = least(least(l->size, JHARTUPAL_MOST_DATA), least(e->wanted, e->expected) - e->sent);
    if (l->proven == 0) {
        return JHARTUPAL_REFUSED + JHARTUPAL_UNPROVEN;
    }
    if (length > JHARTUPAL_MOST_WINDOW) {
        return JHARTUPAL_REFUSED + JHARTUPAL_BAD_WINDOW;
    }
    if (e->direction == JHARTUPAL_FROM_HOST) {
        return write_answer(e);
    }
    if (e->kind == JHARTUPAL_BLOCKS && n > 0 && !held(e, n, start, length)) {
        return JHARTUPAL_REFUSED + JHARTUPAL_BAD_WINDOW;
    }
    return n > 0 ? 24 + (n + 3) / 4 * 4 : 48;
}

void next_told(const struct jhartupal_drive *before, const struct asked *a, uint64_t said) {
    uint64_t wanted = JHARTUPAL_REFUSED + JHARTUPAL_NO_EXCHANGE;
    size_t i = login_of(before, a->address), j;
    if (i < JHARTUPAL_LOGINS && (j = exchange_of(&before->port.logins[i], a->ox_id)) < JHARTUPAL_PLACES) {
        wanted = answer_of(&before->port.logins[i], &before->port.logins[i].places[j], a->start, a->length);
    }
    promise(said == wanted, "a next frame answers %llu and not %llu", (unsigned long long)said, (unsigned long long)wanted);
}
