/* Random states, frames and windows at every call: each answers 2 exactly where the state is not well formed (formed.c), keeps the promises of
 * every call (lend.c), and leaves a well-formed state where it answers. */
#include "check.h"

enum { CALLS = 200000, GOOD_STATES = 5, CAPACITY = 16777216, SEED = 20261115 };

static uint64_t chance_state = SEED;

/* splitmix64 */
static uint64_t chance(void) {
    uint64_t z = chance_state += 0x9E3779B97F4A7C15;
    z = (z ^ z >> 30) * 0xBF58476D1CE4E5B9;
    z = (z ^ z >> 27) * 0x94D049BB133111EB;
    return z ^ z >> 31;
}

static uint32_t below(uint32_t n) {
    return (uint32_t)((chance() >> 32) * n >> 32);
}

static void scatter(void *to, size_t n) {
    for (size_t i = 0; i < n; i += 8) {
        uint64_t z = chance();
        memcpy((uint8_t *)to + i, &z, n - i < 8 ? n - i : 8);
    }
}

/* This many bytes, anywhere, are changed. */
static void spoil(uint8_t *bytes, size_t n, uint32_t times) {
    while (times-- > 0 && n > 0) {
        bytes[below((uint32_t)n)] = (uint8_t)chance();
    }
}

static struct jhartupal_drive good[GOOD_STATES];
static uint8_t window[JHARTUPAL_MOST_WINDOW + 1];

/* In place of a login's last exchange a WRITE, of more than one burst or of a few blocks, asked for or not. */
static void write_at(struct jhartupal_drive *d, size_t i) {
    uint16_t id = d->port.logins[i].places[JHARTUPAL_PLACES - 1].ox_id, count = i % 2 == 0 ? 300 : 3;
    struct frame f = abts(hosts[i], id), g = writing(hosts[i], id, (uint32_t)(1000 * i), count, (uint32_t)JHARTUPAL_BLOCK * count);
    take(d, &f);
    take(d, &g);
    if (i % 4 < 2) {
        next_out(d, hosts[i], id, 0, window, 0, ROOM);
    }
}

/* Empty; one login, of a unit that may not be written; full; full and to be verified; full, with reads and writes on their way. */
static void good_states(void) {
    made(&good[0], CAPACITY);
    made(&good[1], CAPACITY);
    paired(&good[1], hosts[0], JHARTUPAL_MOST_SIZE);
    good[1].unit.writable = 0;
    full(&good[2]);
    full(&good[3]);
    event(&good[3], LOOP_RESET);
    full(&good[4]);
    for (size_t i = 0; i < JHARTUPAL_LOGINS; i++) {
        const struct jhartupal_exchange *e = &good[4].port.logins[i].places[i];
        next_out(&good[4], hosts[i], e->ox_id, e->start, window, JHARTUPAL_MOST_DATA, ROOM);
        write_at(&good[4], i);
    }
    scatter(window, sizeof window);
}

static uint8_t host(void) {
    return hosts[below(JHARTUPAL_LOGINS)];
}

/* One of the OX_IDs of a full drive, or one of a few others. */
static uint16_t some_id(void) {
    return (uint16_t)(0x1000 + below(12));
}

static uint16_t some_size(void) {
    static const uint16_t sizes[] = {JHARTUPAL_LEAST_SIZE, JHARTUPAL_LEAST_SIZE + 4, 300, JHARTUPAL_MOST_DATA, JHARTUPAL_MOST_SIZE - 4, JHARTUPAL_MOST_SIZE,
                                     JHARTUPAL_LEAST_SIZE - 4, JHARTUPAL_LEAST_SIZE + 2, JHARTUPAL_MOST_SIZE + 4};
    return sizes[below(9)];
}

/* Each value is taken by itself: in which order a call's arguments are taken is up to the compiler. */
static struct frame some_command(void) {
    static const uint8_t codes[] = {0x00, 0x03, 0x12, 0x25, 0x2A, 0xA0};
    uint8_t from = host(), code = codes[below(6)], byte_4 = (uint8_t)chance(), lun = below(4) == 0;
    uint16_t id = some_id(), count = (uint16_t)(below(4) == 0 ? chance() : below(12));
    uint32_t block = below(4) == 0 ? CAPACITY - below(8) : below(CAPACITY), few = below(300), dl = below(3) == 0 ? below(9000) : (uint32_t)JHARTUPAL_BLOCK * count;
    switch (below(10)) {
    case 0:
        return task(from, id, (uint8_t)(1 << byte_4 % 8));
    case 3:
    case 4:
        return writing(from, id, block, count, dl);
    case 1:
    case 2:
        return command(from, id, code, byte_4, lun, few);
    default:
        return reading(from, id, block, count, dl);
    }
}

static struct frame some_request(void) {
    uint8_t from = host(), as = below(2) == 0 ? host() : from; /* half of the PLOGIs have the port name of any host */
    uint16_t id = some_id(), size = some_size();
    switch (below(12)) {
    case 0:
    case 1:
        return named_as(plogi(from, size), as, from);
    case 2:
        return pdisc(from, size);
    case 3:
    case 4:
        return prli(from);
    case 5:
        return prlo(from);
    case 6:
    case 7:
        return adisc(from);
    case 8:
        return logo(from);
    case 9:
        return rrq(from, id);
    case 10:
        return abts(from, id);
    default:
        return answer_frame(from);
    }
}

/* A frame that means something, half of them with a few bytes changed and some cut or lengthened; or bytes of any length. */
static struct frame some_frame(void) {
    struct frame f;
    if (below(8) == 0) {
        f.n = below(sizeof f.b + 1);
        scatter(f.b, sizeof f.b);
        return f;
    }
    f = below(2) == 0 ? some_request() : some_command();
    if (below(2) == 0) {
        spoil(f.b, f.n, 1 + below(3));
    }
    if (below(8) == 0) {
        f.n = below(2) == 0 ? below(200) : 4 * below(sizeof f.b / 4 + 1);
    }
    return f;
}

/* An open exchange of a drive, rather than a free place; and the login that it is of. */
static const struct jhartupal_exchange *some_exchange(const struct jhartupal_drive *d, const struct jhartupal_login **l, bool write) {
    const struct jhartupal_exchange *e;
    uint32_t tries = 0;
    do {
        *l = &d->port.logins[below(JHARTUPAL_LOGINS)];
        e = &(*l)->places[below(JHARTUPAL_PLACES)];
    } while ((e->kind == JHARTUPAL_FREE || (write && e->direction != JHARTUPAL_FROM_HOST)) && ++tries < (write ? 256 : 32));
    return e;
}

/* Data for an open WRITE rather than for another exchange, mostly at the next offset and within the burst; and a window that mostly has their place. */
static struct frame some_data(const struct jhartupal_drive *d, uint64_t *start) {
    const struct jhartupal_login *l;
    const struct jhartupal_exchange *e = some_exchange(d, &l, true);
    uint32_t offset = below(8) == 0 ? below(4096) : e->sent, n = below(4) == 0 ? below(JHARTUPAL_MOST_FRAME - 24 + 1) : below(600);
    uint16_t id = below(8) == 0 ? some_id() : e->ox_id, count = (uint16_t)chance();
    uint8_t from = below(8) == 0 ? host() : (uint8_t)l->address;
    *start = below(16) == 0 ? chance() : e->start + offset / JHARTUPAL_BLOCK - (below(4) == 0);
    return sending(from, id, count, offset, window + below(1000), n);
}

static size_t some_room(void) {
    switch (below(16)) {
    case 0:
        return below(ROOM);
    case 1:
        return ROOM + below(MOST_ROOM - ROOM + 1);
    default:
        return ROOM;
    }
}

static size_t some_length(void) {
    switch (below(32)) {
    case 0:
        return JHARTUPAL_MOST_WINDOW;
    case 1:
        return JHARTUPAL_MOST_WINDOW + 1;
    default:
        return below(6000);
    }
}

/* A place gets the port name of another. */
static void name_again(struct jhartupal_drive *d) {
    const struct jhartupal_login *l = &d->port.logins[below(JHARTUPAL_LOGINS)];
    memcpy(d->port.logins[below(JHARTUPAL_LOGINS)].port_name, l->port_name, JHARTUPAL_NAME);
}

/* Any bytes; a good state with a few bytes changed or a name copied; or what the last call left. */
static void some_state(struct jhartupal_drive *d) {
    uint32_t kind = below(16);
    if (kind < 2) {
        scatter(d, sizeof *d);
    } else if (kind < 8 || !well_formed(d)) {
        memcpy(d, &good[below(2) == 0 ? GOOD_STATES - 1 : below(GOOD_STATES)], sizeof *d);
        if (kind == 2) {
            name_again(d);
        } else {
            spoil((uint8_t *)d, sizeof *d, below(4));
        }
    }
}

enum { FRAME, NEXT, EVENT, MAKE, FUNCTIONS };
static unsigned tally[FUNCTIONS][LAST_REFUSAL + 1]; /* of each function: the answers, and each refusal */
static unsigned moves;                              /* accepted PLOGIs with the port name of a login at another address */
static unsigned taken, faults, silences;            /* data frames taken, those that end an exchange, and next frames while data are awaited */

static uint64_t some_next(struct jhartupal_drive *d, size_t room) {
    const struct jhartupal_login *l;
    const struct jhartupal_exchange *e = some_exchange(d, &l, false);
    uint32_t address = below(8) == 0 ? (uint32_t)chance() : l->address;
    uint16_t id = below(8) == 0 ? some_id() : e->ox_id;
    uint64_t start = below(8) == 0 ? chance() : e->start + e->sent / JHARTUPAL_BLOCK - (below(4) == 0);
    return next_out(d, address, id, start, window, some_length(), room);
}

static uint64_t some_make(struct jhartupal_drive *d) {
    uint8_t words[JHARTUPAL_ACCEPT];
    uint64_t capacity = below(4) == 0 ? chance() : 1 + below(CAPACITY);
    uint32_t address = below(4) == 0 ? below(256) : OWN;
    uint8_t writable = (uint8_t)(below(8) == 0 ? chance() : below(2));
    memcpy(words, accept_words(), sizeof words);
    spoil(words, sizeof words, below(40));
    return make(d, capacity, address, window, words, writable);
}

static int some_function(void) {
    uint32_t n = below(64);
    return n < 32 ? FRAME : n < 58 ? NEXT : n < 62 ? EVENT : MAKE;
}

/* Whether a login of another address than the sender's has the port name W5-6 of a frame. */
static bool names_another(const struct jhartupal_drive *d, const struct frame *f) {
    for (size_t i = 0; i < JHARTUPAL_LOGINS; i++) {
        const struct jhartupal_login *l = &d->port.logins[i];
        if (l->used == 1 && l->address != f->b[7] && memcmp(l->port_name, f->b + 44, JHARTUPAL_NAME) == 0) {
            return true;
        }
    }
    return false;
}

/* A call with a state, and what is asked of it. */
static void one_call(struct jhartupal_drive *d) {
    bool formed = well_formed(d);
    int function = some_function();
    size_t room = function == FRAME || function == NEXT ? some_room() : ROOM;
    uint64_t start = chance();
    bool sends = function == FRAME && below(3) == 0;
    struct frame f = sends ? some_data(d, &start) : function == FRAME ? some_frame() : test_unit(0x01);
    bool another = names_another(d, &f);
    struct window w = {start, window, function == FRAME ? some_length() : 0};
    uint64_t said = function == FRAME ? frame_with(d, f.b, f.n, &w, room) : function == NEXT ? some_next(d, room) : function == EVENT ? event(d, (int)below(3)) : some_make(d);
    bool two = said == JHARTUPAL_REFUSED + JHARTUPAL_ILL_FORMED;
    promise(two == (!formed && room >= ROOM && function != MAKE), "function %d answers %llu, and the state is%s well formed", function, (unsigned long long)said,
            formed ? "" : " not");
    promise(room >= ROOM || said == JHARTUPAL_REFUSED + JHARTUPAL_SHORT_BUFFER, "function %d answers %llu with a room of %zu", function, (unsigned long long)said, room);
    tally[function][said < JHARTUPAL_REFUSED ? 0 : (said - JHARTUPAL_REFUSED) % (LAST_REFUSAL + 1)]++;
    moves += function == FRAME && another && f.b[24] == 0x03 && said == 28 + JHARTUPAL_ACCEPT;
    taken += sends && said == 0;
    faults += sends && said == 56;
    silences += function == NEXT && said == 0;
    if (said < JHARTUPAL_REFUSED) {
        struct jhartupal_drive after;
        memcpy(&after, d, sizeof after);
        promise(well_formed(d), "function %d answers %llu and leaves a state that is not well formed", function, (unsigned long long)said);
        promise(event(&after, (int)below(3)) == 0, "function %d answers %llu, and an event then does not answer 0", function, (unsigned long long)said);
    }
}

/* That the calls were not all of one sort: each function answers often, and so does each refusal that it can have. */
static void varied(void) {
    static const char *const names[FUNCTIONS] = {"jhartupal_frame", "jhartupal_next", "events", "jhartupal_make"};
    static const unsigned can[FUNCTIONS] = {ANSWERED | OF_FRAME, ANSWERED | OF_NEXT, ANSWERED | OF_EVENT, ANSWERED | OF_MAKE};
    for (size_t i = 0; i < FUNCTIONS; i++) {
        for (unsigned k = 0; k <= LAST_REFUSAL; k++) {
            if (can[i] >> k & 1) {
                check(tally[i][k] >= 100, "%s: refusal %u (0: answered) only %u times by chance", names[i], k, tally[i][k]);
            }
        }
    }
    check(moves >= 100, "only %u accepted PLOGIs end the login of another address by chance", moves);
    check(taken >= 100 && faults >= 100 && silences >= 100, "only %u data frames taken, %u faults, %u next frames while data are awaited by chance", taken, faults, silences);
}

void chances(void) {
    struct jhartupal_drive d;
    unsigned before = failures();
    good_states();
    memcpy(&d, &good[0], sizeof d);
    for (unsigned i = 0; i < CALLS; i++) {
        some_state(&d);
        one_call(&d);
    }
    check(failures() == before, "%u of %u calls by chance (seed %u) fail", failures() - before, (unsigned)CALLS, (unsigned)SEED);
    varied();
    say("%u calls by chance, seed %u; answered and refused with 1 to 11:\n", (unsigned)CALLS, (unsigned)SEED);
    for (size_t i = 0; i < FUNCTIONS; i++) {
        for (unsigned k = 0; k <= LAST_REFUSAL; k++) {
            say(k == LAST_REFUSAL ? "%u\n" : "%u ", tally[i][k]);
        }
    }
}
