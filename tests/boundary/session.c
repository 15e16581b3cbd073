/* A drive is made, hosts log in, pair and read across block 8,388,608, whose first byte is byte 4,294,967,296 of the unit; every reply is held
 * to document 01's bytes, and the state after it is read through the header's structs. */
#include "check.h"

enum { CAPACITY = 16777216, ACROSS = 8388606 }; /* two blocks before it */

void replies(const char *what, uint64_t said, const struct frame *wanted) {
    size_t i = 0;
    while (said == wanted->n && i < wanted->n && reply[i] == wanted->b[i]) {
        i++;
    }
    check(said == wanted->n && i == wanted->n, "%s: answers %llu and not %zu, byte %zu is the first that differs", what, (unsigned long long)said, wanted->n, i);
}

uint64_t take(struct jhartupal_drive *d, const struct frame *f) {
    return frame_in(d, f->b, f->n, ROOM);
}

static void silent(const char *what, uint64_t said) {
    check(said == 0, "%s: answers %llu and not 0", what, (unsigned long long)said);
}

void made(struct jhartupal_drive *d, uint64_t capacity) {
    memset(d, 0xEE, sizeof *d);
    silent("jhartupal_make", make(d, capacity, OWN, identity, accept_words(), 1));
}

void paired(struct jhartupal_drive *d, uint8_t host, uint16_t size) {
    struct frame f = plogi(host, size), g = prli(host), h = test_unit(host);
    struct frame login = login_acc(&f), pairing = prli_acc(&g), attention = check_condition(&h, 0x06, 0x29);
    replies("PLOGI", take(d, &f), &login);
    replies("PRLI", take(d, &g), &pairing);
    replies("attention", take(d, &h), &attention);
}

/* "keeps address, names, W18 size, W19/B1, W20/B1, proven, unpaired, attention 29h", and has no exchange */
void logged_in(struct jhartupal_login *l, const struct frame *f) {
    memset(l, 0, sizeof *l);
    l->used = l->proven = 1;
    l->attention = JHARTUPAL_RESET;
    l->concurrent = f->b[101];
    l->sequences = f->b[105];
    l->size = (uint16_t)((f->b[98] << 8 | f->b[99]) & 0xFFF);
    l->address = f->b[7];
    memcpy(l->port_name, f->b + 44, JHARTUPAL_NAME);
    memcpy(l->node_name, f->b + 52, JHARTUPAL_NAME);
}

/* What jhartupal_make stores, and what each request then changes. */
static void stored(void) {
    struct jhartupal_drive d, wanted;
    struct jhartupal_login *l = &wanted.port.logins[0];
    struct frame f = plogi(0x01, 2048), g = prli(0x01), h = test_unit(0x01);
    made(&d, CAPACITY);
    memset(&wanted, 0, sizeof wanted);
    wanted.unit.capacity = CAPACITY;
    memcpy(wanted.unit.identity, identity, sizeof identity);
    wanted.unit.writable = 1;
    wanted.port.address = OWN;
    memcpy(wanted.port.accept, accept_words(), JHARTUPAL_ACCEPT);
    check(same(&d, &wanted), "jhartupal_make: stores its setup, and no logins");
    take(&d, &f);
    logged_in(l, &f);
    check(same(&d, &wanted) && l->concurrent == 0x07 && l->sequences == 0x05 && l->size == 2048, "PLOGI: keeps the login at the first place");
    take(&d, &g);
    l->paired = 1;
    check(same(&d, &wanted), "PRLI: marks the login paired");
    take(&d, &h);
    l->attention = JHARTUPAL_NO_ATTENTION;
    check(same(&d, &wanted), "TEST UNIT READY: clears the attention");
}

/* The exchange that is open at a login's first place. */
static void stands(const char *what, const struct jhartupal_exchange *e, uint64_t start, uint32_t blocks, uint32_t expected, uint32_t sent, unsigned count) {
    check(e->start == start && e->blocks == blocks && e->wanted == JHARTUPAL_BLOCK * blocks && e->expected == expected && e->sent == sent && e->ox_id == 0x0B01
              && e->count == count && e->kind == JHARTUPAL_BLOCKS && e->direction == JHARTUPAL_TO_HOST && e->awaited == 0,
          "%s: after %u bytes in %u frames the exchange is %llu, %u, %u, %u, %u, %04X, %u, %u", what, sent, count, (unsigned long long)e->start, e->blocks, e->wanted,
          e->expected, e->sent, e->ox_id, e->count, e->kind);
}

/* A READ of blocks by a host of this W18 size, frame by frame, each from a window over its own bytes alone, to the FCP_RSP that frees the place. */
static void reads(const char *what, uint64_t capacity, uint16_t size, uint32_t block, uint16_t count, uint32_t dl, uint8_t flags, uint32_t residual) {
    struct jhartupal_drive d, before;
    struct frame f = reading(0x02, 0x0B01, block, count, dl), wanted = response(&f, flags, residual);
    uint32_t all = (uint32_t)JHARTUPAL_BLOCK * count, total = dl < all ? dl : all, most = size < JHARTUPAL_MOST_DATA ? size : JHARTUPAL_MOST_DATA, number = 0;
    made(&d, capacity);
    paired(&d, 0x02, size);
    memcpy(&before, &d, sizeof d);
    silent(what, take(&d, &f));
    for (uint32_t offset = 0; offset < total; offset += most) {
        uint32_t n = total - offset < most ? total - offset : most, ahead = offset % JHARTUPAL_BLOCK;
        uint64_t start = (uint64_t)block + offset / JHARTUPAL_BLOCK;
        struct frame g = data(&f, (uint16_t)number, offset, unit_bytes(start, ahead + n) + ahead, n, offset + n == total);
        stands(what, &d.port.logins[0].places[0], block, count, dl, offset, number);
        replies(what, next_out(&d, 0x02, 0x0B01, start, unit_bytes(start, ahead + n), ahead + n, ROOM), &g);
        number++;
    }
    stands(what, &d.port.logins[0].places[0], block, count, dl, total, number);
    replies(what, next_out(&d, 0x02, 0x0B01, 0, identity, 0, ROOM), &wanted);
    check(same(&d, &before), "%s: the place is free again", what);
    check(next_out(&d, 0x02, 0x0B01, block, unit_bytes(block, 2048), 2048, ROOM) == JHARTUPAL_REFUSED + JHARTUPAL_NO_EXCHANGE, "%s: no exchange any more", what);
}

/* Windows that stand for others where a byte's place is held in 32 bits: block 8,388,608 is no block 0. */
static void no_wrap(void) {
    struct jhartupal_drive d;
    struct frame f = reading(0x02, 0x0B01, ACROSS, 4, 2048), g = data(&f, 4, 1024, unit_bytes(8388608, JHARTUPAL_LEAST_SIZE), JHARTUPAL_LEAST_SIZE, false);
    size_t short_by_one = JHARTUPAL_BLOCK + JHARTUPAL_LEAST_SIZE - 1;
    uint64_t refused = JHARTUPAL_REFUSED + JHARTUPAL_BAD_WINDOW;
    made(&d, CAPACITY);
    paired(&d, 0x02, JHARTUPAL_LEAST_SIZE);
    silent("READ", take(&d, &f));
    for (int i = 0; i < 4; i++) {
        check(next_out(&d, 0x02, 0x0B01, ACROSS, unit_bytes(ACROSS, 1024), 1024, ROOM) == 24 + JHARTUPAL_LEAST_SIZE, "READ: frame %d", i);
    }
    check(next_out(&d, 0x02, 0x0B01, 0, unit_bytes(0, 2048), 2048, ROOM) == refused, "block 0 stands for block 8,388,608");
    check(next_out(&d, 0x02, 0x0B01, 8388608 + (UINT64_C(1) << 55), unit_bytes(0, 2048), 2048, ROOM) == refused, "block 2^55 + 8,388,608 stands for 8,388,608");
    check(next_out(&d, 0x02, 0x0B01, 8388607, unit_bytes(8388607, short_by_one), short_by_one, ROOM) == refused, "a window that ends a byte early covers");
    replies("from block 8,388,608 on", next_out(&d, 0x02, 0x0B01, 8388608, unit_bytes(8388608, JHARTUPAL_LEAST_SIZE), JHARTUPAL_LEAST_SIZE, ROOM), &g);
}

static void fetched(const char *what, struct jhartupal_drive *d, struct frame f, const uint8_t *content, size_t n) {
    struct frame wanted = data(&f, 0, 0, content, n, true), rsp = response(&f, 0, 0);
    uint16_t ox_id = (uint16_t)(f.b[16] << 8 | f.b[17]);
    silent(what, take(d, &f));
    replies(what, next_out(d, f.b[7], ox_id, UINT64_MAX, identity, 1, ROOM), &wanted); /* "made data and FCP_RSP need no cover" */
    replies(what, next_out(d, f.b[7], ox_id, UINT64_MAX, identity, 1, ROOM), &rsp);
}

/* "70, 00, key, 4 zeros, 0A, code and qualifier at 12, 13" */
static void senses(const char *what, struct jhartupal_drive *d, uint8_t lun, uint8_t key, uint8_t code) {
    uint8_t sense[18] = {0x70, 0, key, 0, 0, 0, 0, 0x0A, 0, 0, 0, 0, code};
    fetched(what, d, command(0x01, 0x0C02, 0x03, 18, lun, 18), sense, 18);
}

/* What is made from the setup and the attention. */
static void made_data(void) {
    struct jhartupal_drive d;
    uint8_t inquiry[36] = {0x00, 0x00, 0x02, 0x02, 0x1F, 0x00, 0x00, 0x02}, last[8];
    struct frame f = plogi(0x01, 2048), g = prli(0x01), h = reading(0x01, 0x0C03, 0, 1, 512), i = task(0x02, 0x0C04, 0x04);
    memcpy(inquiry + 8, identity, sizeof identity);
    put(last, (uint64_t)(CAPACITY - 1) << 32 | JHARTUPAL_BLOCK, 8);
    made(&d, CAPACITY);
    take(&d, &f);
    take(&d, &g);
    fetched("INQUIRY", &d, command(0x01, 0x0C01, 0x12, 36, 0, 36), inquiry, 36);
    inquiry[0] = 0x7F;
    fetched("INQUIRY of another LUN", &d, command(0x01, 0x0C01, 0x12, 255, 1, 36), inquiry, 36);
    senses("REQUEST SENSE with 29h", &d, 0, 0x06, 0x29);
    senses("REQUEST SENSE", &d, 0, 0x00, 0x00);
    senses("REQUEST SENSE of another LUN", &d, 1, 0x05, 0x25);
    fetched("READ CAPACITY", &d, command(0x01, 0x0C01, 0x25, 0, 0, 8), last, 8);
    paired(&d, 0x02, JHARTUPAL_LEAST_SIZE);
    silent("READ that is cleared", take(&d, &h));
    check(take(&d, &i) == 24 + 32 && d.port.logins[0].attention == JHARTUPAL_CLEARED, "clear task set: attention 2Fh");
    senses("REQUEST SENSE with 2Fh", &d, 0, 0x06, 0x2F);
}

/* Eight exchanges of a login, of every kind that needs no attention. */
static struct frame opening(uint8_t host, unsigned place) {
    uint16_t ox_id = (uint16_t)(0x1000 + place);
    switch (place) {
    case 2:
        return command(host, ox_id, 0x12, 36, 0, 36);
    case 3:
        return command(host, ox_id, 0x12, 36, 1, 36);
    case 4:
        return command(host, ox_id, 0x25, 0, 0, 8);
    case 5:
        return command(host, ox_id, 0x03, 18, 0, 18);
    case 6:
        return command(host, ox_id, 0x03, 18, 1, 18);
    default:
        return reading(host, ox_id, ACROSS + host + place, 4, 2048);
    }
}

void full(struct jhartupal_drive *d) {
    made(d, CAPACITY);
    for (size_t i = 0; i < JHARTUPAL_LOGINS; i++) {
        paired(d, hosts[i], JHARTUPAL_LEAST_SIZE);
        for (unsigned j = 0; j < JHARTUPAL_PLACES; j++) {
            struct frame f = opening(hosts[i], j);
            silent("opens", take(d, &f));
        }
    }
}

/* The first data of the exchange at a place of a full drive. */
static struct frame first_data(uint8_t host, unsigned place) {
    static const uint8_t kinds[JHARTUPAL_PLACES] = {0, 0, 36, 36, 8, 18, 18, 0};
    uint8_t made_bytes[36] = {0};
    struct frame f = opening(host, place);
    if (kinds[place] == 0) {
        return data(&f, 0, 0, unit_bytes(ACROSS + host + place, JHARTUPAL_LEAST_SIZE), JHARTUPAL_LEAST_SIZE, false);
    }
    if (kinds[place] == 36) {
        put(made_bytes, place == 2 ? 0x000002021F000002 : 0x7F0002021F000002, 8);
        memcpy(made_bytes + 8, identity, sizeof identity);
    } else if (kinds[place] == 8) {
        put(made_bytes, (uint64_t)(CAPACITY - 1) << 32 | JHARTUPAL_BLOCK, 8);
    } else {
        put(made_bytes, place == 5 ? 0x700000000000000A : 0x700005000000000A, 8);
        made_bytes[12] = place == 5 ? 0x00 : 0x25;
    }
    return data(&f, 0, 0, made_bytes, kinds[place], true);
}

/* Every place of every login: what the drive stores there, and that the next frame of an exchange moves it alone. */
static void every_place(void) {
    static const uint8_t kinds[JHARTUPAL_PLACES] = {JHARTUPAL_BLOCKS,        JHARTUPAL_BLOCKS,     JHARTUPAL_INQUIRY,          JHARTUPAL_INQUIRY_OTHER_UNIT,
                                                  JHARTUPAL_READ_CAPACITY, JHARTUPAL_SENSE_NONE, JHARTUPAL_SENSE_OTHER_UNIT, JHARTUPAL_BLOCKS};
    static const uint32_t wanted[JHARTUPAL_PLACES] = {2048, 2048, 36, 36, 8, 18, 18, 2048};
    struct jhartupal_drive d, after;
    full(&d);
    for (size_t i = 0; i < JHARTUPAL_LOGINS; i++) {
        check(d.port.logins[i].used == 1 && d.port.logins[i].address == hosts[i] && d.port.logins[i].port_name[7] == hosts[i], "login %zu stands at its place", i);
        for (unsigned j = 0; j < JHARTUPAL_PLACES; j++) {
            struct jhartupal_exchange *e = &d.port.logins[i].places[j];
            struct frame g = first_data(hosts[i], j);
            uint64_t block = e->start;
            check(e->kind == kinds[j] && e->ox_id == 0x1000 + j && e->wanted == wanted[j] && e->expected == wanted[j] && e->sent == 0 && e->count == 0
                      && e->start == (kinds[j] == JHARTUPAL_BLOCKS ? ACROSS + hosts[i] + j : 0) && e->blocks == (kinds[j] == JHARTUPAL_BLOCKS ? 4 : 0),
                  "exchange %u of login %zu stands at its place", j, i);
            memcpy(&after, &d, sizeof d);
            replies("one of 64", next_out(&after, hosts[i], e->ox_id, block, unit_bytes(block, JHARTUPAL_LEAST_SIZE), JHARTUPAL_LEAST_SIZE, ROOM), &g);
            e->sent = wanted[j] < JHARTUPAL_LEAST_SIZE ? wanted[j] : JHARTUPAL_LEAST_SIZE;
            e->count = 1;
            check(same(&after, &d), "the next frame moves exchange %u of login %zu alone", j, i);
        }
    }
}

static void events(void) {
    struct jhartupal_drive d, wanted, empty;
    struct frame f = adisc(hosts[3]), g = adisc_acc(&f), h = test_unit(hosts[0]), i = drive_logo(&h);
    made(&empty, CAPACITY);
    full(&d);
    memcpy(&wanted, &d, sizeof d);
    silent("loop reset", event(&d, LOOP_RESET));
    for (size_t k = 0; k < JHARTUPAL_LOGINS; k++) {
        wanted.port.logins[k].proven = 0;
    }
    check(same(&d, &wanted), "loop reset: every login is unproven, and nothing else changes");
    replies("ADISC", take(&d, &f), &g);
    wanted.port.logins[3].proven = 1;
    check(same(&d, &wanted), "ADISC: its login is proven");
    silent("time over", event(&d, TIME_OVER));
    for (size_t k = 0; k < JHARTUPAL_LOGINS; k++) {
        if (k != 3) {
            memset(&wanted.port.logins[k], 0, sizeof wanted.port.logins[k]);
        }
    }
    check(same(&d, &wanted), "time over: the unproven ones end, the proven one stays");
    replies("no login", take(&d, &h), &i);
    silent("power on", event(&d, POWER_ON));
    check(same(&d, &empty), "power on: every login ends");
}

void session(void) {
    stored();
    reads("one frame across", CAPACITY, 2048, ACROSS, 4, 2048, 0, 0);
    reads("eight frames across", CAPACITY, JHARTUPAL_LEAST_SIZE, ACROSS, 4, 2048, 0, 0);
    reads("frames of 2,048 across, a size of 2,112", CAPACITY, JHARTUPAL_MOST_SIZE, ACROSS, 9, 4608, 0, 0);
    reads("frames of 300 across, no whole blocks", CAPACITY, 300, ACROSS - 1, 7, 3584, 0, 0);
    reads("1,001 of 1,024 bytes", CAPACITY, 2048, ACROSS + 1, 2, 1001, 0x04, 23);
    reads("1,024 of 2,048 bytes", CAPACITY, JHARTUPAL_LEAST_SIZE, ACROSS + 1, 2, 2048, 0x08, 1024);
    reads("the last block of all", JHARTUPAL_MOST_BLOCKS, 2048, (uint32_t)(JHARTUPAL_MOST_BLOCKS - 1), 1, 512, 0, 0);
    no_wrap();
    made_data();
    every_place();
    events();
}
