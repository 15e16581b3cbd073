/* The host that moved (document 02, request 1): "A PLOGI whose parameters pass, with a port name logged in at another address, ends that login and its
 * exchanges before the room test", on a drive with eight logins of eight exchanges each. After every PLOGI the whole state is held to the wanted one. */
#include "check.h"

enum { NEW = 0x1B, SIZE = 300 }; /* an address without login; another size than the logins have */

static struct jhartupal_drive eight;

/* A PLOGI of a host with the port name of another, and all else its own. */
static struct frame plogi_as(uint8_t host, uint8_t other) {
    struct frame f = named_as(plogi(host, SIZE), other, host);
    f.b[101] = 0x09; /* W19/B1 */
    f.b[105] = 0x03; /* W20/B1 */
    return f;
}

/* A PLOGI to a drive is accepted, and the drive is then the wanted one with its login at a place. */
static void accepted(const char *what, struct jhartupal_drive *d, struct frame f, struct jhartupal_drive *wanted, size_t place) {
    struct frame acc = login_acc(&f);
    replies(what, take(d, &f), &acc);
    logged_in(&wanted->port.logins[place], &f);
    check(same(d, wanted), "%s: the login stands at place %zu, and of the others just those that it names have ended", what, place);
}

/* A PLOGI to a drive is rejected, and the drive is then the wanted one. */
static void rejected(const char *what, struct jhartupal_drive *d, struct frame f, uint8_t reason, uint8_t explanation, const struct jhartupal_drive *wanted) {
    struct frame rjt = ls_rjt(&f, reason, explanation);
    replies(what, take(d, &f), &rjt);
    check(same(d, wanted), "%s: no other login is touched", what);
}

static void ended(struct jhartupal_login *l) {
    memset(l, 0, sizeof *l);
}

/* No login, no exchange: what the old address and the new one are answered, with nothing changed. */
static void gone(struct jhartupal_drive *d, uint8_t old) {
    struct jhartupal_drive before;
    struct frame f = test_unit(old), logout = drive_logo(&f);
    memcpy(&before, d, sizeof before);
    replies("the old address: TEST UNIT READY", take(d, &f), &logout);
    for (uint16_t ox_id = 0x1000; ox_id < 0x1000 + JHARTUPAL_PLACES; ox_id++) {
        check(next_out(d, old, ox_id, 0, identity, 0, ROOM) == JHARTUPAL_REFUSED + JHARTUPAL_NO_EXCHANGE, "the old address: exchange %04X has ended", ox_id);
        check(next_out(d, NEW, ox_id, 0, identity, 0, ROOM) == JHARTUPAL_REFUSED + JHARTUPAL_NO_EXCHANGE, "the new address: it has no exchange %04X", ox_id);
    }
    check(same(d, &before), "the old address: its frame and next frames change nothing");
}

/* A full table: the login takes the place of the one that it ends, whichever that is. */
static void full_table(void) {
    struct jhartupal_drive d, wanted;
    for (size_t i = 0; i < JHARTUPAL_LOGINS; i++) {
        memcpy(&d, &eight, sizeof d);
        memcpy(&wanted, &eight, sizeof d);
        accepted("PLOGI moved", &d, plogi_as(NEW, hosts[i]), &wanted, i);
        gone(&d, hosts[i]);
        accepted("PLOGI moved back", &d, plogi(hosts[i], SIZE), &wanted, i);
    }
}

/* The sender has a login, and the name stands elsewhere: both end, and the login takes "the lowest free place" after that. */
static void both_end(void) {
    struct jhartupal_drive d, wanted;
    for (size_t i = 0; i < JHARTUPAL_LOGINS; i++) {
        for (size_t k = 0; k < JHARTUPAL_LOGINS; k++) {
            memcpy(&d, &eight, sizeof d);
            memcpy(&wanted, &eight, sizeof d);
            ended(&wanted.port.logins[i]);
            ended(&wanted.port.logins[k]);
            accepted("PLOGI with a login", &d, plogi_as(hosts[i], hosts[k]), &wanted, i < k ? i : k);
        }
    }
}

/* A lower place was free before. */
static void lower_place(void) {
    struct jhartupal_drive d, wanted;
    struct frame f = logo(hosts[1]);
    memcpy(&d, &eight, sizeof d);
    memcpy(&wanted, &eight, sizeof d);
    take(&d, &f);
    ended(&wanted.port.logins[1]);
    ended(&wanted.port.logins[2]);
    ended(&wanted.port.logins[5]);
    accepted("PLOGI with a lower place free", &d, plogi_as(hosts[5], hosts[2]), &wanted, 1);
}

/* "whose parameters pass": all word tests come first, and where one fails the sender's own login ends (01) and no other. */
static void word_tests(void) {
    static const struct { size_t at; uint64_t value; size_t n; uint8_t explanation; } tests[] = {
        {10, 0x00FC, 2, 0x0F}, {28, 0, 8, 0x0E}, {68, 0x7F, 1, 0x01}, {74, 0x0844, 2, 0x07}, {77, 0, 1, 0x09}, {81, 0, 1, 0x01}};
    struct jhartupal_drive d, wanted;
    for (size_t i = 0; i < sizeof tests / sizeof tests[0]; i++) {
        struct frame f = plogi_as(NEW, hosts[3]), g = plogi_as(hosts[5], hosts[2]);
        put(f.b + 24 + tests[i].at, tests[i].value, tests[i].n);
        put(g.b + 24 + tests[i].at, tests[i].value, tests[i].n);
        memcpy(&d, &eight, sizeof d);
        rejected("a word test of a host without login", &d, f, 0x03, tests[i].explanation, &eight);
        memcpy(&wanted, &eight, sizeof d);
        ended(&wanted.port.logins[5]);
        rejected("a word test of a host with a login", &d, g, 0x03, tests[i].explanation, &wanted);
    }
}

/* "09,29" for a ninth port name, also with the node name of a login; and not one byte of the state is written. */
static void no_room(void) {
    struct jhartupal_drive d;
    memcpy(&d, &eight, sizeof d);
    rejected("a ninth name", &d, plogi(NEW, SIZE), 0x09, 0x29, &eight);
    check(memcmp(&d, &eight, sizeof d) == 0, "a ninth name: a byte of the state is changed");
    rejected("a ninth port name and a known node name", &d, named_as(plogi(NEW, SIZE), NEW, hosts[3]), 0x09, 0x29, &eight);
    check(memcmp(&d, &eight, sizeof d) == 0, "a ninth port name and a known node name: a byte of the state is changed");
    for (size_t b = 0; b < JHARTUPAL_NAME; b++) {
        struct frame f = plogi_as(NEW, hosts[3]);
        f.b[44 + b] = (uint8_t)(f.b[44 + b] ^ 0x80 >> b);
        rejected("a name that differs in one bit", &d, f, 0x09, 0x29, &eight);
    }
}

/* "port name" is W5-6 alone, compared with the port names of logins: two hosts of one node name, a node name as port name, the drive's own port name. */
static void names_apart(void) {
    struct jhartupal_drive d, wanted;
    struct frame f = plogi(hosts[1], SIZE), g = f;
    memcpy(&d, &eight, sizeof d);
    memcpy(&wanted, &eight, sizeof d);
    accepted("one node name", &d, named_as(f, hosts[1], hosts[0]), &wanted, 1);
    memcpy(g.b + 44, eight.port.logins[0].node_name, JHARTUPAL_NAME);
    accepted("another's node name as port name", &d, g, &wanted, 1);
    memcpy(g.b + 44, accept_words() + 16, JHARTUPAL_NAME);
    accepted("the drive's own port name", &d, g, &wanted, 1);
}

/* PDISC and ADISC are compared with the sender's own login alone. */
static void other_requests(void) {
    struct jhartupal_drive d, wanted;
    struct frame requests[] = {named_as(pdisc(hosts[1], SIZE), hosts[0], hosts[0]), adisc(hosts[1])};
    memcpy(requests[1].b + 32, eight.port.logins[0].port_name, 2 * JHARTUPAL_NAME);
    memcpy(&wanted, &eight, sizeof d);
    ended(&wanted.port.logins[1]);
    for (size_t i = 0; i < 2; i++) {
        struct frame logout = drive_logo(&requests[i]);
        memcpy(&d, &eight, sizeof d);
        for (int again = 0; again < 2; again++) { /* the second finds no login of the sender */
            replies("another's names, and no PLOGI", take(&d, &requests[i]), &logout);
            check(same(&d, &wanted), "another's names, and no PLOGI: the sender's login ends alone");
        }
    }
}

/* A login that is unproven ends like any other; a free place may keep any name, and is neither compared nor changed. */
static void unproven_and_free(void) {
    struct jhartupal_drive d, wanted;
    struct jhartupal_login *left = &d.port.logins[6];
    memcpy(&d, &eight, sizeof d);
    event(&d, LOOP_RESET);
    memset(left->places, 0, sizeof left->places);
    left->used = 0;
    memcpy(left->port_name, d.port.logins[4].port_name, JHARTUPAL_NAME);
    memcpy(&wanted, &d, sizeof d);
    accepted("an unproven login and a free place of its name", &d, plogi_as(NEW, hosts[4]), &wanted, 4);
    ended(&wanted.port.logins[4]);
    ended(&wanted.port.logins[7]);
    accepted("the same from another place", &d, plogi_as(hosts[7], hosts[4]), &wanted, 4);
}

void moved(void) {
    full(&eight);
    full_table();
    both_end();
    lower_place();
    word_tests();
    no_room();
    names_apart();
    other_requests();
    unproven_and_free();
}
