/* The C boundary from outside: the layout of the state, and the parts of the test one after the other. */
#include "check.h"

/* A field of a struct: where the compiler has it, and where it has to be by the rule of C, reckoned by hand. */
struct field {
    const char *name;
    size_t is_at, is_wide, at, wide;
};

#define FIELD(type, name, at, wide) \
    { #type "." #name, offsetof(struct jhartupal_##type, name), sizeof(((struct jhartupal_##type *)0)->name), at, wide }

static const struct field exchange_fields[] = {FIELD(exchange, start, 0, 8),     FIELD(exchange, blocks, 8, 4), FIELD(exchange, wanted, 12, 4),
                                               FIELD(exchange, expected, 16, 4), FIELD(exchange, sent, 20, 4),  FIELD(exchange, ox_id, 24, 2),
                                               FIELD(exchange, count, 26, 2),    FIELD(exchange, direction, 28, 1), FIELD(exchange, awaited, 29, 1),
                                               FIELD(exchange, kind, 30, 2)};
static const struct field login_fields[] = {FIELD(login, used, 0, 1),       FIELD(login, proven, 1, 1),    FIELD(login, paired, 2, 1), FIELD(login, attention, 3, 1),
                                            FIELD(login, concurrent, 4, 1), FIELD(login, sequences, 5, 1), FIELD(login, size, 6, 2),   FIELD(login, address, 8, 4),
                                            FIELD(login, port_name, 12, 8), FIELD(login, node_name, 20, 8)};
static const struct field port_fields[] = {FIELD(port, address, 0, 4), FIELD(port, accept, 4, 112)};
static const struct field unit_fields[] = {FIELD(unit, capacity, 0, 8), FIELD(unit, identity, 8, 28), FIELD(unit, writable, 36, 1)};
static const struct field setup_fields[] = {FIELD(setup, capacity, 0, 8), FIELD(setup, address, 8, 4), FIELD(setup, identity, 12, 28), FIELD(setup, accept, 40, 112),
                                            FIELD(setup, writable, 152, 1)};
static const struct field tables[] = {FIELD(drive, unit, 0, 40), FIELD(drive, port, 40, 2424), FIELD(port, logins, 120, 2304), FIELD(login, places, 32, 256)};
#define COUNT(table) (sizeof(table) / sizeof(table)[0])

struct beside_exchange { char c; struct jhartupal_exchange x; };
struct beside_login { char c; struct jhartupal_login x; };
struct beside_port { char c; struct jhartupal_port x; };
struct beside_unit { char c; struct jhartupal_unit x; };
struct beside_drive { char c; struct jhartupal_drive x; };
struct beside_setup { char c; struct jhartupal_setup x; };

static void fields_stand(const struct field *table, size_t n) {
    for (size_t i = 0; i < n; i++) {
        const struct field *f = &table[i];
        check(f->is_at == f->at && f->is_wide == f->wide, "%s: at %zu, %zu bytes, and not at %zu, %zu bytes", f->name, f->is_at, f->is_wide, f->at, f->wide);
    }
}

static void sizes(void) {
    check(sizeof(struct jhartupal_exchange) == 32, "exchange: %zu bytes and not 32", sizeof(struct jhartupal_exchange));
    check(sizeof(struct jhartupal_login) == 288, "login: %zu bytes and not 288", sizeof(struct jhartupal_login));
    check(sizeof(struct jhartupal_port) == 2424, "port: %zu bytes and not 2,424", sizeof(struct jhartupal_port));
    check(sizeof(struct jhartupal_unit) == 40, "unit: %zu bytes and not 40", sizeof(struct jhartupal_unit));
    check(sizeof(struct jhartupal_drive) == 2464, "drive: %zu bytes and not 2,464", sizeof(struct jhartupal_drive));
    check(sizeof(struct jhartupal_setup) == 160, "setup: %zu bytes and not 160", sizeof(struct jhartupal_setup));
    check(offsetof(struct beside_exchange, x) == 8, "exchange: aligned to %zu", offsetof(struct beside_exchange, x));
    check(offsetof(struct beside_login, x) == 8, "login: aligned to %zu", offsetof(struct beside_login, x));
    check(offsetof(struct beside_port, x) == 8, "port: aligned to %zu", offsetof(struct beside_port, x));
    check(offsetof(struct beside_unit, x) == 8, "unit: aligned to %zu", offsetof(struct beside_unit, x));
    check(offsetof(struct beside_drive, x) == 8, "drive: aligned to %zu", offsetof(struct beside_drive, x));
    check(offsetof(struct beside_setup, x) == 8, "setup: aligned to %zu", offsetof(struct beside_setup, x));
}

static void mark_all(size_t base, const struct field *table, size_t n) {
    for (size_t i = 0; i < n; i++) {
        mark(base + table[i].at, table[i].wide);
    }
}

/* The fields' bytes in a whole state, by the numbers reckoned by hand. */
static void mark_state(void) {
    mark_all(0, unit_fields, COUNT(unit_fields));
    mark_all(40, port_fields, COUNT(port_fields));
    for (size_t i = 0; i < JHARTUPAL_LOGINS; i++) {
        size_t login = 40 + 120 + 288 * i;
        mark_all(login, login_fields, COUNT(login_fields));
        for (size_t j = 0; j < JHARTUPAL_PLACES; j++) {
            mark_all(login + 32 + 32 * j, exchange_fields, COUNT(exchange_fields));
        }
    }
    check(marked() == 37 + 116 + 8 * (28 + 8 * 32), "%zu bytes of fields in a state", marked());
}

static void layout(void) {
    sizes();
    fields_stand(exchange_fields, COUNT(exchange_fields));
    fields_stand(login_fields, COUNT(login_fields));
    fields_stand(port_fields, COUNT(port_fields));
    fields_stand(unit_fields, COUNT(unit_fields));
    fields_stand(setup_fields, COUNT(setup_fields));
    fields_stand(tables, COUNT(tables));
    mark_state();
}

int main(void) {
    lend_start();
    header();
    layout();
    session();
    moved();
    writes();
    example();
    refusals();
    damages();
    chances();
    return close_checks();
}
