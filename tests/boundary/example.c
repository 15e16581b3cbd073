#include "jhartupal.h"
void chip_send(const uint8_t *frame, size_t n);                   /* the port chip's */
void store_read(uint64_t block, uint8_t *bytes, size_t n);        /* the recorder's; past the last block any bytes will do */
void store_write(uint64_t block, const uint8_t *bytes, size_t n); /* and past the last block nothing is stored */
static struct jhartupal_drive drive;
static uint8_t reply[JHARTUPAL_REPLY], window[JHARTUPAL_MOST_DATA + 2 * JHARTUPAL_BLOCK];
static void sent(uint64_t said) {
    if (0 < said && said < JHARTUPAL_REFUSED) chip_send(reply, (size_t)said);
}
static uint32_t number(const uint8_t *at, size_t n) { return n == 0 ? 0 : number(at, n - 1) << 8 | at[n - 1]; }
static const struct jhartupal_exchange *exchange(uint32_t address, uint32_t ox_id) {
    for (size_t i = 0; i < JHARTUPAL_LOGINS * JHARTUPAL_PLACES; i++) {
        const struct jhartupal_login *l = &drive.port.logins[i / JHARTUPAL_PLACES];
        const struct jhartupal_exchange *e = &l->places[i % JHARTUPAL_PLACES];
        if (l->address == address && e->kind != JHARTUPAL_FREE && e->ox_id == ox_id) return e;
    }
    return 0;
}
int power_up(const struct jhartupal_setup *setup) { return jhartupal_make(&drive, setup) == 0; }
void frame_arrived(const uint8_t *frame, size_t n) {
    const struct jhartupal_exchange *e = n >= 24 && frame[0] == 0x01 ? exchange(number(frame + 5, 3), number(frame + 16, 2)) : 0;
    uint64_t block = e ? e->start + number(frame + 20, 4) / JHARTUPAL_BLOCK : 0, said;
    if (e) store_read(block, window, sizeof window);
    said = jhartupal_frame(&drive, frame, n, block, window, e ? sizeof window : 0, reply, sizeof reply);
    if (e && said == 0) store_write(block, window, sizeof window);
    sent(said);
}
void may_send(size_t login, size_t place) {
    const struct jhartupal_login *l = &drive.port.logins[login];
    const struct jhartupal_exchange *e = &l->places[place];
    uint64_t block = e->start + e->sent / JHARTUPAL_BLOCK;
    if (e->kind == JHARTUPAL_FREE) return;
    store_read(block, window, sizeof window);
    sent(jhartupal_next(&drive, l->address, e->ox_id, block, window, sizeof window, reply, sizeof reply));
}
