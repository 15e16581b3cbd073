/* Counts the checks, and makes every call with what is lent standing just before memory that nobody may touch, and guards before it. */
#include "check.h"

#include <stdarg.h>

/* libc's, with Linux's numbers */
int vdprintf(int file, const char *format, va_list values);
void *mmap(void *at, size_t n, int protection, int flags, int file, long offset);
int mprotect(void *at, size_t n, int protection);
void exit(int status);
enum { NO_ACCESS = 0, READ_WRITE = 3, PRIVATE_MEMORY = 0x22, PAGE = 65536 };

static unsigned passed, failed;

/* At once, so that it is seen also where a later call crashes. */
void say(const char *format, ...) {
    va_list values;
    va_start(values, format);
    vdprintf(1, format, values);
    va_end(values);
}

static void fail(const char *format, va_list values) {
    failed++;
    if (failed <= 100) { /* the rest would say the same */
        say("FAILED: ");
        vdprintf(1, format, values);
        say("\n");
    }
}

void check(bool holds, const char *format, ...) {
    va_list values;
    va_start(values, format);
    if (holds) {
        passed++;
    } else {
        fail(format, values);
    }
    va_end(values);
}

void promise(bool holds, const char *format, ...) {
    va_list values;
    va_start(values, format);
    if (!holds) {
        fail(format, values);
    }
    va_end(values);
}

unsigned failures(void) {
    return failed;
}

int close_checks(void) {
    say("%u passed, %u failed\n", passed, failed);
    return failed == 0 && passed > 0 ? 0 : 1;
}

/* The bytes of a state that are of a field, and not padding. */
static uint8_t fields[sizeof(struct jhartupal_drive)];

void mark(size_t offset, size_t width) {
    memset(fields + offset, 0xFF, width);
}

size_t marked(void) {
    size_t n = 0;
    for (size_t i = 0; i < sizeof fields; i++) {
        n += fields[i] & 1;
    }
    return n;
}

bool same(const struct jhartupal_drive *one, const struct jhartupal_drive *other) {
    const uint8_t *a = (const uint8_t *)one, *b = (const uint8_t *)other;
    uint8_t differ = 0;
    for (size_t i = 0; i < sizeof fields; i++) {
        differ |= (uint8_t)((a[i] ^ b[i]) & fields[i]);
    }
    return differ == 0;
}

/* Each ends where memory begins that nobody may touch. */
enum { GUARD = 64, GUARD_BYTE = 0xC3, SMALL = PAGE, LARGE = 2 * PAGE };
static uint8_t *drive_end, *in_end, *window_end, *reply_end;
static uint8_t pattern[MOST_ROOM], guards[GUARD];
const uint8_t *reply, *window_left;

static uint8_t *area(size_t n) {
    uint8_t *at = mmap(0, n + PAGE, READ_WRITE, PRIVATE_MEMORY, -1, 0);
    if (mprotect(at + n, PAGE, NO_ACCESS) != 0) {
        say("FAILED: no memory\n");
        exit(1);
    }
    return at + n;
}

void lend_start(void) {
    drive_end = area(SMALL);
    in_end = area(LARGE);
    window_end = area(LARGE);
    reply_end = area(SMALL);
    memset(guards, GUARD_BYTE, sizeof guards);
    for (size_t i = 0; i < sizeof pattern; i++) {
        pattern[i] = (uint8_t)(i * 37 + 11);
    }
}

static uint8_t *lend(uint8_t *end, const void *bytes, size_t n) {
    memcpy(end - n - GUARD, guards, GUARD);
    memcpy(end - n, bytes, n);
    return end - n;
}

static bool guarded(const uint8_t *end, size_t n) {
    return memcmp(end - n - GUARD, guards, GUARD) == 0;
}

static bool untouched(const uint8_t *end, const void *bytes, size_t n) {
    return guarded(end, n) && memcmp(end - n, bytes, n) == 0;
}

static struct jhartupal_drive *lend_drive(const struct jhartupal_drive *d) {
    return (struct jhartupal_drive *)(void *)lend(drive_end, d, sizeof *d);
}

/* A call: the refusals that it can have, as bits, the least and the most bytes of its reply, and whether it is lent a reply buffer. */
struct call {
    const char *name;
    unsigned refusals;
    size_t least, most;
    bool writes;
};
static const struct call make_call = {"jhartupal_make", OF_MAKE, 0, 0, false};
static const struct call frame_call = {"jhartupal_frame", OF_FRAME, 0, 24 + 4 + JHARTUPAL_ACCEPT, true};
static const struct call next_call = {"jhartupal_next", OF_NEXT, 0, 24 + JHARTUPAL_MOST_DATA, true};
static const struct call event_calls[] = {
    {"jhartupal_loop_reset", OF_EVENT, 0, 0, false}, {"jhartupal_time_over", OF_EVENT, 0, 0, false}, {"jhartupal_power_on", OF_EVENT, 0, 0, false}};

static void buffer_kept(const struct call *c, unsigned long long said, size_t n, size_t room) {
    promise(guarded(reply_end, room), "%s: wrote before the reply buffer", c->name);
    promise(n <= room && memcmp(reply_end - room + n, pattern + n, room - n) == 0, "%s: answers %llu and wrote after its reply", c->name, said);
    reply = reply_end - room;
}

/* What is promised of every call: its answer, and the state and the reply buffer after it. */
static uint64_t told(const struct call *c, unsigned long long said, struct jhartupal_drive *d, size_t room) {
    const struct jhartupal_drive *after = (const struct jhartupal_drive *)(const void *)(drive_end - sizeof *d);
    bool refused = said >= JHARTUPAL_REFUSED;
    size_t n = refused ? 0 : (size_t)said;
    if (refused) {
        promise(said <= JHARTUPAL_REFUSED + LAST_REFUSAL && (c->refusals >> (said - JHARTUPAL_REFUSED) & 1) == 1, "%s: answers %llu", c->name, said);
        promise(same(after, d), "%s: answers %llu and the state is changed", c->name, said);
    } else {
        promise((n == 0 || n >= 28) && c->least <= n && n <= c->most && n % 4 == 0, "%s: answers %llu", c->name, said);
        freed(d, after);
    }
    promise(guarded(drive_end, sizeof *d), "%s: wrote before the state", c->name);
    if (c->writes) {
        buffer_kept(c, said, n, room);
    }
    memcpy(d, after, sizeof *d);
    return said;
}

uint64_t make(struct jhartupal_drive *d, uint64_t capacity, uint32_t address, const uint8_t *id, const uint8_t *words, uint8_t writable) {
    struct jhartupal_drive *lent = lend_drive(d);
    struct jhartupal_setup setup = {.capacity = capacity, .address = address, .writable = writable};
    memcpy(setup.identity, id, JHARTUPAL_IDENTITY);
    memcpy(setup.accept, words, JHARTUPAL_ACCEPT);
    uint64_t said = jhartupal_make(lent, (const struct jhartupal_setup *)(const void *)lend(in_end, &setup, sizeof setup));
    promise(untouched(in_end, (const uint8_t *)&setup, sizeof setup), "jhartupal_make: the setup is changed");
    return told(&make_call, said, d, 0);
}

uint64_t frame_with(struct jhartupal_drive *d, const uint8_t *bytes, size_t n, const struct window *w, size_t room) {
    struct jhartupal_drive *lent = lend_drive(d), before = *d;
    uint64_t said = jhartupal_frame(lent, lend(in_end, bytes, n), n, w->start, lend(window_end, w->bytes, w->n), w->n, lend(reply_end, pattern, room), room);
    window_left = window_end - w->n;
    promise(untouched(in_end, bytes, n), "jhartupal_frame: the frame is changed");
    promise(guarded(window_end, w->n), "jhartupal_frame: wrote before the window");
    promise((said == 0 && bytes[0] == 0x01) || memcmp(window_left, w->bytes, w->n) == 0, "jhartupal_frame: answers %llu and the window is changed", (unsigned long long)said);
    told(&frame_call, said, d, room);
    if (said < JHARTUPAL_REFUSED) {
        frame_told(&before, d, bytes, said);
    }
    if (n > 0 && bytes[0] == 0x01 && (said < JHARTUPAL_REFUSED || said == JHARTUPAL_REFUSED + JHARTUPAL_NO_WRITE || said == JHARTUPAL_REFUSED + JHARTUPAL_BAD_WINDOW)) {
        data_told(&before, d, bytes, n, w, said);
    } else {
        promise(said != JHARTUPAL_REFUSED + JHARTUPAL_NO_WRITE && said != JHARTUPAL_REFUSED + JHARTUPAL_BAD_WINDOW, "jhartupal_frame: answers %llu, and it is no data frame",
                (unsigned long long)said);
    }
    return said;
}

uint64_t frame_in(struct jhartupal_drive *d, const uint8_t *bytes, size_t n, size_t room) {
    return frame_with(d, bytes, n, &(struct window){0, identity, 0}, room);
}

uint64_t next_out(struct jhartupal_drive *d, uint32_t address, uint16_t ox_id, uint64_t start, const uint8_t *bytes, size_t n, size_t room) {
    struct jhartupal_drive *lent = lend_drive(d);
    uint64_t said = jhartupal_next(lent, address, ox_id, start, lend(in_end, bytes, n), n, lend(reply_end, pattern, room), room);
    promise(untouched(in_end, bytes, n), "jhartupal_next: the window is changed");
    if (said != JHARTUPAL_REFUSED + JHARTUPAL_SHORT_BUFFER && said != JHARTUPAL_REFUSED + JHARTUPAL_ILL_FORMED) {
        next_told(d, &(struct asked){address, ox_id, start, n}, said);
    }
    return told(&next_call, said, d, room);
}

uint64_t event(struct jhartupal_drive *d, int number) {
    struct jhartupal_drive *lent = lend_drive(d);
    uint64_t said = number == LOOP_RESET ? jhartupal_loop_reset(lent) : number == TIME_OVER ? jhartupal_time_over(lent) : jhartupal_power_on(lent);
    return told(&event_calls[number], said, d, 0);
}
