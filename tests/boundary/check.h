/* What the files of this test share. Of the library they know include/jhartupal.h alone. */
#ifndef CHECK_H
#define CHECK_H

#include "jhartupal.h"

#include <stdbool.h>

/* Refusals as bits, with an answer as bit 0: those that each function can have. */
#define BIT(refusal) (1u << JHARTUPAL_##refusal)
enum {
    ANSWERED = 1,
    OF_FRAME = BIT(SHORT_BUFFER) | BIT(ILL_FORMED) | BIT(BAD_SIZE) | BIT(NOT_OURS) | BIT(BAD_SOURCE) | BIT(UNKNOWN_FORM) | BIT(UNPROVEN) | BIT(NO_WRITE) | BIT(BAD_WINDOW),
    OF_NEXT = BIT(SHORT_BUFFER) | BIT(ILL_FORMED) | BIT(NO_EXCHANGE) | BIT(UNPROVEN) | BIT(BAD_WINDOW),
    OF_EVENT = BIT(ILL_FORMED),
    OF_MAKE = BIT(BAD_SETUP),
    LAST_REFUSAL = JHARTUPAL_NO_WRITE
};

/* libc's, declared here: where the kit's clang compiles for another machine than this one there are no headers of a libc for it. */
void *memcpy(void *to, const void *from, size_t n);
void *memset(void *to, int byte, size_t n);
int memcmp(const void *one, const void *other, size_t n);

/* A check that holds is counted; one that does not is counted and printed. A promise is printed and counted only where it is broken. */
void say(const char *format, ...) __attribute__((format(printf, 1, 2)));
void check(bool holds, const char *format, ...) __attribute__((format(printf, 2, 3)));
void promise(bool holds, const char *format, ...) __attribute__((format(printf, 2, 3)));
unsigned failures(void);
int close_checks(void);

/* A frame, in or out. */
struct frame {
    size_t n;
    uint8_t b[JHARTUPAL_MOST_FRAME + 4];
};

enum { OWN = 0xEF, ROOM = JHARTUPAL_REPLY, MOST_ROOM = 4096 };
extern const uint8_t identity[JHARTUPAL_IDENTITY];
extern const uint8_t hosts[JHARTUPAL_LOGINS]; /* eight valid addresses */
const uint8_t *accept_words(void);

/* frames.c: frames in, */
void put(uint8_t *at, uint64_t number, size_t bytes);
struct frame plogi(uint8_t host, uint16_t size);
struct frame pdisc(uint8_t host, uint16_t size);
struct frame named_as(struct frame f, uint8_t port, uint8_t node); /* a PLOGI or PDISC with the names of other hosts */
struct frame prli(uint8_t host);
struct frame prlo(uint8_t host);
struct frame adisc(uint8_t host);
struct frame logo(uint8_t host);
struct frame rrq(uint8_t host, uint16_t ox_id);
struct frame abts(uint8_t host, uint16_t ox_id);
struct frame answer_frame(uint8_t host);
struct frame command(uint8_t host, uint16_t ox_id, uint8_t code, uint8_t byte_4, uint8_t lun, uint32_t dl);
struct frame task(uint8_t host, uint16_t ox_id, uint8_t flag);
struct frame test_unit(uint8_t host);
struct frame reading(uint8_t host, uint16_t ox_id, uint32_t block, uint16_t count, uint32_t dl);
struct frame writing(uint8_t host, uint16_t ox_id, uint32_t block, uint16_t count, uint32_t dl);
struct frame sending(uint8_t host, uint16_t ox_id, uint16_t count, uint32_t offset, const uint8_t *bytes, size_t n); /* data of a WRITE */
/* and the replies to them */
struct frame login_acc(const struct frame *f);
struct frame ls_rjt(const struct frame *f, uint8_t reason, uint8_t explanation);
struct frame adisc_acc(const struct frame *f);
struct frame prli_acc(const struct frame *f);
struct frame drive_logo(const struct frame *f);
struct frame data(const struct frame *f, uint16_t count, uint32_t offset, const uint8_t *bytes, size_t n, bool last);
struct frame transfer_ready(const struct frame *f, uint32_t offset, uint32_t burst);
struct frame response(const struct frame *f, uint8_t flags, uint32_t size);
struct frame fault(const struct frame *f, uint8_t code); /* RSP_CODE */
struct frame check_condition(const struct frame *f, uint8_t key, uint8_t code);
/* the unit's bytes from a block on */
const uint8_t *unit_bytes(uint64_t block, size_t n);

/* lend.c: each call, with what it promises of every call; reply is what the last one wrote, and window_left the window after the last frame in. */
extern const uint8_t *reply, *window_left;
bool same(const struct jhartupal_drive *one, const struct jhartupal_drive *other);
void mark(size_t offset, size_t width);
size_t marked(void);
void lend_start(void);
uint64_t make(struct jhartupal_drive *d, uint64_t capacity, uint32_t address, const uint8_t *id, const uint8_t *words, uint8_t writable);
uint64_t frame_in(struct jhartupal_drive *d, const uint8_t *bytes, size_t n, size_t room); /* with an empty window */
struct window { /* of a frame in: its bytes before the call */
    uint64_t start;
    const uint8_t *bytes;
    size_t n;
};
uint64_t frame_with(struct jhartupal_drive *d, const uint8_t *bytes, size_t n, const struct window *w, size_t room);
uint64_t next_out(struct jhartupal_drive *d, uint32_t address, uint16_t ox_id, uint64_t start, const uint8_t *bytes, size_t n, size_t room);
uint64_t event(struct jhartupal_drive *d, int number);
enum { LOOP_RESET, TIME_OVER, POWER_ON };

/* caller.c: what the header tells of an answered call, and of a next frame that is refused with neither 1 nor 2 */
struct asked { /* for a next frame */
    uint32_t address;
    uint16_t ox_id;
    uint64_t start;
    size_t length;
};
void freed(const struct jhartupal_drive *before, const struct jhartupal_drive *after);
void frame_told(const struct jhartupal_drive *before, const struct jhartupal_drive *after, const uint8_t *frame, uint64_t said);
void data_told(const struct jhartupal_drive *before, const struct jhartupal_drive *after, const uint8_t *frame, size_t n, const struct window *w, uint64_t said);
void next_told(const struct jhartupal_drive *before, const struct asked *a, uint64_t said);

/* session.c: a call with a reply buffer of just the room that is asked for, and that its reply is the wanted one */
uint64_t take(struct jhartupal_drive *d, const struct frame *f);
void replies(const char *what, uint64_t said, const struct frame *wanted);
/* the login that an accepted PLOGI leaves at its place */
void logged_in(struct jhartupal_login *l, const struct frame *f);
/* a made drive, whose unit may be written; a login, paired, its attention taken; eight of them with eight exchanges each */
void made(struct jhartupal_drive *d, uint64_t capacity);
void paired(struct jhartupal_drive *d, uint8_t host, uint16_t size);
void full(struct jhartupal_drive *d);
/* formed.c: 01's "Well formed", and 02's additions to it, written from their sentences */
bool well_formed(const struct jhartupal_drive *d);

/* the parts of the test */
void header(void);
void session(void);
void moved(void);
void writes(void);
void refusals(void);
void damages(void);
void chances(void);
void example(void);

#endif
