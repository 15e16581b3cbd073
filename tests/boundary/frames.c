/* Frames to the drive and the replies that documents 01 and 02 ask for, their sentences beside them; "000" has the layouts of the payloads. */
#include "check.h"

const uint8_t identity[JHARTUPAL_IDENTITY] = {'J',  'H',  'A',  'R',  'T',  'U',  'P',  'A',  'L',  0xC0, 0xC1, 0xC2, 0xC3, 0xC4,
                                              0xC5, 0xC6, 0xC7, 0xC8, 0xC9, 0xCA, 0xCB, 0xCC, 0xCD, 0xCE, 0xCF, 0xD0, 0xD1, 0xD2};
const uint8_t hosts[JHARTUPAL_LOGINS] = {0x01, 0x02, 0x04, 0x08, 0x0F, 0x10, 0x17, 0xE8};

/* Words 1 to 28 of the login accept: each byte is its own place in the payload, so that no two can be swapped unseen. */
const uint8_t *accept_words(void) {
    static uint8_t w[4 + JHARTUPAL_ACCEPT];
    for (size_t i = 0; i < sizeof w; i++) {
        w[i] = (uint8_t)i;
    }
    put(w + 10, 0xF840, 2); /* W2/B2-3: low 12 bits 2,112 */
    w[68] = 0xC4;           /* W17 bit 31 set */
    put(w + 74, 0x1800, 2); /* W18/B2-3: low 12 bits 2,048; W19/B1 is byte 77 */
    w[81] = 0x01;           /* "with W20/B1 = 01h" */
    return w + 4;
}

/* "Numbers are big-endian" */
void put(uint8_t *at, uint64_t number, size_t bytes) {
    for (size_t i = 0; i < bytes; i++) {
        at[i] = (uint8_t)(number >> 8 * (bytes - 1 - i));
    }
}

/* "24 bytes: R_CTL, D_ID(3), reserved, S_ID(3), TYPE, F_CTL(3), SEQ_ID, DF_CTL, SEQ_CNT(2), OX_ID(2), RX_ID(2), OFFSET(4)", and a payload of zeros */
static struct frame head(uint8_t r_ctl, uint8_t type, uint32_t f_ctl, uint8_t seq_id, uint8_t to, uint8_t from, uint16_t ox_id, size_t payload) {
    struct frame f = {24 + payload, {0}};
    f.b[0] = r_ctl;
    f.b[3] = to;
    f.b[7] = from;
    f.b[8] = type;
    put(f.b + 9, f_ctl, 3);
    f.b[12] = seq_id;
    put(f.b + 16, ox_id, 2);
    put(f.b + 18, 0xFFFF, 2);
    return f;
}

static struct frame request(uint8_t host, uint16_t ox_id, uint8_t code, size_t size) {
    struct frame f = head(0x22, 0x01, 0x290000, 0, OWN, host, ox_id, size);
    f.b[24] = code;
    return f;
}

/* The port name of one host, and the node name of the same or another. */
static void put_names(uint8_t *at, uint8_t port, uint8_t node) {
    put(at, 0x2000525400120000 + port, 8);
    put(at + 8, 0x1000525400120000 + node, 8);
}

/* PLOGI, or with its code PDISC: W2, W18 size, W5-6 port name, W7-8 node name, W17 bit 31, W19/B1, W20/B1 */
static struct frame parameters(uint8_t code, uint8_t host, uint16_t size) {
    struct frame f = request(host, 0x0200, code, 116);
    uint8_t *p = f.b + 24;
    put(p + 10, size, 2);
    put_names(p + 20, host, host);
    p[68] = 0x80;
    put(p + 74, size, 2);
    p[77] = 0x07;
    p[81] = 0x05;
    return f;
}

struct frame plogi(uint8_t host, uint16_t size) {
    return parameters(0x03, host, size);
}

struct frame pdisc(uint8_t host, uint16_t size) {
    return parameters(0x50, host, size);
}

struct frame named_as(struct frame f, uint8_t port, uint8_t node) {
    put_names(f.b + 44, port, node); /* W5-6, W7-8 */
    return f;
}

/* "B1-3 = 10 00 14 and W1/B0 = 08h"; "PRLI also needs W1/B2 bit 5 and, in W4, bits 5 and 1" */
static struct frame pairing(uint8_t code, uint8_t host) {
    struct frame f = request(host, 0x0300, code, 20);
    put(f.b + 25, 0x100014, 3);
    put(f.b + 28, 0x08002000, 4);
    f.b[43] = 0x22;
    return f;
}

struct frame prli(uint8_t host) {
    return pairing(0x20, host);
}

struct frame prlo(uint8_t host) {
    return pairing(0x21, host);
}

struct frame adisc(uint8_t host) {
    struct frame f = request(host, 0x0400, 0x52, 28);
    put_names(f.b + 32, host, host); /* W2-3 port name, W4-5 node name (000) */
    f.b[51] = host;                  /* W6/B1-3 */
    return f;
}

struct frame logo(uint8_t host) {
    struct frame f = request(host, 0x0500, 0x05, 16);
    f.b[31] = host; /* W1/B1-3 */
    return f;
}

struct frame rrq(uint8_t host, uint16_t ox_id) {
    struct frame f = request(host, 0x0600, 0x12, 44);
    f.b[31] = host;           /* W1/B1-3 */
    put(f.b + 32, ox_id, 2); /* W2/B0-1 (000) */
    return f;
}

struct frame abts(uint8_t host, uint16_t ox_id) {
    return head(0x81, 0x00, 0x090000, 0x01, OWN, host, ox_id, 0);
}

struct frame answer_frame(uint8_t host) {
    return head(0x23, 0x01, 0x990000, 0, OWN, host, 0x0700, 4);
}

/* "FCP_CMND: LUN 8, byte 9 attribute (ignored), 10 task flags, 11 bit 1 read and bit 0 write, CDB 16, FCP_DL 4" */
struct frame command(uint8_t host, uint16_t ox_id, uint8_t code, uint8_t byte_4, uint8_t lun, uint32_t dl) {
    struct frame f = head(0x06, 0x08, 0x290000, 0, OWN, host, ox_id, 32);
    uint8_t *p = f.b + 24;
    p[1] = lun;
    p[11] = dl > 0 ? 0x02 : 0x00;
    p[12] = code;
    p[16] = byte_4;
    put(p + 28, dl, 4);
    return f;
}

struct frame task(uint8_t host, uint16_t ox_id, uint8_t flag) {
    struct frame f = command(host, ox_id, 0x00, 0, 0, 0);
    f.b[34] = flag;
    return f;
}

struct frame test_unit(uint8_t host) {
    return command(host, 0x0A00, 0x00, 0, 0, 0);
}

/* READ(10): address in bytes 2-5, count in bytes 7-8 */
struct frame reading(uint8_t host, uint16_t ox_id, uint32_t block, uint16_t count, uint32_t dl) {
    struct frame f = command(host, ox_id, 0x28, 0, 0, dl);
    put(f.b + 38, block, 4);
    put(f.b + 43, count, 2);
    return f;
}

/* WRITE(10): the same, with bit 0 of byte 11, "write" */
struct frame writing(uint8_t host, uint16_t ox_id, uint32_t block, uint16_t count, uint32_t dl) {
    struct frame f = reading(host, ox_id, block, count, dl);
    f.b[35] = dl > 0 ? 0x01 : 0x00;
    f.b[36] = 0x2A;
    return f;
}

/* "The form rule admits (01h, 08h), with any SEQ_CNT and a fill count within its payload" (02); the last frame of a burst is marked here as none */
struct frame sending(uint8_t host, uint16_t ox_id, uint16_t count, uint32_t offset, const uint8_t *bytes, size_t n) {
    uint32_t fill = (uint32_t)((4 - n % 4) % 4);
    struct frame f = head(0x01, 0x08, 0x000008 + fill, 0x02, OWN, host, ox_id, n + fill);
    put(f.b + 14, count, 2);
    put(f.b + 20, offset, 4);
    memcpy(f.b + 24, bytes, n);
    return f;
}

/* "Replies: addresses swapped, OX_ID echoed, RX_ID FFFFh, the rest 0" */
static struct frame back(const struct frame *f, uint8_t r_ctl, uint8_t type, uint32_t f_ctl, uint8_t seq_id, size_t payload) {
    return head(r_ctl, type, f_ctl, seq_id, f->b[7], f->b[3], (uint16_t)(f->b[16] << 8 | f->b[17]), payload);
}

/* "ACC, LS_RJT | 23 01 | 990000 | FF" */
static struct frame acc(const struct frame *f, size_t size) {
    struct frame r = back(f, 0x23, 0x01, 0x990000, 0xFF, size);
    r.b[24] = 0x02;
    return r;
}

/* "ACC is 02 00 00 00 and the setup words" */
struct frame login_acc(const struct frame *f) {
    struct frame r = acc(f, 116);
    memcpy(r.b + 28, accept_words(), JHARTUPAL_ACCEPT);
    return r;
}

/* "LS_RJT is 01 00 00 00, then 00, reason, explanation, 00" */
struct frame ls_rjt(const struct frame *f, uint8_t reason, uint8_t explanation) {
    struct frame r = acc(f, 8);
    r.b[24] = 0x01;
    r.b[29] = reason;
    r.b[30] = explanation;
    return r;
}

/* "02 00 00 00, own address, own names, own address"; the names are words 5 to 8 of the setup */
struct frame adisc_acc(const struct frame *f) {
    struct frame r = acc(f, 28);
    r.b[31] = OWN;
    memcpy(r.b + 32, accept_words() + 16, 16);
    r.b[51] = OWN;
    return r;
}

/* "ACC 02 10 00 14, 08 00 21 00, two zero words, 00 00 00 12" */
struct frame prli_acc(const struct frame *f) {
    struct frame r = acc(f, 20);
    put(r.b + 24, 0x0210001408002100, 8);
    r.b[43] = 0x12;
    return r;
}

/* "LOGO by the drive, OX_ID = destination address | 22 01 | 290000 | 00"; "05 00 00 00, own address, own port name" */
struct frame drive_logo(const struct frame *f) {
    struct frame r = head(0x22, 0x01, 0x290000, 0x00, f->b[7], OWN, f->b[7], 16);
    r.b[24] = 0x05;
    r.b[31] = OWN;
    memcpy(r.b + 32, accept_words() + 16, 8);
    return r;
}

/* "FCP_DATA, last or not | 01 08 | 880008, 800008 | 01"; "Payloads are filled with zeros to a multiple of 4; FCP frames add the fill count to F_CTL" */
struct frame data(const struct frame *f, uint16_t count, uint32_t offset, const uint8_t *bytes, size_t n, bool last) {
    uint32_t fill = (uint32_t)((4 - n % 4) % 4);
    struct frame r = back(f, 0x01, 0x08, (last ? 0x880008 : 0x800008) + fill, 0x01, n + fill);
    put(r.b + 14, count, 2);
    put(r.b + 20, offset, 4);
    memcpy(r.b + 24, bytes, n);
    return r;
}

/* "FCP_RSP | 07 08 | 990000 | 00"; "bytes 10 flags, 11 status, 12 FCP_RESID", with status 00h */
struct frame response(const struct frame *f, uint8_t flags, uint32_t size) {
    struct frame r = back(f, 0x07, 0x08, 0x990000, 0x00, 24);
    r.b[34] = flags;
    put(r.b + 36, size, 4);
    return r;
}

/* "FCP_XFER_RDY (R_CTL 05h, F_CTL 890000, 12 bytes: offset, burst, zero)" (02) */
struct frame transfer_ready(const struct frame *f, uint32_t offset, uint32_t burst) {
    struct frame r = back(f, 0x05, 0x08, 0x890000, 0x00, 12);
    put(r.b + 24, offset, 4);
    put(r.b + 28, burst, 4);
    return r;
}

/* "20 response length, then 8 bytes with the code at 3 (flag 01h)" */
struct frame fault(const struct frame *f, uint8_t code) {
    struct frame r = back(f, 0x07, 0x08, 0x990000, 0x00, 32);
    r.b[34] = 0x01;
    r.b[47] = 8;
    r.b[51] = code;
    return r;
}

/* "18 sense bytes (flag 02h, status 02h): 70, 00, key, 4 zeros, 0A, code and qualifier at 12, 13", with two fill bytes and FCP_DL 0 */
struct frame check_condition(const struct frame *f, uint8_t key, uint8_t code) {
    struct frame r = back(f, 0x07, 0x08, 0x990002, 0x00, 44);
    uint8_t *p = r.b + 24;
    put(p + 10, 0x0202, 2);
    p[19] = 18; /* "16 sense length" */
    p[24] = 0x70;
    p[26] = key;
    p[31] = 0x0A;
    p[36] = code;
    return r;
}

/* The unit's bytes from a block on: every eight have the block's number and their own place, so that no others can stand for them unseen. */
const uint8_t *unit_bytes(uint64_t block, size_t n) {
    static uint8_t bytes[JHARTUPAL_MOST_WINDOW + JHARTUPAL_BLOCK];
    for (size_t at = 0; at < n; at += 8) {
        uint64_t place = at % JHARTUPAL_BLOCK / 8;
        put(bytes + at, (block + at / JHARTUPAL_BLOCK) << 16 | place << 8 | (0xA5 ^ place), 8);
    }
    return bytes;
}
