/* Jhartupal: the drive side of a private Fibre Channel loop, from a received frame to the reply frame. C99, C11 and C++17.
 *
 * Document 01 (the scope and its exact rules) decides what the drive answers, and requests 1 and 2 of document 02 (the host that moved, writing
 * from the host) where they say otherwise. W18/B2 and the like are words and bytes of a payload, counted from 0; 29h is hexadecimal. Frames,
 * replies, windows, names and accept words are bytes in the order of the loop, numbers in them big-endian; the other fields of a state are the
 * machine's own numbers.
 *
 * Each function answers the length of the reply, which then stands at the front of the reply buffer, the bytes after it as they were;
 * 0 is nothing to send. Or it answers JHARTUPAL_REFUSED plus a number of enum jhartupal_refusal, and then every field of *d and every
 * lent byte is as it was. Nothing is allocated, no pointer is kept, and there is no state but *d: two drives know nothing of each other.
 *
 * Assumed of the caller, and not checked:
 * - no pointer is NULL, also where its length is 0, and each points to as many bytes as its length says;
 * - d and setup are aligned as their types ask, and lent to one call at a time; buffers may stand at any byte;
 * - what is lent to one call does not overlap: neither the buffers each other, nor any of them *d, nor *setup *d.
 *
 * The functions are in libjhartupal.a (make lib), for x86-64 and for 64-bit Arm (aarch64). What they rest on: the prover has checked that the
 * Rattle code of each meets its contract for every state and all input; rattle made an LLVM module of this code; LLVM's back end made machine
 * code of the module, for x86-64 and for Arm by one LLVM. Prover, rattle and LLVM are assumed to be right; the tests run the archive for x86-64.
 *
 * Either is an ELF archive of position independent code without data of its own, and needs of its surroundings:
 * - the calling convention of its machine: System V AMD64, or AAPCS64;
 * - memcpy and memset as C has them, and nothing else of a library;
 * - vector registers: SSE2 on x86-64, FP and SIMD on Arm, and no newer instructions than every such processor has;
 * - on x86-64 the 128 bytes below the stack pointer (the red zone), which an interrupt on the same stack leaves alone;
 * - on Arm normal memory with alignment checks off (SCTLR_ELx.A is 0): words are read and written at any byte;
 * - stack: JHARTUPAL_STACK_MAKE and the like below. Nothing recurses.
 * It is not for 32 bits, for big-endian machines, for another convention (Windows, -mabi=ms), or where vector registers may not be used.
 */
#ifndef JHARTUPAL_H
#define JHARTUPAL_H

#include <stddef.h>
#include <stdint.h>

#if defined __BYTE_ORDER__ && defined __ORDER_LITTLE_ENDIAN__ && __BYTE_ORDER__ != __ORDER_LITTLE_ENDIAN__
#error "jhartupal.h: the library is for little-endian machines"
#endif
#if defined _WIN32 || defined __CYGWIN__
#error "jhartupal.h: the library has the calling convention of System V AMD64 or AAPCS64, and not that of Windows"
#endif

#ifdef __cplusplus
extern "C" {
#endif

/* The version: of the header, of the library, and of the state. A state that one version has written is none of another. */
#define JHARTUPAL_VERSION_MAJOR 1
#define JHARTUPAL_VERSION_MINOR 2

/* An answer from here on is a refusal: this plus its number. */
#define JHARTUPAL_REFUSED 65536

/* Why a call was refused, in the words of documents 01 and 02. A frame in is refused by the first of 1 to 7, 11, 10 that fits, the next frame out
 * by the first of 1, 2, 9, 7, 10, an event by 2, and making a drive by 8; each is given exactly then. */
enum jhartupal_refusal {
    JHARTUPAL_SHORT_BUFFER = 1, /* reply buffer under 2,136 bytes */
    JHARTUPAL_ILL_FORMED = 2,   /* state not well formed */
    JHARTUPAL_BAD_SIZE = 3,     /* frame not 24 to 2,136 bytes, or not a multiple of 4 */
    JHARTUPAL_NOT_OURS = 4,     /* D_ID is not ours */
    JHARTUPAL_BAD_SOURCE = 5,   /* S_ID not a valid address, or ours */
    JHARTUPAL_UNKNOWN_FORM = 6, /* form unknown: R_CTL and TYPE not 22h 01h, 23h 01h, 81h 00h, 06h 08h or 01h 08h; or DF_CTL not 0; or SEQ_CNT or
                                 * the low two bits of F_CTL not 0, of R_CTL 01h only these two bits above the bytes of its payload; or R_CTL
                                 * 22h without payload */
    JHARTUPAL_UNPROVEN = 7,     /* login unproven */
    JHARTUPAL_BAD_SETUP = 8,    /* setup breaks a rule */
    JHARTUPAL_NO_EXCHANGE = 9,  /* no such open exchange */
    JHARTUPAL_BAD_WINDOW = 10,  /* window too long or not covering */
    JHARTUPAL_NO_WRITE = 11     /* data frame for no open write */
};

/* The limits. */
#define JHARTUPAL_LEAST_FRAME 24    /* bytes of a frame in: its header alone */
#define JHARTUPAL_MOST_FRAME 2136   /* bytes of a frame in; no reply is longer */
#define JHARTUPAL_REPLY 2136        /* bytes that a reply buffer has at least */
#define JHARTUPAL_BLOCK 512         /* bytes of a block */
#define JHARTUPAL_LEAST_BLOCKS 1    /* blocks of the unit */
#define JHARTUPAL_MOST_BLOCKS UINT64_C(4294967295)
#define JHARTUPAL_MOST_COUNT 65535  /* blocks of one READ or WRITE */
#define JHARTUPAL_MOST_WINDOW 65536 /* bytes of a window */
#define JHARTUPAL_MOST_BURST 65536  /* bytes that one FCP_XFER_RDY asks for */
#define JHARTUPAL_MOST_DATA 2048    /* bytes of data in a frame out, also where a login's size is larger */
#define JHARTUPAL_LEAST_SIZE 256    /* a login's W18 size, a multiple of 4 */
#define JHARTUPAL_MOST_SIZE 2112
#define JHARTUPAL_LOGINS 8          /* logins of a drive */
#define JHARTUPAL_PLACES 8          /* open exchanges of a login */
#define JHARTUPAL_IDENTITY 28       /* identity bytes, which end the data of INQUIRY */
#define JHARTUPAL_ACCEPT 112        /* bytes of words 1 to 28 of the login accept */
#define JHARTUPAL_NAME 8            /* bytes of a port name or node name */

/* Bytes of stack that a call takes at most on either machine, beside what memcpy and memset take; bench/stack reckons them. */
#define JHARTUPAL_STACK_MAKE 12544 /* jhartupal_make */
#define JHARTUPAL_STACK_FRAME 8384 /* jhartupal_frame */
#define JHARTUPAL_STACK_NEXT 3584  /* jhartupal_next */
#define JHARTUPAL_STACK_EVENT 1408 /* jhartupal_loop_reset, jhartupal_time_over, jhartupal_power_on */

/* What the data of an exchange are. */
enum jhartupal_kind {
    JHARTUPAL_FREE = 0,               /* none: its place is free */
    JHARTUPAL_BLOCKS = 1,             /* blocks of the unit, READ or WRITE: the only kind that needs a window */
    JHARTUPAL_INQUIRY = 2,            /* INQUIRY data */
    JHARTUPAL_INQUIRY_OTHER_UNIT = 3, /* the same with 7Fh first, for a LUN that is not 0 */
    JHARTUPAL_READ_CAPACITY = 4,      /* the last block's address, and 512 */
    JHARTUPAL_SENSE_NONE = 5,         /* REQUEST SENSE: 00/00/00 */
    JHARTUPAL_SENSE_RESET = 6,        /* 06/29/00 */
    JHARTUPAL_SENSE_CLEARED = 7,      /* 06/2F/00 */
    JHARTUPAL_SENSE_OTHER_UNIT = 8    /* 05/25/00 */
};

/* Where they go. */
enum jhartupal_direction {
    JHARTUPAL_TO_HOST = 0,  /* READ, and everything but blocks */
    JHARTUPAL_FROM_HOST = 1 /* WRITE */
};

/* What a login is to be told with its next command. */
enum jhartupal_attention {
    JHARTUPAL_NO_ATTENTION = 0,
    JHARTUPAL_RESET = 0x29,  /* 06/29/00: login or target reset */
    JHARTUPAL_CLEARED = 0x2F /* 06/2F/00: another login cleared its exchanges */
};

/* The state, field by field: it may be read between calls, copied, kept and put back. Any bytes are a state, and jhartupal_make overwrites them;
 * with a state that is not well formed, as zeros are not, the other calls are refused with 2, or with 1 before that. Padding (below, with its
 * bytes) is the compiler's own: it is no part of the state and is not kept, any call may change it, a refused one too. Compare states by
 * their fields.
 *
 * Well formed is a state whose fields are as the comments below say, all of them: nothing else is asked. An exchange has these numbers:
 *     full  = the smaller of its login's size and JHARTUPAL_MOST_DATA    the bytes of a full data frame
 *     total = the smaller of wanted and expected                         the bytes to send, of a WRITE to take
 *     n     = the smaller of full and total - sent                       the bytes that its next data frame carries; where 0, FCP_RSP is next
 *     burst = the smaller of JHARTUPAL_MOST_BURST and total - sent       WRITE, not awaited: what FCP_XFER_RDY asks for; where 0, FCP_RSP is next
 *     end   = the smaller of total and the next multiple of JHARTUPAL_MOST_BURST above sent     WRITE, awaited: where the burst ends
 * Of a WRITE full and n are not asked: the host's frames may have any size.
 *
 * A valid address has bits 31 to 8 all 0, and in bits 7 to 0 one of FC-AL's 127 loop addresses but 00h. These are, upper digit: lower digits,
 *     0 8 E: 0 1 2 4 8 F
 *     1 9: 0 7 8 B D E F
 *     2 4 6 A C: 3 5 6 7 9 A B C D E
 *     3 5 7 B D: 1 2 3 4 5 6 9 A C
 *
 * The PLOGI rules, of a PLOGI that arrives and of the accept words, where byte B of word W is accept[4 * (W - 1) + B]:
 *     W2/B2-3    low 12 bits 256 to 2,112, a multiple of 4    accept[6], accept[7]
 *     W5-6       port name, not all 0                         accept[16] to accept[23]: the drive's own port name
 *     W7-8       node name, not all 0                         accept[24] to accept[31]: the drive's own node name
 *     W17        bit 31, the uppermost, is 1                  accept[64] is 80h or more
 *     W18/B2-3   low 12 bits as those of W2                   accept[70], accept[71]
 *     W19/B1     not 0                                        accept[73]
 *     W20/B1     not 0                                        accept[77]: of the accept words it is 1
 * The other bytes may be any, and accept words are sent as they are.
 *
 * A PLOGI of right size ends the sender's own login, if any, with its exchanges, accepted or not. Where it passes the rules it also ends the login
 * of its port name at another address, if any, with its exchanges: that host has moved; node names are not compared. The new login then takes the
 * lowest free place; where there is none, no login has ended. The old address is not told: its next frame finds no login, and the next frame of an
 * ended exchange is refused with 9. A PLOGI that fails a rule ends no other login than the sender's.
 *
 * A command that has bytes to send or to take takes the lowest free place of its login. Where a login or an exchange ends, every field of its place is 0 then,
 * but for what takes that place in the same call. */

/* A place for an open exchange. Where kind is 0 it is free, and nothing is asked of its other fields. Else its login is paired. */
struct jhartupal_exchange {
    uint64_t start;    /* READ, WRITE: the first block, below the capacity; of any other kind 0 */
    uint32_t blocks;   /* READ, WRITE: how many, 1 to 65,535, start + blocks at most the capacity; of any other kind 0 */
    uint32_t wanted;   /* bytes that the command wants: READ, WRITE 512 * blocks, INQUIRY (2, 3) 1 to 36, READ CAPACITY 8, REQUEST SENSE (5 to 8) 1 to 18 */
    uint32_t expected; /* bytes that the host expects, FCP_DL: not 0 */
    uint32_t sent;     /* bytes sent, of a WRITE by the host: at most total. Where less, to the host a multiple of full; a WRITE's: awaited, below */
    uint16_t ox_id;    /* its OX_ID, no other open exchange's of this login */
    uint16_t count;    /* data frames that the drive sent, sent / full rounded up, going round at 65,536: the next SEQ_CNT. WRITE: 0 */
    uint8_t direction; /* where its data go: enum jhartupal_direction. From the host only blocks, and only where the unit is writable */
    uint8_t awaited;   /* 1: data of a WRITE that were asked for are to come, and sent is below total; 0: none, and a WRITE's sent is total or a multiple
                        * of JHARTUPAL_MOST_BURST. To the host 0 */
    uint16_t kind;     /* what its data are: enum jhartupal_kind */
};

/* A place for a login. Where used is 0 it is free: it has no open exchange, and nothing is asked of its other fields. */
struct jhartupal_login {
    uint8_t used;                      /* 1: a login; 0: free */
    uint8_t proven;                    /* 1: proven; 0: to be verified since a loop reset */
    uint8_t paired;                    /* 1: paired by PRLI; 0: not, and no open exchange */
    uint8_t attention;                 /* what it is to be told: enum jhartupal_attention */
    uint8_t concurrent;                /* W19/B1 of its PLOGI, not 0 */
    uint8_t sequences;                 /* W20/B1 of its PLOGI, not 0 */
    uint16_t size;                     /* low 12 bits of W18/B2-3 of its PLOGI: 256 to 2,112, a multiple of 4 */
    uint32_t address;                  /* its address: valid, not the drive's, no other login's */
    uint8_t port_name[JHARTUPAL_NAME]; /* its port name: not all 0, no other login's */
    uint8_t node_name[JHARTUPAL_NAME]; /* its node name, not all 0 */
    /* 4 bytes of padding */
    struct jhartupal_exchange places[JHARTUPAL_PLACES];
};

/* The drive's side of the loop. */
struct jhartupal_port {
    uint32_t address;                 /* its own address: valid */
    uint8_t accept[JHARTUPAL_ACCEPT]; /* words 1 to 28 of its login accept: they pass the PLOGI rules, with W20/B1 = 1 */
    /* 4 bytes of padding */
    struct jhartupal_login logins[JHARTUPAL_LOGINS];
};

/* The logical unit. */
struct jhartupal_unit {
    uint64_t capacity;                    /* blocks: 1 to 4,294,967,295 */
    uint8_t identity[JHARTUPAL_IDENTITY]; /* any bytes */
    uint8_t writable;                     /* 1: WRITE is allowed; 0: it is not */
    /* 3 bytes of padding */
};

/* A drive: 2,464 bytes, aligned to 8. */
struct jhartupal_drive {
    struct jhartupal_unit unit;
    struct jhartupal_port port;
};

/* What a drive is made from: 160 bytes, aligned to 8. */
struct jhartupal_setup {
    uint64_t capacity;                    /* blocks: 1 to 4,294,967,295 */
    uint32_t address;                     /* the drive's own address: valid */
    uint8_t identity[JHARTUPAL_IDENTITY]; /* any bytes */
    uint8_t accept[JHARTUPAL_ACCEPT];     /* words 1 to 28 of its login accept: they pass the PLOGI rules, with W20/B1 = 1 */
    uint8_t writable;                     /* 1: WRITE is allowed; 0: it is not, and answered with 07/27/00 */
    /* 7 bytes of padding */
};

/* The layout that the library was compiled for: where a compiler has another, it stops here. */
#if defined __cplusplus && __cplusplus >= 201703L
#define JHARTUPAL_HOLDS(what, test) static_assert(test, "jhartupal.h: " #what)
#elif !defined __cplusplus && defined __STDC_VERSION__ && __STDC_VERSION__ >= 201112L
#define JHARTUPAL_HOLDS(what, test) _Static_assert(test, "jhartupal.h: " #what)
#else
#define JHARTUPAL_HOLDS(what, test) typedef char jhartupal_##what[(test) ? 1 : -1]
#endif
#define JHARTUPAL_SIZE(type, bytes) JHARTUPAL_HOLDS(size_of_##type, sizeof(struct jhartupal_##type) == (bytes))
#define JHARTUPAL_PLACE(type, field, at) JHARTUPAL_HOLDS(place_of_##type##_##field, offsetof(struct jhartupal_##type, field) == (at))
JHARTUPAL_HOLDS(pointers_have_64_bits, sizeof(void *) == 8 && sizeof(size_t) == 8);
JHARTUPAL_SIZE(exchange, 32);
JHARTUPAL_PLACE(exchange, start, 0);
JHARTUPAL_PLACE(exchange, blocks, 8);
JHARTUPAL_PLACE(exchange, wanted, 12);
JHARTUPAL_PLACE(exchange, expected, 16);
JHARTUPAL_PLACE(exchange, sent, 20);
JHARTUPAL_PLACE(exchange, ox_id, 24);
JHARTUPAL_PLACE(exchange, count, 26);
JHARTUPAL_PLACE(exchange, direction, 28);
JHARTUPAL_PLACE(exchange, awaited, 29);
JHARTUPAL_PLACE(exchange, kind, 30);
JHARTUPAL_SIZE(login, 288);
JHARTUPAL_PLACE(login, used, 0);
JHARTUPAL_PLACE(login, proven, 1);
JHARTUPAL_PLACE(login, paired, 2);
JHARTUPAL_PLACE(login, attention, 3);
JHARTUPAL_PLACE(login, concurrent, 4);
JHARTUPAL_PLACE(login, sequences, 5);
JHARTUPAL_PLACE(login, size, 6);
JHARTUPAL_PLACE(login, address, 8);
JHARTUPAL_PLACE(login, port_name, 12);
JHARTUPAL_PLACE(login, node_name, 20);
JHARTUPAL_PLACE(login, places, 32);
JHARTUPAL_SIZE(port, 2424);
JHARTUPAL_PLACE(port, address, 0);
JHARTUPAL_PLACE(port, accept, 4);
JHARTUPAL_PLACE(port, logins, 120);
JHARTUPAL_SIZE(unit, 40);
JHARTUPAL_PLACE(unit, capacity, 0);
JHARTUPAL_PLACE(unit, identity, 8);
JHARTUPAL_PLACE(unit, writable, 36);
JHARTUPAL_SIZE(drive, 2464);
JHARTUPAL_PLACE(drive, unit, 0);
JHARTUPAL_PLACE(drive, port, 40);
JHARTUPAL_SIZE(setup, 160);
JHARTUPAL_PLACE(setup, capacity, 0);
JHARTUPAL_PLACE(setup, address, 8);
JHARTUPAL_PLACE(setup, identity, 12);
JHARTUPAL_PLACE(setup, accept, 40);
JHARTUPAL_PLACE(setup, writable, 152);
#undef JHARTUPAL_PLACE
#undef JHARTUPAL_SIZE
#undef JHARTUPAL_HOLDS

/* Makes a drive with no logins in *d, whatever stood there: well formed, as every call leaves it. Answers 0, or refusal 8 where capacity,
 * address, accept words or writable break a rule. */
uint64_t jhartupal_make(struct jhartupal_drive *d, const struct jhartupal_setup *setup);

/* Takes a frame, SOF, EOF and CRC removed, and writes its reply: 28 to 140 bytes, or 0. A command (frame[0] is 06h) that is answered with 0 has
 * opened an exchange, whose frames jhartupal_next gives: it is that of the frame's S_ID, bytes 5 to 7, and OX_ID, bytes 16 and 17, and stands at
 * a place of that login. A data frame (01h) that is answered with 0 was taken. Any other frame answered with 0 has R_CTL 23h, and has changed
 * nothing. Refusals 1 to 7, 11, 10.
 *
 * A data frame is for the open WRITE e of its S_ID and OX_ID; where there is none it is refused with 11, also where there is no login. It has m bytes
 * of data, those after its header less its fill, the low two bits of frame[11], and its offset is in bytes 20 to 23. At another offset than e.sent it
 * is answered with FCP_RSP, 56 bytes, with RSP_CODE 03, else where offset + m is above the end of the burst with 01 (where none is awaited, of
 * every m but 0); either ends the exchange, and looks at no window. Otherwise its m bytes are put into the window, and e.sent is m more.
 *
 * The window is length bytes of the unit from block start on. Of a data frame that is taken all m bytes have their place in it: they begin at byte
 * 512 * e.start + offset of the unit, so a window from block e.start + offset / 512 on, of offset % 512 + m bytes or more, has them, and one of
 * JHARTUPAL_MOST_FRAME + JHARTUPAL_BLOCK bytes always does. Those m bytes change, and no other of the window, so a firmware lends what stands on the
 * unit and puts all of it back. Where they have no place in it, or it has more than JHARTUPAL_MOST_WINDOW bytes, the frame is refused with 10, and
 * may come again. With any other frame the window is not looked at: length may be 0, and start any. */
uint64_t jhartupal_frame(struct jhartupal_drive *d, const uint8_t *frame, size_t n, uint64_t start, uint8_t *window, size_t length, uint8_t *reply,
                         size_t room);

/* Writes the next frame of the open exchange of a login's address and an OX_ID. To the host: its data frames one after the other, 24 bytes and n
 * rounded up to a multiple of 4 (n of the exchange, above), then its FCP_RSP, 48 bytes, which frees the place. Of a WRITE: where its data are not
 * awaited FCP_XFER_RDY, 36 bytes, which asks for its next burst, and they are awaited then; where all have come its FCP_RSP, which frees the place.
 * Exchanges are served in any order; one may have ended by what arrived since, and is refused with 9. Answers 0 exactly while data are awaited,
 * however often it is asked, and nothing has changed then; FCP_XFER_RDY is not repeated. Refusals 1, 2, 9, 7, 10.
 *
 * The window is length bytes of the unit from block start on. Where the frame carries READ data, all n bytes of it are in the window: they begin at
 * byte 512 * e.start + e.sent of the unit, so a window from block e.start + e.sent / 512 on, of e.sent % 512 + n bytes or more, has them, and one of
 * JHARTUPAL_MOST_DATA + JHARTUPAL_BLOCK bytes always does. It may start anywhere as long as it has them, pass the end of the unit, and end inside a block.
 * What stands in it is sent as it is. Made data, FCP_XFER_RDY and FCP_RSP need no window, and length may be 0; one of more than
 * JHARTUPAL_MOST_WINDOW bytes is refused with 10 also there, and where data are awaited. */
uint64_t jhartupal_next(struct jhartupal_drive *d, uint32_t address, uint16_t ox_id, uint64_t start, const uint8_t *window, size_t length,
                        uint8_t *reply, size_t room);

/* The loop was reset: every login is to be verified, and until then its frames but PLOGI, PDISC, ADISC and LOGO are refused with 7, and
 * its next frames too. Answers 0, or refusal 2. */
uint64_t jhartupal_loop_reset(struct jhartupal_drive *d);

/* The verification time is over: every login that is not proven ends, with its exchanges. Answers 0, or refusal 2. */
uint64_t jhartupal_time_over(struct jhartupal_drive *d);

/* Power on: every login ends. The setup stays. Answers 0, or refusal 2. */
uint64_t jhartupal_power_on(struct jhartupal_drive *d);

#ifdef __cplusplus
}
#endif

#endif
