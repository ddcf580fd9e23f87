/* The device side of tinyboot as a static library: libtinyboot_c.a, which ../archive writes for x86-64 and aarch64, and ../chip for small controllers (rv32ec,
 * rv32imac, thumbv6m, thumbv7em).
 *
 * docs/C.md is the page to read first; docs/WIRE.md has the frames, the statuses, what an image is and a whole update; ../example/loop.c is a module in C.
 *
 * The library keeps nothing between calls: all that a device is stands in the caller's buffers. The flash is an array in memory, not a chip's
 * flash; an erase and a write change the array. The library wants memcpy, memmove and memset of the C library, and nothing else.
 *
 * What is proved of each call is the definition of its name in ../specs/Calls.antt (tinyboot_feed: c_fed, tinyboot_start: c_started), in c_start
 * (tinyboot_new_state: c_new) and in c_app (tinyboot_set_baud: c_set_baud), with the layouts of ../../c_layout/specs/Layout.antt and
 * ../../c_app/specs/App.antt. It is proved of buffers as slices, so it holds where the caller keeps to this:
 *   - a pointer and a length name that many bytes that the call may read, or read and write where the pointer is not const; no pointer is null, even at
 *     length 0;
 *   - no buffer that a call writes overlaps another buffer of the same call.
 * The functions marked `static inline` are C and not proved; they only lay and read bytes at the places below.
 *
 * What is proved are the functions, not each way to an object. ../chip edits the kit's LLVM module and compiles it again, and neither is proved: ../chip-run
 * runs what comes out under an emulator, which shows no alignment trap and not RV32E's smaller register file (docs/C.md, On a controller). On a controller the
 * flash is an array in memory too, no chip's flash registers are driven, and on rv32ec and thumbv6m the library also wants the compiler's own routine for a
 * remainder.
 *
 * What the caller owes besides:
 *   - at power-on tinyboot_start comes first: it decides whether the app is run, and gives the first state. tinyboot_new_state decides nothing, and nothing
 *     shows that the start was forgotten: a state of zeros, never started, is accepted as open, with a run of Writes under way that goes on at address 0;
 *   - bytes that were not taken are handed in again, before any others;
 *   - a reply is sent after the answer's wait, in byte-times of ten bits;
 *   - after TINYBOOT_RESTART the reply is sent, then tinyboot_start is called with the answer's mode. Until then a feed is refused with TINYBOOT_CLOSED.
 *
 * From power-on, as in ../example/loop.c, with arrays for the buffers:
 *
 *     uint8_t mode = TINYBOOT_HANDOFF, said;                 // power-on asks for the app
 *     size_t n = 0;
 *     for (;;) {
 *         said = tinyboot_start(mode, setup, sizeof setup, state, sizeof state, flash, sizeof flash, meta, sizeof meta, answer, sizeof answer);
 *         if (said >= TINYBOOT_REFUSED) return said;
 *         if (tinyboot_answer_mode(answer) == TINYBOOT_HANDOFF) return 0; // run the app
 *         do {
 *             if (n == 0) n = receive(in, sizeof in);
 *             said = tinyboot_feed(setup, sizeof setup, state, sizeof state, in, n, flash, sizeof flash, meta, sizeof meta,
 *                                  reply, sizeof reply, answer, sizeof answer);
 *             if (said >= TINYBOOT_REFUSED) return said;
 *             n -= tinyboot_answer_taken(answer);
 *             memmove(in, in + tinyboot_answer_taken(answer), n);
 *             if (said >= TINYBOOT_REPLY) {
 *                 wait_byte_times(tinyboot_answer_wait(answer));
 *                 send_bytes(reply, tinyboot_answer_length(answer));
 *             }
 *         } while (said != TINYBOOT_RESTART);
 *         mode = tinyboot_answer_mode(answer);               // a restart, in the mode that was asked for
 *     }
 */
#ifndef TINYBOOT_H
#define TINYBOOT_H

#include <stddef.h>
#include <stdint.h>

#ifdef __cplusplus
extern "C" {
#endif

/* The version of this interface. While the major one is 0, a change of a layout or a number raises the minor one. */
#define TINYBOOT_VERSION 0x00000004
#define TINYBOOT_VERSION_MAJOR (0xffff & (TINYBOOT_VERSION >> 16))
#define TINYBOOT_VERSION_MINOR (0xffff & (TINYBOOT_VERSION >> 0))

/* Buffers. How many bytes each has; their layouts stand below, numbers of several bytes with the low byte first. The flash has as many bytes as the capacity;
 * reply and answer may have more, and what is more is left alone. */
#define TINYBOOT_SETUP_SIZE 32
#define TINYBOOT_STATE_SIZE 136
#define TINYBOOT_META_SIZE 12
#define TINYBOOT_REPLY_SIZE 64
#define TINYBOOT_ANSWER_SIZE 16
#define TINYBOOT_APP_SETUP_SIZE 33
#define TINYBOOT_APP_STATE_SIZE 67

/* Sizes and limits of a device. */
#define TINYBOOT_PAGE_SIZE 64
#define TINYBOOT_PAYLOAD_SIZE 52
#define TINYBOOT_ID_SIZE 16
#define TINYBOOT_ERASE_SIZE_MAX 32768
#define TINYBOOT_CAPACITY_MAX 65536

/* A module with this key takes every image. */
#define TINYBOOT_NO_KEY 0xFFFFFFFF

/* A version as on the wire and in an image: at most 31, 31 and 63. */
#define TINYBOOT_PACK_VERSION(major, minor, patch) \
    ((uint16_t)((((uint32_t)(major) << 11) | ((uint32_t)(minor) << 6) | (uint32_t)(patch)) & 0xFFFF))

/* Calls. What each says, as its result and as the answer's number. From TINYBOOT_REFUSED on the call is refused, and nothing is altered but the answer: its
 * number, mode TINYBOOT_SERVICE, and 0 for the rest. Of several refusals it is the one with the lowest number. An answer of too few bytes is left as it is and
 * counts as no room. */
enum tinyboot_number {
    TINYBOOT_STARTED = 0,     /* a start: its mode is what was decided */
    TINYBOOT_QUIET = 0,       /* a feed: all bytes are taken, and no frame has ended */
    TINYBOOT_SILENT = 1,      /* a frame has ended, and there is no reply: the answer has the reason */
    TINYBOOT_REPLY = 2,       /* a frame has ended: send the reply */
    TINYBOOT_RESTART = 3,     /* send the reply, then call tinyboot_start with the answer's mode */
    TINYBOOT_REFUSED = 10,    /* this and all above are refusals */
    TINYBOOT_BAD_SETUP = 10,  /* another length, or a number outside its limits (struct tinyboot_setup) */
    TINYBOOT_BAD_STATE = 11,  /* another length, a flag above 1, or numbers that no device comes to */
    TINYBOOT_BAD_FLASH = 12,  /* not as long as the capacity */
    TINYBOOT_BAD_RECORD = 13, /* not 12 bytes */
    TINYBOOT_NO_ROOM = 14,    /* too little for a reply, or for an answer */
    TINYBOOT_CLOSED = 15      /* a restart is due, or the app has been handed to: call tinyboot_start */
};

/* Why a module keeps silent: the reason of TINYBOOT_SILENT. Where two apply it is the frame's own before the selection's, and of the frame's the one that is read
 * first. A module without an id has TINYBOOT_OVERHEARD_REPLY alone. */
enum tinyboot_reason {
    TINYBOOT_NO_REASON = 0,            /* every other answer's */
    TINYBOOT_OVERHEARD_REPLY = 1,      /* a neighbour's reply */
    TINYBOOT_UNREADABLE_FRAME = 2,     /* a command or a status that is none, or more data than a frame takes */
    TINYBOOT_WRONG_CRC = 3,            /* a damaged request */
    TINYBOOT_NOT_SELECTED = 4,         /* a good request, for whoever is selected */
    TINYBOOT_SELECT_WITHOUT_MATCH = 5  /* a good Select, for another */
};

/* What a start asks for, and what one has decided. Of a feed's answers TINYBOOT_RESTART alone can have TINYBOOT_HANDOFF: all others, TINYBOOT_QUIET too, have
 * TINYBOOT_SERVICE. */
enum tinyboot_mode {
    TINYBOOT_HANDOFF = 0, /* the app */
    TINYBOOT_SERVICE = 1  /* the bootloader */
};

/* The kinds of start, a number of the setup. They differ where the record stores no checksum, as one has whose rewrite was cut after its erase: the present
 * start then runs whatever has a first word that is not all ones, and the careful one stays. With the careful start an image whose CRC is 0xFFFF never runs. */
enum tinyboot_start_kind {
    TINYBOOT_START_PRESENT = 0,
    TINYBOOT_START_CAREFUL = 1
};

/* The record, `meta`, which outlives a restart: where its numbers stand, low byte first, and what its state byte may be. */
enum tinyboot_meta {
    TINYBOOT_META_AT_STATE = 0,
    TINYBOOT_META_AT_TRIALS = 1,     /* as many starts left as its longest run of ones is long */
    TINYBOOT_META_AT_CHECKSUM = 2,   /* 2 bytes; 0xFFFF: none */
    TINYBOOT_META_AT_IMAGE_SIZE = 4, /* 4 bytes */
    TINYBOOT_META_AT_BAUD = 8,       /* a rate's index, docs/WIRE.md; 14 and above: the firmware's own */
    TINYBOOT_META_AT_POSITION = 9,   /* the place in the row, as a Reset stored it; 0xFF: none */
    TINYBOOT_META_AT_RESERVED = 10   /* 2 bytes, kept */
};
enum tinyboot_state_byte { TINYBOOT_IDLE = 0xFF, TINYBOOT_UPDATING = 0x7F, TINYBOOT_VALIDATING = 0x3F };

/* A frame: where its fields stand, its commands, their flags, and its statuses (docs/WIRE.md). */
enum tinyboot_frame {
    TINYBOOT_FRAME_AT_COMMAND = 2,
    TINYBOOT_FRAME_AT_STATUS = 3,
    TINYBOOT_FRAME_AT_ADDRESS = 4, /* 3 bytes */
    TINYBOOT_FRAME_AT_FLAGS = 7,
    TINYBOOT_FRAME_AT_LENGTH = 8, /* 2 bytes */
    TINYBOOT_FRAME_AT_DATA = 10
};
enum tinyboot_command {
    TINYBOOT_CMD_INFO = 0,
    TINYBOOT_CMD_ERASE = 1,
    TINYBOOT_CMD_WRITE = 2,
    TINYBOOT_CMD_VERIFY = 3,
    TINYBOOT_CMD_RESET = 4,
    TINYBOOT_CMD_SELECT = 5
};
enum tinyboot_flags {
    TINYBOOT_RESET_BOOTLOADER = 0x01, /* Reset: stay in the bootloader */
    TINYBOOT_RESET_BAUD = 0x02,       /* Reset: the low address byte is a rate's index, to be stored */
    TINYBOOT_RESET_POSITION = 0x04,   /* Reset: the second address byte is the place in the row, to be stored; not tinyboot's */
    TINYBOOT_WRITE_FLUSH = 0x80       /* Write: the last of its run */
};
enum tinyboot_status {
    TINYBOOT_STATUS_REQUEST = 0,
    TINYBOOT_STATUS_OK = 1,
    TINYBOOT_STATUS_WRITE_ERROR = 2,
    TINYBOOT_STATUS_CRC_MISMATCH = 3,
    TINYBOOT_STATUS_ADDR_OUT_OF_BOUNDS = 4,
    TINYBOOT_STATUS_UNSUPPORTED = 5,
    TINYBOOT_STATUS_PAYLOAD_OVERFLOW = 6,
    TINYBOOT_STATUS_INCOMPATIBLE = 7
};

/* A number of so many bytes, at most 4, low byte first: laid, and read. */
static inline void tinyboot_put(uint8_t *to, size_t bytes, uint32_t number)
{
    size_t i;
    for (i = 0; i < bytes; i++) to[i] = (uint8_t)(number >> (8 * i) & 0xFF);
}

static inline uint32_t tinyboot_get(const uint8_t *from, size_t bytes)
{
    uint32_t number = 0;
    while (bytes-- > 0) number = number << 8 | from[bytes];
    return number;
}

/* The numbers of a setup, with their limits. A call refuses others with TINYBOOT_BAD_SETUP. Set all to 0 first (named initialisers do), so that what a later
 * version adds is 0. */
struct tinyboot_setup {
    uint32_t erase_size;          /* a multiple of 64, from 64 to 32,768 */
    uint32_t capacity;            /* a multiple of the erase size, at most 65,536 and not 0: how long the flash is */
    uint8_t id_len;               /* 0: unaddressed, or 1 to 16 */
    uint8_t id[TINYBOOT_ID_SIZE]; /* from its first byte on; what is past id_len counts for nothing */
    uint16_t version;             /* the bootloader's, any: TINYBOOT_PACK_VERSION */
    uint32_t key;                 /* that of the images it takes, any: docs/WIRE.md; TINYBOOT_NO_KEY */
    uint8_t start_kind;           /* TINYBOOT_START_PRESENT or TINYBOOT_START_CAREFUL */
};

/* Lays them as the calls read them, TINYBOOT_SETUP_SIZE bytes: 0 erase size (4), 4 capacity (4), 8 id length, 9 id (16), 25 version (2), 27 key (4), 31 kind of
 * start. */
static inline void tinyboot_lay_setup(uint8_t *setup, const struct tinyboot_setup *numbers)
{
    size_t i;
    tinyboot_put(setup, 4, numbers->erase_size);
    tinyboot_put(setup + 4, 4, numbers->capacity);
    setup[8] = numbers->id_len;
    for (i = 0; i < TINYBOOT_ID_SIZE; i++) setup[9 + i] = numbers->id[i];
    tinyboot_put(setup + 25, 2, numbers->version);
    tinyboot_put(setup + 27, 4, numbers->key);
    setup[31] = numbers->start_kind;
}

/* What an answer says, TINYBOOT_ANSWER_SIZE bytes: 0 number, 1 mode, 2 the reply's length (2), 4 the wait, 5 the reason of silence, 6 and 7 are 0, 8 how many bytes
 * were taken (8). */
static inline uint8_t tinyboot_answer_number(const uint8_t *answer) { return answer[0]; }
static inline uint8_t tinyboot_answer_mode(const uint8_t *answer) { return answer[1]; }
static inline size_t tinyboot_answer_length(const uint8_t *answer) { return tinyboot_get(answer + 2, 2); }
static inline uint8_t tinyboot_answer_wait(const uint8_t *answer) { return answer[4]; }
static inline uint8_t tinyboot_answer_reason(const uint8_t *answer) { return answer[5]; }
static inline size_t tinyboot_answer_taken(const uint8_t *answer)
{
    return (size_t)((uint64_t)tinyboot_get(answer + 12, 4) << 32 | tinyboot_get(answer + 8, 4));
}

/* How many bytes of a frame have begun in a state; and a state that forgets them, for a receiver whose line has gone idle inside a frame (docs/WIRE.md, Half a
 * frame). Run and selection stay. A state has TINYBOOT_STATE_SIZE bytes: 0 frame (64), 64 page (64), 128 the next write's address (4; 0xFFFFFFFF: no write is
 * pending), 132 bytes begun, 133 fill of the page, 134 selected, 135 closed, both 0 or 1. */
static inline uint8_t tinyboot_frame_begun(const uint8_t *state) { return state[132]; }
static inline void tinyboot_drop_frame(uint8_t *state) { state[132] = 0; }

/* How many bytes a state takes: TINYBOOT_STATE_SIZE. A program may ask whether header and archive belong together. */
size_t tinyboot_state_size(void);

/* The first start, and every restart: TINYBOOT_HANDOFF asks for the app, every other mode for Service. Not refused, its number is TINYBOOT_STARTED, its mode is
 * what was decided (TINYBOOT_HANDOFF: run the app, and feed no more), and the state is a new one, open on Service. What stood in the state before is not read.
 * Of the record only the trials byte can change. Refusals: TINYBOOT_BAD_SETUP, TINYBOOT_BAD_STATE for another length, TINYBOOT_BAD_FLASH, TINYBOOT_BAD_RECORD,
 * TINYBOOT_NO_ROOM for the answer. */
uint8_t tinyboot_start(uint8_t mode, const uint8_t *setup, size_t setup_len, uint8_t *state, size_t state_len, const uint8_t *flash, size_t flash_len,
                       uint8_t *meta, size_t meta_len, uint8_t *answer, size_t answer_len);

/* Takes bytes up to the end of the first frame in them, carries that frame out on the flash and the record, and writes its reply. Any number of bytes may be
 * handed in, none too; how many were taken is in the answer. Refusals: TINYBOOT_BAD_SETUP, TINYBOOT_BAD_STATE, TINYBOOT_BAD_FLASH, TINYBOOT_BAD_RECORD,
 * TINYBOOT_NO_ROOM for the reply or the answer, TINYBOOT_CLOSED. */
uint8_t tinyboot_feed(const uint8_t *setup, size_t setup_len, uint8_t *state, size_t state_len, const uint8_t *bytes, size_t bytes_len,
                      uint8_t *flash, size_t flash_len, uint8_t *meta, size_t meta_len, uint8_t *reply, size_t reply_len,
                      uint8_t *answer, size_t answer_len);

/* An open new state, with no frame begun, no write pending and no decision about the app: for benches. 0; where state_len is another, TINYBOOT_BAD_STATE, and
 * nothing is altered. */
uint8_t tinyboot_new_state(uint8_t *state, size_t state_len);

/* Whether a start that asks for this mode, as tinyboot_start has it, will stay, from the record alone and before any flash is read. It uses no trial and alters
 * nothing. Refusals: TINYBOOT_BAD_SETUP, then TINYBOOT_BAD_RECORD. */
enum tinyboot_outlook {
    TINYBOOT_READS_ON = 0, /* the start reads the flash, and may stay after all */
    TINYBOOT_STAYS = 1     /* the start stays in Service, whatever the flash has */
};
uint8_t tinyboot_early(uint8_t mode, const uint8_t *setup, size_t setup_len, const uint8_t *meta, size_t meta_len);

/* A record put in order: a state byte that is none becomes Updating's, trials become low ones with as many starts left, and a record whose checksum has an
 * impossible size becomes Updating with none. The result is how many bytes have changed, 0 to 8; each has an entry in the list, three bytes in rising order of the
 * place: place, old byte, new byte. Past the entries the list is left alone. A second mend changes nothing, and no start decides otherwise than before. Refusals,
 * nothing is altered: TINYBOOT_BAD_SETUP, TINYBOOT_BAD_RECORD, TINYBOOT_SHORT_LIST for fewer than TINYBOOT_MEND_LIST_SIZE bytes of list. */
#define TINYBOOT_MEND_LIST_SIZE 36
#define TINYBOOT_SHORT_LIST 27
uint8_t tinyboot_mend(const uint8_t *setup, size_t setup_len, uint8_t *meta, size_t meta_len, uint8_t *list, size_t list_len);

/* The app. While the app runs, it answers the wire itself: it says Info and takes Reset, and no other command. It has a setup, a state and calls of its
 * own, and no flash; the record is the same twelve bytes as the bootloader's. What a call says has the numbers above, without TINYBOOT_BAD_FLASH.
 *
 * What the app owes besides: bytes that were not taken, and replies, as with tinyboot_feed. After TINYBOOT_RESTART nothing is sent: the module is reset,
 * and the bootloader's first call is tinyboot_start with the answer's mode. Until then a feed is refused with TINYBOOT_CLOSED. */

/* The numbers of an app's setup: those of the bootloader that started it, with the same limits, and its own version. Set all to 0 first. */
struct tinyboot_app_setup {
    uint32_t erase_size;
    uint32_t capacity;
    uint8_t id_len;
    uint8_t id[TINYBOOT_ID_SIZE];
    uint16_t version; /* the bootloader's */
    uint32_t key;
    uint16_t app_version; /* the app's own, any: TINYBOOT_PACK_VERSION */
};

/* Lays them as tinyboot_app_feed reads them, TINYBOOT_APP_SETUP_SIZE bytes: 0 erase size (4), 4 capacity (4), 8 id length, 9 id (16), 25 version (2), 27
 * key (4), 31 the app's version (2). */
static inline void tinyboot_lay_app_setup(uint8_t *setup, const struct tinyboot_app_setup *numbers)
{
    size_t i;
    tinyboot_put(setup, 4, numbers->erase_size);
    tinyboot_put(setup + 4, 4, numbers->capacity);
    setup[8] = numbers->id_len;
    for (i = 0; i < TINYBOOT_ID_SIZE; i++) setup[9 + i] = numbers->id[i];
    tinyboot_put(setup + 25, 2, numbers->version);
    tinyboot_put(setup + 27, 4, numbers->key);
    tinyboot_put(setup + 31, 2, numbers->app_version);
}

/* An open new state of an app, with no frame begun and deselected: an app's first call. 0; where state_len is another, TINYBOOT_BAD_STATE, and nothing is
 * altered. A state has TINYBOOT_APP_STATE_SIZE bytes: 0 frame (64), 64 bytes begun, 65 selected, 66 closed, both 0 or 1. */
uint8_t tinyboot_app_new_state(uint8_t *state, size_t state_len);

/* Takes bytes up to the end of the first frame in them, answers that frame as the running app, and writes its reply. Info has mode 1 and the app's version
 * of the setup. A Reset is never refused and has no reply: TINYBOOT_RESTART with length 0 and the mode that was asked for; with TINYBOOT_RESET_BAUD its
 * rate is stored where it differs. Any other command is TINYBOOT_STATUS_UNSUPPORTED. Refusals: TINYBOOT_BAD_SETUP, TINYBOOT_BAD_STATE, TINYBOOT_BAD_RECORD,
 * TINYBOOT_NO_ROOM for the reply or the answer, TINYBOOT_CLOSED. */
uint8_t tinyboot_app_feed(const uint8_t *setup, size_t setup_len, uint8_t *state, size_t state_len, const uint8_t *bytes, size_t bytes_len,
                          uint8_t *meta, size_t meta_len, uint8_t *reply, size_t reply_len, uint8_t *answer, size_t answer_len);

/* What became of a change of the record; or a refusal, which alters nothing. */
enum tinyboot_stored {
    TINYBOOT_NOTHING_TO_DO = 0, /* and nothing is written */
    TINYBOOT_WRITTEN = 1
};

/* The app that is on trial stays: of a record that is TINYBOOT_VALIDATING the state becomes TINYBOOT_IDLE and the trials 0xFF; any other is left as it is.
 * Refusal: TINYBOOT_BAD_RECORD. */
uint8_t tinyboot_confirm(uint8_t *meta, size_t meta_len);

/* Stores a rate's index (docs/WIRE.md), for the bootloader to use from the next reset on; one already stored is not written again. Refusals:
 * TINYBOOT_BAD_SETUP for an index of 14 or more, then TINYBOOT_BAD_RECORD. */
uint8_t tinyboot_set_baud(uint8_t *meta, size_t meta_len, uint8_t index);

/* The rate that the bootloader listens at, in bits per second: the stored one, or the one with this index where the record's is none. No rate is below
 * 9,600, so that TINYBOOT_BAD_SETUP for an index of 14 or more, and then TINYBOOT_BAD_RECORD, are none. */
uint32_t tinyboot_baud(const uint8_t *meta, size_t meta_len, uint8_t default_index);

/* The place in the row that a Reset stored, 0xFF for none; or 256 + TINYBOOT_BAD_RECORD. */
uint16_t tinyboot_position(const uint8_t *meta, size_t meta_len);

/* The CRC register after these bytes (CRC-16/IBM-3740), for hosts that make frames: begin with 0xFFFF, and pass the last result on for a message in parts. */
uint16_t tinyboot_crc16(uint16_t crc, const uint8_t *bytes, size_t bytes_len);

/* The key of a name, for a setup and for an image (docs/WIRE.md): its FNV-1a hash, and never TINYBOOT_NO_KEY. */
uint32_t tinyboot_key(const uint8_t *name, size_t name_len);

#ifdef __cplusplus
}
#endif

#endif
