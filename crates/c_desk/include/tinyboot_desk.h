/* The desk's side of tinyboot as a static library: libc_desk.a, which `crates/tinyboot_c/archive FOLDER c_desk` writes, and `crates/tinyboot_c/chip --desk` for
 * small controllers, by a way that is not proved (docs/C.md, On a controller). It needs nothing of libtinyboot_c.a, the module's side, and can be linked beside
 * it; its numbers are those of tinyboot.h, which this header includes (crates/tinyboot_c/include).
 *
 * docs/C.md, The desk, is the page to read first; ../example/desk.c has a desk and a module in one process.
 *
 * What is proved of each call is a definition of ../specs/Desk.antt (c_asked, c_heard) or ../specs/Captures.antt (c_next, c_compared), over those of
 * desk_requests, desk_replies and desk_captures. As with tinyboot.h a pointer and a length name that many bytes, no pointer is null, and no buffer that a call
 * writes overlaps another. The functions marked `static inline` are C and not proved.
 */
#ifndef TINYBOOT_DESK_H
#define TINYBOOT_DESK_H

#include "tinyboot.h"

#ifdef __cplusplus
extern "C" {
#endif

/* The six requests, written into a room of TINYBOOT_REPLY_SIZE bytes or more, and past the request the room keeps what it had. 0, or a refusal, and then
 * nothing is written: TINYBOOT_NO_ROOM before TINYBOOT_TOO_LARGE. */
enum tinyboot_request_number {
    TINYBOOT_DESK_WRITTEN = 0,
    TINYBOOT_TOO_LARGE = 20 /* data above TINYBOOT_PAYLOAD_SIZE, or an address above 24 bits */
};

uint8_t tinyboot_request_info(uint8_t *room, size_t room_len);

/* So many bytes, from an address on. */
uint8_t tinyboot_request_erase(uint32_t address, uint16_t count, uint8_t *room, size_t room_len);

/* Data, to an address; with a flush that is not 0 the run of Writes ends with them. */
uint8_t tinyboot_request_write(uint32_t address, uint8_t flush, const uint8_t *data, size_t data_len, uint8_t *room, size_t room_len);

/* The image of so many bytes. */
uint8_t tinyboot_request_verify(uint32_t size, uint8_t *room, size_t room_len);

/* Flags: enum tinyboot_flags; what of the address counts, they say. */
uint8_t tinyboot_request_reset(uint8_t flags, uint32_t address, uint8_t *room, size_t room_len);

/* Whose id begins with so many bits of the prefix; the seed picks the wait before the reply. A prefix has two bytes less than a payload. */
uint8_t tinyboot_request_select(uint8_t seed, uint8_t bits, const uint8_t *prefix, size_t prefix_len, uint8_t *room, size_t room_len);

/* How many bytes of the room are the request that was written. */
static inline size_t tinyboot_request_length(const uint8_t *room) { return 12 + tinyboot_get(room + TINYBOOT_FRAME_AT_LENGTH, 2); }

/* What was heard, as the result of a call and as the number in its bytes; TINYBOOT_BAD_STATE where frame and count are no true beginning of a frame, and
 * TINYBOOT_NO_ROOM where there are too few bytes to tell it. Of both it is the lower, and nothing is altered by either but, where they are enough, those bytes. */
enum tinyboot_heard {
    TINYBOOT_HEARD_NOTHING = 0, /* all bytes are taken, and no frame has ended */
    TINYBOOT_HEARD_REQUEST = 1, /* a good request */
    TINYBOOT_HEARD_REPLY = 2,   /* a good reply */
    TINYBOOT_HEARD_FAULT = 3    /* a frame that ended with this status: a wrong CRC (3), a command or a status that is none (5), more data than a frame takes (6) */
};

/* The contents of a reply, by its command and length, whatever its status. */
enum tinyboot_contents {
    TINYBOOT_CONTENTS_PLAIN = 0,  /* bytes, or none */
    TINYBOOT_CONTENTS_INFO = 1,   /* tinyboot_read_info */
    TINYBOOT_CONTENTS_VERIFY = 2, /* tinyboot_heard_crc */
    TINYBOOT_CONTENTS_SELECT = 3  /* bytes: the id */
};

/* Takes bytes up to the end of the first frame in them, into a frame of TINYBOOT_REPLY_SIZE bytes of which so many have begun. tinyboot_listen calls it. */
uint8_t tinyboot_hear(uint8_t *frame, size_t frame_len, size_t begun, const uint8_t *bytes, size_t bytes_len, uint8_t *heard, size_t heard_len);

/* What tells of it: 0 number, 1 command, 2 status, 3 flags, 4 address (4), 8 length of the data (2), 10 bytes begun (2), 12 kind of contents, 13 to 15 are 0, 16 how
 * many bytes were taken (8). */
#define TINYBOOT_HEARD_SIZE 24
static inline uint8_t tinyboot_heard_number(const uint8_t *heard) { return heard[0]; }
static inline uint8_t tinyboot_heard_command(const uint8_t *heard) { return heard[1]; }
static inline uint8_t tinyboot_heard_status(const uint8_t *heard) { return heard[2]; }
static inline uint8_t tinyboot_heard_flags(const uint8_t *heard) { return heard[3]; }
static inline uint32_t tinyboot_heard_address(const uint8_t *heard) { return tinyboot_get(heard + 4, 4); }
static inline size_t tinyboot_heard_length(const uint8_t *heard) { return tinyboot_get(heard + 8, 2); }
static inline size_t tinyboot_heard_begun(const uint8_t *heard) { return tinyboot_get(heard + 10, 2); }
static inline uint8_t tinyboot_heard_contents(const uint8_t *heard) { return heard[12]; }
static inline size_t tinyboot_heard_taken(const uint8_t *heard)
{
    return (size_t)((uint64_t)tinyboot_get(heard + 20, 4) << 32 | tinyboot_get(heard + 16, 4));
}

/* A desk: the frame that it hears, and how many of its bytes have begun. All zero is one that has heard nothing. A frame that has ended stands in it until the next
 * call takes bytes. To forget half a frame, set begun to 0. */
struct tinyboot_desk {
    uint8_t frame[TINYBOOT_REPLY_SIZE];
    size_t begun;
};

/* Hears bytes. Those that were not taken are handed in again, before any others. `heard` has TINYBOOT_HEARD_SIZE bytes. */
static inline uint8_t tinyboot_listen(struct tinyboot_desk *desk, const uint8_t *bytes, size_t bytes_len, uint8_t *heard)
{
    uint8_t said = tinyboot_hear(desk->frame, sizeof desk->frame, desk->begun, bytes, bytes_len, heard, TINYBOOT_HEARD_SIZE);
    if (said < TINYBOOT_REFUSED) desk->begun = tinyboot_heard_begun(heard);
    return said;
}

/* The data of the frame that was heard, tinyboot_heard_length bytes: a part of the frame, and no copy. Their CRC, of TINYBOOT_CONTENTS_VERIFY. */
static inline const uint8_t *tinyboot_heard_data(const struct tinyboot_desk *desk) { return desk->frame + TINYBOOT_FRAME_AT_DATA; }
static inline uint16_t tinyboot_heard_crc(const struct tinyboot_desk *desk) { return (uint16_t)tinyboot_get(tinyboot_heard_data(desk), 2); }

/* The numbers of TINYBOOT_CONTENTS_INFO. */
struct tinyboot_info {
    uint32_t capacity;
    uint16_t erase_size;
    uint16_t boot_version;
    uint16_t app_version; /* 0xFFFF: none */
    uint8_t mode;         /* 0 bootloader, 1 app */
    uint8_t baud;
    uint32_t key;
    uint16_t payload;
};

static inline void tinyboot_read_info(struct tinyboot_info *info, const struct tinyboot_desk *desk)
{
    const uint8_t *data = tinyboot_heard_data(desk);
    info->capacity = tinyboot_get(data, 4);
    info->erase_size = (uint16_t)tinyboot_get(data + 4, 2);
    info->boot_version = (uint16_t)tinyboot_get(data + 6, 2);
    info->app_version = (uint16_t)tinyboot_get(data + 8, 2);
    info->mode = data[10];
    info->baud = data[11];
    info->key = tinyboot_get(data + 12, 4);
    info->payload = (uint16_t)tinyboot_get(data + 16, 2);
}

/* Captures: records, each after a mark of two bytes, which way it went and how many bytes it has, 1 to 255. The calls look at the caller's bytes and copy
 * none. */
enum tinyboot_capture_mark {
    TINYBOOT_TO_MODULE = 0x3E,
    TINYBOOT_FROM_MODULE = 0x3C
};

/* What stands at a place of a capture, as the result of a call and as the number in its bytes; TINYBOOT_NO_ROOM, before these, where there are too few bytes
 * to tell it, and nothing is altered then. The place of a fault is that of the record's mark, which was asked for. */
enum tinyboot_capture_number {
    TINYBOOT_CAPTURE_END = 0,
    TINYBOOT_CAPTURE_RECORD = 1,
    TINYBOOT_UNKNOWN_MARK = 24, /* the first byte is no mark */
    TINYBOOT_COUNT_ZERO = 25,
    TINYBOOT_CUT_SHORT = 26 /* the capture ends inside the record */
};

uint8_t tinyboot_capture_next(const uint8_t *capture, size_t capture_len, size_t at, uint8_t *found, size_t found_len);

/* What tells of it: 0 number, 1 mark, 2 how many bytes the record has (2), 4 to 7 are 0, 8 the place of its first byte (8), 16 the place of what follows (8).
 * Where no record stands mark, count and first byte are 0, and what follows is the place asked for. */
#define TINYBOOT_FOUND_SIZE 24
static inline size_t tinyboot_get_place(const uint8_t *from) { return (size_t)((uint64_t)tinyboot_get(from + 4, 4) << 32 | tinyboot_get(from, 4)); }
static inline uint8_t tinyboot_found_mark(const uint8_t *found) { return found[1]; }
static inline size_t tinyboot_found_length(const uint8_t *found) { return tinyboot_get(found + 2, 2); }
static inline size_t tinyboot_found_after(const uint8_t *found) { return tinyboot_get_place(found + 16); }

/* The record's bytes: that very part of the capture. */
static inline const uint8_t *tinyboot_found_bytes(const uint8_t *capture, const uint8_t *found) { return capture + tinyboot_get_place(found + 8); }

/* Two captures compared: whether the second has a record that differs from the first's, or comes where the first has ended; or a fault that was met by then,
 * the first's before the second's, as TINYBOOT_UNKNOWN_MARK and so on. TINYBOOT_NO_ROOM as above. */
enum tinyboot_compared_number {
    TINYBOOT_CAPTURES_ALIKE = 0,
    TINYBOOT_CAPTURES_DIFFER = 1
};

uint8_t tinyboot_capture_compare(const uint8_t *first, size_t first_len, const uint8_t *second, size_t second_len, uint8_t *compared, size_t compared_len);

/* What tells of it: 0 number, 1 whose fault it is (1 the first's, 2 the second's, 0 none), 2 to 7 are 0, 8 the place of the mark (8): of the second's record
 * that differs, for tinyboot_capture_next, or of the fault. */
#define TINYBOOT_COMPARED_SIZE 16
static inline uint8_t tinyboot_compared_fault_of(const uint8_t *compared) { return compared[1]; }
static inline size_t tinyboot_compared_place(const uint8_t *compared) { return tinyboot_get_place(compared + 8); }

#ifdef __cplusplus
}
#endif

#endif
