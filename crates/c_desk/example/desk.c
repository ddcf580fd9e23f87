/* A desk and a module in one process: a whole update, both ends this library. The desk selects the module, asks Info, erases, writes an image, has it verified, asks
 * Info again and resets; the module restarts into the app. Each request and each reply goes over the wire byte by byte. What goes over it is printed, so that it
 * can be compared with what tinyboot sends; what the desk hears is held to the setup, the image and its CRC here, and what is not so is told on standard
 * error. It is also recorded as a capture, which is then read and compared. */
#include <stdio.h>
#include <string.h>
#include "tinyboot.h"
#include "tinyboot_desk.h"

#define CAPACITY 1024
#define IMAGE_SIZE 198
#define CHUNK 48

#define HOLD(fact) \
    do { \
        if (!(fact)) { \
            fprintf(stderr, "desk.c:%d: not so: %s\n", __LINE__, #fact); \
            return 0; \
        } \
    } while (0)

static const struct tinyboot_setup numbers = {
    .erase_size = 128, .capacity = CAPACITY, .id_len = 2, .id = {0x5A, 0x01}, .version = TINYBOOT_PACK_VERSION(1, 1, 0), .key = 0xA1B2C3D4};

/* the module */
static uint8_t setup[TINYBOOT_SETUP_SIZE], state[TINYBOOT_STATE_SIZE], flash[CAPACITY], meta[TINYBOOT_META_SIZE], reply[TINYBOOT_REPLY_SIZE], answer[TINYBOOT_ANSWER_SIZE];

/* the desk */
static struct tinyboot_desk desk;
static uint8_t room[TINYBOOT_REPLY_SIZE], heard[TINYBOOT_HEARD_SIZE], image[IMAGE_SIZE];

/* what went over the wire */
static uint8_t capture[2048], other[sizeof capture], found[TINYBOOT_FOUND_SIZE], compared[TINYBOOT_COMPARED_SIZE];
static size_t captured, exchanges;

static void show(const char *who, const uint8_t *bytes, size_t len)
{
    size_t i;
    printf("%s ", who);
    for (i = 0; i < len; i++) printf("%02X", bytes[i]);
    printf("\n");
}

/* A record of it, which has at most 255 bytes. */
static void note(uint8_t mark, const uint8_t *bytes, size_t len)
{
    if (sizeof capture - captured < 2 + len) return;
    capture[captured] = mark;
    capture[captured + 1] = (uint8_t)len;
    memcpy(capture + captured + 2, bytes, len);
    captured += 2 + len;
}

/* The module's start, in this mode: what it decides, or 255. */
static uint8_t start(uint8_t mode)
{
    uint8_t said = tinyboot_start(mode, setup, sizeof setup, state, sizeof state, flash, sizeof flash, meta, sizeof meta, answer, sizeof answer);
    return said >= TINYBOOT_REFUSED ? 255 : tinyboot_answer_mode(answer);
}

/* What was written in the room, of which `said` tells, goes to the module, and its reply back to the desk, byte by byte. 1 where the desk has heard a reply to this
 * command with status Ok. */
static int exchange(uint8_t said, uint8_t command, uint8_t expected)
{
    size_t len, i, n;
    uint8_t got = TINYBOOT_HEARD_NOTHING;
    HOLD(said == TINYBOOT_DESK_WRITTEN);
    len = tinyboot_request_length(room);
    show("ask", room, len);
    note(TINYBOOT_TO_MODULE, room, len);
    for (i = 0; i < len; i++) {
        said = tinyboot_feed(setup, sizeof setup, state, sizeof state, room + i, 1, flash, sizeof flash, meta, sizeof meta, reply, sizeof reply, answer, sizeof answer);
        HOLD(said == (i + 1 < len ? TINYBOOT_QUIET : expected) && tinyboot_answer_taken(answer) == 1);
    }
    n = tinyboot_answer_length(answer);
    show("reply", reply, n);
    note(TINYBOOT_FROM_MODULE, reply, n);
    exchanges++;
    for (i = 0; i < n; i++) {
        HOLD(got == TINYBOOT_HEARD_NOTHING);
        got = tinyboot_listen(&desk, reply + i, 1, heard);
        HOLD(tinyboot_heard_taken(heard) == 1);
    }
    HOLD(got == TINYBOOT_HEARD_REPLY && tinyboot_heard_number(heard) == got);
    HOLD(tinyboot_heard_command(heard) == command && tinyboot_heard_status(heard) == TINYBOOT_STATUS_OK);
    HOLD(tinyboot_heard_address(heard) == tinyboot_get(room + TINYBOOT_FRAME_AT_ADDRESS, 3));
    HOLD(tinyboot_heard_flags(heard) == room[TINYBOOT_FRAME_AT_FLAGS]);
    return 1;
}

/* Info, and the numbers that it tells. */
static int ask_info(uint16_t app_version)
{
    struct tinyboot_info info;
    HOLD(exchange(tinyboot_request_info(room, sizeof room), TINYBOOT_CMD_INFO, TINYBOOT_REPLY));
    HOLD(tinyboot_heard_contents(heard) == TINYBOOT_CONTENTS_INFO);
    tinyboot_read_info(&info, &desk);
    HOLD(info.capacity == numbers.capacity && info.erase_size == numbers.erase_size && info.boot_version == numbers.version);
    HOLD(info.app_version == app_version && info.mode == 0 && info.baud == 0xFF && info.key == numbers.key && info.payload == TINYBOOT_PAYLOAD_SIZE);
    return 1;
}

static int update(void)
{
    uint32_t at;
    HOLD(exchange(tinyboot_request_select(3, 16, numbers.id, 2, room, sizeof room), TINYBOOT_CMD_SELECT, TINYBOOT_REPLY));
    HOLD(tinyboot_heard_contents(heard) == TINYBOOT_CONTENTS_SELECT && tinyboot_heard_length(heard) == 2);
    HOLD(memcmp(tinyboot_heard_data(&desk), numbers.id, 2) == 0);
    HOLD(ask_info(0xFFFF));
    HOLD(exchange(tinyboot_request_erase(0, 256, room, sizeof room), TINYBOOT_CMD_ERASE, TINYBOOT_REPLY));
    for (at = 0; at < IMAGE_SIZE; at += CHUNK) {
        uint32_t n = IMAGE_SIZE - at < CHUNK ? IMAGE_SIZE - at : CHUNK;
        HOLD(exchange(tinyboot_request_write(at, at + n == IMAGE_SIZE, image + at, n, room, sizeof room), TINYBOOT_CMD_WRITE, TINYBOOT_REPLY));
    }
    HOLD(exchange(tinyboot_request_verify(IMAGE_SIZE, room, sizeof room), TINYBOOT_CMD_VERIFY, TINYBOOT_REPLY));
    HOLD(tinyboot_heard_contents(heard) == TINYBOOT_CONTENTS_VERIFY);
    HOLD(tinyboot_heard_crc(&desk) == tinyboot_crc16(0xFFFF, image, sizeof image));
    HOLD(ask_info(TINYBOOT_PACK_VERSION(1, 2, 3)));
    HOLD(exchange(tinyboot_request_reset(0, 0, room, sizeof room), TINYBOOT_CMD_RESET, TINYBOOT_RESTART));
    HOLD(tinyboot_heard_contents(heard) == TINYBOOT_CONTENTS_PLAIN && tinyboot_heard_length(heard) == 0);
    return 1;
}

/* What the desk's calls refuse, and that they leave everything as it was; and a frame that is damaged. */
static int refusals(void)
{
    static const uint8_t damaged[] = {0xAA, 0x55, 0x00, 0x01, 0, 0, 0, 0, 0, 0, 0, 0};
    uint8_t before[sizeof room], data[TINYBOOT_PAYLOAD_SIZE + 1] = {0};
    memcpy(before, room, sizeof room);
    HOLD(tinyboot_request_write(0, 0, data, sizeof data, room, sizeof room) == TINYBOOT_TOO_LARGE);
    HOLD(tinyboot_request_verify(0x1000000, room, sizeof room) == TINYBOOT_TOO_LARGE);
    HOLD(tinyboot_request_write(0, 0, data, sizeof data, room, sizeof room - 1) == TINYBOOT_NO_ROOM);
    HOLD(memcmp(before, room, sizeof room) == 0);
    HOLD(tinyboot_request_write(0, 0, data, sizeof data - 1, room, sizeof room) == TINYBOOT_DESK_WRITTEN && tinyboot_request_length(room) == sizeof room);
    HOLD(tinyboot_listen(&desk, room, sizeof room, heard) == TINYBOOT_HEARD_REQUEST && tinyboot_heard_length(heard) == TINYBOOT_PAYLOAD_SIZE);
    HOLD(tinyboot_listen(&desk, damaged, sizeof damaged, heard) == TINYBOOT_HEARD_FAULT && tinyboot_heard_status(heard) == TINYBOOT_STATUS_CRC_MISMATCH);
    HOLD(tinyboot_hear(desk.frame, sizeof desk.frame - 1, 0, damaged, 1, heard, sizeof heard) == TINYBOOT_BAD_STATE);
    HOLD(tinyboot_hear(desk.frame, sizeof desk.frame, 0, damaged, 1, heard, sizeof heard - 1) == TINYBOOT_NO_ROOM);
    HOLD(tinyboot_hear(desk.frame, sizeof desk.frame, sizeof desk.frame, damaged, 1, heard, sizeof heard - 1) == TINYBOOT_BAD_STATE);
    return 1;
}

/* The capture, record by record: a request and its reply for each exchange. Then another of which one bit is wrong, and one that is cut. */
static int captures(void)
{
    size_t at = 0, place = 0, n = 0;
    while (tinyboot_capture_next(capture, captured, at, found, sizeof found) == TINYBOOT_CAPTURE_RECORD) {
        const uint8_t *bytes = tinyboot_found_bytes(capture, found);
        HOLD(tinyboot_found_mark(found) == (n % 2 == 0 ? TINYBOOT_TO_MODULE : TINYBOOT_FROM_MODULE));
        HOLD(bytes == capture + at + 2 && bytes + tinyboot_found_length(found) == capture + tinyboot_found_after(found));
        HOLD(bytes[0] == 0xAA && bytes[TINYBOOT_FRAME_AT_STATUS] == n % 2);
        place = at;
        at = tinyboot_found_after(found);
        n++;
    }
    HOLD(found[0] == TINYBOOT_CAPTURE_END && at == captured && n == 2 * exchanges);
    memcpy(other, capture, captured);
    HOLD(tinyboot_capture_compare(capture, captured, other, captured, compared, sizeof compared) == TINYBOOT_CAPTURES_ALIKE);
    other[captured - 1] ^= 1;
    HOLD(tinyboot_capture_compare(capture, captured, other, captured, compared, sizeof compared) == TINYBOOT_CAPTURES_DIFFER);
    HOLD(tinyboot_compared_place(compared) == place && tinyboot_compared_fault_of(compared) == 0);
    HOLD(tinyboot_capture_compare(capture, captured, other, captured - 1, compared, sizeof compared) == TINYBOOT_CUT_SHORT);
    HOLD(tinyboot_compared_place(compared) == place && tinyboot_compared_fault_of(compared) == 2);
    HOLD(tinyboot_capture_compare(capture, captured - 1, other, captured - 1, compared, sizeof compared) == TINYBOOT_CUT_SHORT);
    HOLD(tinyboot_compared_fault_of(compared) == 1);
    HOLD(tinyboot_capture_next(other, captured - 1, place, found, sizeof found) == TINYBOOT_CUT_SHORT && tinyboot_found_after(found) == place);
    other[place] = 0x3D;
    other[1] = 0;
    HOLD(tinyboot_capture_next(other, captured, place, found, sizeof found) == TINYBOOT_UNKNOWN_MARK);
    HOLD(tinyboot_capture_next(other, captured, 0, found, sizeof found) == TINYBOOT_COUNT_ZERO);
    HOLD(tinyboot_capture_next(capture, captured, 0, found, sizeof found - 1) == TINYBOOT_NO_ROOM && found[0] == TINYBOOT_COUNT_ZERO);
    HOLD(tinyboot_capture_compare(capture, captured, other, captured, compared, sizeof compared - 1) == TINYBOOT_NO_ROOM);
    return 1;
}

int main(void)
{
    size_t i;
    for (i = 0; i < IMAGE_SIZE - 6; i++) image[i] = (uint8_t)(3 + 7 * i);
    tinyboot_put(image + IMAGE_SIZE - 6, 4, numbers.key);
    tinyboot_put(image + IMAGE_SIZE - 2, 2, TINYBOOT_PACK_VERSION(1, 2, 3));
    tinyboot_lay_setup(setup, &numbers);
    memset(flash, 0xFF, sizeof flash);
    memset(meta, 0xFF, sizeof meta);
    if (start(TINYBOOT_HANDOFF) != TINYBOOT_SERVICE) return 1; /* there is no app yet */
    if (!update()) return 1;
    if (start(tinyboot_answer_mode(answer)) != TINYBOOT_HANDOFF) return 1; /* there is one now */
    if (memcmp(flash, image, sizeof image) != 0) return 1;
    printf("hand-off\n");
    return refusals() && captures() ? 0 : 1;
}
