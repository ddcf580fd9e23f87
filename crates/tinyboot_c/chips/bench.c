/* The language of docs/BENCH.md on the C interface, for a target without a C library: what `bench` does with the library's own calls is done with those of
 * tinyboot.h and tinyboot_desk.h. The bench's own work stays the bench's: `f`, `r`, `q`, `p` and `j` change its buffers, and C has no calls for that.
 *
 * `tinyboot_position` and `tinyboot_key`, which no letter asks for, are tried beside: the one with each `d`, the other once.
 *
 * PIECE=k hands `x` and `h` lines in by k bytes. Calls that only take bytes are then told as one with the call that ends a frame, so that the same is printed
 * as with PIECE=0, all bytes at once. ONE: the calls of tinyboot_one.h where a module has that device's numbers and lengths, and those of tinyboot.h elsewhere.
 *
 * Each call runs on a stack of its own that was painted before; at the end standard error has how deep each went. A line that cannot be obeyed is `? N`,
 * without the words behind it. */
#include "sys.h"
#include "tinyboot.h"
#include "tinyboot_desk.h"
#ifdef ONE
#include "tinyboot_one.h"
#endif
#ifndef PIECE
#define PIECE 0
#endif

#define FLASH 65600
#define RECORD 16
#define ROOM 512
#define LINE 4096
#define GUARD 8
#define PAINT 0xA5

/* ---- what is printed ---- */
static uint8_t out[65536];
static size_t printed;

static void flush(void)
{
    sys_write(1, out, printed);
    printed = 0;
}

static void put(uint8_t byte)
{
    if (printed == sizeof out) flush();
    out[printed++] = byte;
}

static void text(const char *s)
{
    while (*s) put((uint8_t)*s++);
}

/* By subtraction: no target needs a division for it. */
static void decimal(uint32_t n)
{
    static const uint32_t tens[10] = {1000000000, 100000000, 10000000, 1000000, 100000, 10000, 1000, 100, 10, 1};
    int begun = 0;
    for (int i = 0; i < 10; i++) {
        uint8_t digit = '0';
        while (n >= tens[i]) {
            n -= tens[i];
            digit++;
        }
        begun |= digit != '0' || i == 9;
        if (begun) put(digit);
    }
}

static void next(uint32_t n)
{
    put(' ');
    decimal(n);
}

static void hex(const uint8_t *s, size_t n)
{
    for (size_t i = 0; i < n; i++) {
        put((uint8_t)"0123456789ABCDEF"[s[i] >> 4]);
        put((uint8_t)"0123456789ABCDEF"[s[i] & 15]);
    }
}

static void listed(const char *name, const uint8_t *s, size_t n)
{
    text(name);
    if (n) put(' ');
    hex(s, n);
    put('\n');
}

/* ---- the bench ---- */
static uint8_t setup[TINYBOOT_SETUP_SIZE], app_setup[TINYBOOT_APP_SETUP_SIZE], state[TINYBOOT_STATE_SIZE], app_state[TINYBOOT_APP_STATE_SIZE];
static uint8_t flash[FLASH], meta[RECORD], room[ROOM], answer[TINYBOOT_ANSWER_SIZE + GUARD];
static size_t flash_len, meta_len, room_len;
static int runs; /* the app */
static struct tinyboot_desk desk;
/* A script may set counts that do not fit a state's byte, as no device's are: 255 stands for them, and is refused as they are. */
static uint32_t begun, fill;

static uint32_t four(const uint8_t *s) { return tinyboot_get(s, 4); }
static uint32_t two(const uint8_t *s) { return tinyboot_get(s, 2); }
static uint8_t least(uint32_t n) { return n < 255 ? (uint8_t)n : 255; }
static uint8_t *frame(void) { return runs ? app_state : state; }
static uint8_t *selected(void) { return runs ? app_state + 65 : state + 134; }
static uint8_t *closed(void) { return runs ? app_state + 66 : state + 135; }
static uint8_t *counted(void) { return runs ? app_state + 64 : state + 132; }

static void wrong(const char *why)
{
    text(why);
    put('\n');
}

/* ---- calls, each on its own stack ---- */
#define DEEP 8192
static _Alignas(16) uint8_t stacks[4][DEEP];
enum { ON_FEED, ON_START, ON_APP, ON_OTHERS };
static const char *const stack_names[4] = {"feed", "start", "app_feed", "others"};

/* What a call says is kept in 32 bits: one that leaves its result's upper bits as they were is then noticed. */
static struct {
    uint32_t said;
    uint8_t mode, byte;
    const uint8_t *bytes;
    size_t len, list_len;
    uint8_t *list;
    uint32_t number;
} now;

static void on(int stack, void (*call)(void)) { on_stack(call, stacks[stack] + DEEP); }

#ifdef ONE
static uint32_t ones;
static int is_one(void)
{
    static const struct tinyboot_setup numbers = {
        .erase_size = ONE_ERASE_SIZE, .capacity = ONE_CAPACITY, .id_len = ONE_ID_LEN, .version = ONE_VERSION, .key = ONE_KEY, .start_kind = ONE_START_KIND};
    uint8_t same[TINYBOOT_SETUP_SIZE];
    tinyboot_lay_setup(same, &numbers);
    for (size_t i = 0; i < sizeof same; i++)
        if (same[i] != setup[i] && (i < 9 || i >= 25)) return 0;
    return flash_len == ONE_CAPACITY && meta_len == TINYBOOT_META_SIZE && room_len == TINYBOOT_REPLY_SIZE;
}
static void one_feed(void)
{
    now.said = tinyboot_one_feed(setup + 9, state, now.bytes, now.len, flash, meta, room, answer);
}
static void one_start(void) { now.said = tinyboot_one_start(now.mode, setup + 9, state, flash, meta, answer); }
#endif

static void general_feed(void)
{
    now.said = tinyboot_feed(setup, sizeof setup, state, sizeof state, now.bytes, now.len, flash, flash_len, meta, meta_len, room, room_len, answer,
                             TINYBOOT_ANSWER_SIZE);
}

static void general_start(void)
{
    now.said = tinyboot_start(now.mode, setup, sizeof setup, state, sizeof state, flash, flash_len, meta, meta_len, answer, TINYBOOT_ANSWER_SIZE);
}

static void app_feed(void)
{
    now.said = tinyboot_app_feed(app_setup, sizeof app_setup, app_state, sizeof app_state, now.bytes, now.len, meta, meta_len, room, room_len, answer,
                                 TINYBOOT_ANSWER_SIZE);
}

static void do_feed(void)
{
    if (runs) {
        on(ON_APP, app_feed);
        return;
    }
#ifdef ONE
    if (is_one()) {
        ones++;
        on(ON_FEED, one_feed);
        return;
    }
    on(ON_OTHERS, general_feed);
#else
    on(ON_FEED, general_feed);
#endif
}

static void do_start(void)
{
#ifdef ONE
    if (is_one()) {
        ones++;
        on(ON_START, one_start);
        return;
    }
    on(ON_OTHERS, general_start);
#else
    on(ON_START, general_start);
#endif
}

static void do_crc(void) { now.number = tinyboot_crc16(0xFFFF, now.bytes, now.len); }
static void do_position(void) { now.number = tinyboot_position(meta, meta_len); }
static void do_key(void) { now.number = tinyboot_key((const uint8_t *)"foobar", 6); }
static void do_early(void) { now.said = tinyboot_early(now.mode, setup, sizeof setup, meta, meta_len); }
static void do_mend(void) { now.said = tinyboot_mend(setup, sizeof setup, meta, meta_len, now.list, now.list_len); }
static void do_confirm(void) { now.said = tinyboot_confirm(meta, meta_len); }
static void do_set_baud(void) { now.said = tinyboot_set_baud(meta, meta_len, now.byte); }
static void do_baud(void) { now.number = tinyboot_baud(meta, meta_len, now.byte); }
static void do_hear(void) { now.said = tinyboot_listen(&desk, now.bytes, now.len, now.list); }

/* ---- new benches, new states ---- */
static void new_state(int is_closed)
{
    runs = 0;
    if (tinyboot_new_state(state, sizeof state) != 0) wrong("NO NEW STATE");
    state[135] = (uint8_t)is_closed;
    begun = fill = 0;
}

static void new_bench(void)
{
    for (size_t i = 0; i < FLASH; i++) flash[i] = 0xFF;
    for (size_t i = 0; i < RECORD; i++) meta[i] = 0xFF;
    for (size_t i = 0; i < ROOM; i++) room[i] = 0;
    for (size_t i = 0; i < sizeof desk.frame; i++) desk.frame[i] = 0;
    desk.begun = 0;
    flash_len = four(setup + 4) < FLASH ? four(setup + 4) : FLASH;
    meta_len = TINYBOOT_META_SIZE;
    room_len = TINYBOOT_REPLY_SIZE;
    new_state(0);
}

/* ---- feeding ---- */
static void marked(void)
{
    for (size_t i = 0; i < sizeof answer; i++) answer[i] = 0xEE;
}

static void looked(void)
{
    if (now.said != tinyboot_answer_number(answer)) wrong("RESULT IS NOT THE ANSWER'S");
    for (size_t i = TINYBOOT_ANSWER_SIZE; i < sizeof answer; i++)
        if (answer[i] != 0xEE) wrong("PAST THE ANSWER");
}

/* The counts are the bench's: a call that left their bytes as they were left them too. */
static size_t fed(const uint8_t *bytes, size_t n)
{
    marked();
    *counted() = least(begun);
    if (!runs) state[133] = least(fill);
    now.bytes = bytes;
    now.len = n;
    do_feed();
    looked();
    if (*counted() != least(begun)) begun = *counted();
    if (!runs && state[133] != least(fill)) fill = state[133];
    return tinyboot_answer_taken(answer);
}

static void mode(uint8_t m) { text(m == TINYBOOT_SERVICE ? "service" : m == TINYBOOT_HANDOFF ? "handoff" : "NO MODE"); }

static void told(size_t taken)
{
    static const char *const reasons[6] = {"", " overheard reply", " unreadable frame", " wrong CRC", " not selected", " Select without a match"};
    size_t n = tinyboot_answer_length(answer);
    decimal(now.said);
    next((uint32_t)taken);
    next((uint32_t)n);
    next(tinyboot_answer_wait(answer));
    put(' ');
    mode(tinyboot_answer_mode(answer));
    text(tinyboot_answer_reason(answer) < 6 ? reasons[tinyboot_answer_reason(answer)] : "NO REASON");
    listed("", room, n);
}

static void hear(const uint8_t *bytes, size_t n);

/* The bytes, by pieces, until none is left, a restart is due, or a call refuses or takes nothing. `asks`: replies are put to the desk. */
static void feed(const uint8_t *bytes, size_t n, int asks)
{
    size_t at = 0, quiet = 0;
    for (;;) {
        size_t piece = PIECE && PIECE < n - at ? PIECE : n - at;
        size_t taken = fed(bytes + at, piece);
        quiet += taken;
        at += taken;
        int last = now.said >= TINYBOOT_RESTART || taken == 0 || at == n;
        if (now.said != TINYBOOT_QUIET || last) {
            told(quiet);
            quiet = 0;
            if (asks && now.said < TINYBOOT_REFUSED && tinyboot_answer_length(answer)) {
                uint32_t said = now.said;
                uint8_t reply[TINYBOOT_REPLY_SIZE];
                size_t length = tinyboot_answer_length(answer);
                for (size_t i = 0; i < length; i++) reply[i] = room[i];
                hear(reply, length);
                now.said = said;
            }
        }
        if (last) return;
    }
}

/* ---- the desk ---- */
static void contents(const uint8_t *heard)
{
    struct tinyboot_info info;
    const uint8_t *data = tinyboot_heard_data(&desk);
    size_t n = tinyboot_heard_length(heard);
    switch (tinyboot_heard_contents(heard)) {
    case TINYBOOT_CONTENTS_INFO:
        tinyboot_read_info(&info, &desk);
        text(" info");
        next(info.capacity);
        next(info.erase_size);
        next(info.boot_version);
        next(info.app_version);
        next(info.mode);
        next(info.baud);
        next(info.key);
        next(info.payload);
        put('\n');
        return;
    case TINYBOOT_CONTENTS_VERIFY:
        text(" verify");
        next(tinyboot_heard_crc(&desk));
        put('\n');
        return;
    case TINYBOOT_CONTENTS_SELECT: listed(" select", data, n); return;
    default: listed(" plain", data, n);
    }
}

static void heard_told(const uint8_t *heard, size_t taken)
{
    text("heard ");
    decimal(now.said);
    next((uint32_t)taken);
    if (now.said == TINYBOOT_HEARD_FAULT) next(tinyboot_heard_status(heard));
    if (now.said != TINYBOOT_HEARD_REQUEST && now.said != TINYBOOT_HEARD_REPLY) {
        put('\n');
        return;
    }
    next(tinyboot_heard_command(heard));
    if (now.said == TINYBOOT_HEARD_REPLY) next(tinyboot_heard_status(heard));
    next(tinyboot_heard_address(heard));
    next(tinyboot_heard_flags(heard));
    if (now.said == TINYBOOT_HEARD_REPLY)
        contents(heard);
    else
        listed("", tinyboot_heard_data(&desk), tinyboot_heard_length(heard));
}

static void hear(const uint8_t *bytes, size_t n)
{
    static uint8_t heard[TINYBOOT_HEARD_SIZE];
    size_t at = 0, quiet = 0;
    for (;;) {
        now.bytes = bytes + at;
        now.len = PIECE && PIECE < n - at ? PIECE : n - at;
        now.list = heard;
        on(ON_OTHERS, do_hear);
        quiet += tinyboot_heard_taken(heard);
        at += tinyboot_heard_taken(heard);
        if (now.said != TINYBOOT_HEARD_NOTHING || at == n) {
            heard_told(heard, quiet);
            quiet = 0;
        }
        if (at == n || now.said >= TINYBOOT_REFUSED) return;
    }
}

/* A request of any numbers: C writes the six with their own, so one that is none of these is laid here, as is what C has no words for, and counted. */
static uint32_t laid;
static struct {
    uint8_t command, flags;
    uint32_t address;
    const uint8_t *data;
    size_t n;
} request;

static int is_own(void)
{
    switch (request.command) {
    case TINYBOOT_CMD_INFO: return !request.flags && !request.address && !request.n;
    case TINYBOOT_CMD_ERASE: return !request.flags && request.n == 2;
    case TINYBOOT_CMD_WRITE: return request.flags == 0 || request.flags == TINYBOOT_WRITE_FLUSH;
    case TINYBOOT_CMD_VERIFY: return !request.flags && !request.n;
    case TINYBOOT_CMD_RESET: return !request.n;
    default: return !request.flags && !request.address && request.n >= 2;
    }
}

static void do_request(void)
{
    const uint8_t *data = request.data;
    switch (request.command) {
    case TINYBOOT_CMD_INFO: now.said = tinyboot_request_info(room, room_len); return;
    case TINYBOOT_CMD_ERASE: now.said = tinyboot_request_erase(request.address, (uint16_t)two(data), room, room_len); return;
    case TINYBOOT_CMD_WRITE: now.said = tinyboot_request_write(request.address, request.flags, data, request.n, room, room_len); return;
    case TINYBOOT_CMD_VERIFY: now.said = tinyboot_request_verify(request.address, room, room_len); return;
    case TINYBOOT_CMD_RESET: now.said = tinyboot_request_reset(request.flags, request.address, room, room_len); return;
    default: now.said = tinyboot_request_select(data[0], data[1], data + 2, request.n - 2, room, room_len);
    }
}

static void lay_request(void)
{
    size_t n = request.n;
    laid++;
    now.said = room_len < TINYBOOT_REPLY_SIZE ? TINYBOOT_NO_ROOM : n > TINYBOOT_PAYLOAD_SIZE || request.address >> 24 ? TINYBOOT_TOO_LARGE : 0;
    if (now.said) return;
    room[0] = 0xAA;
    room[1] = 0x55;
    room[2] = request.command;
    room[3] = 0;
    tinyboot_put(room + 4, 3, request.address);
    room[7] = request.flags;
    tinyboot_put(room + 8, 2, (uint32_t)n);
    for (size_t i = 0; i < n; i++) room[10 + i] = request.data[i];
    tinyboot_put(room + 10 + n, 2, tinyboot_crc16(0xFFFF, room, 10 + n));
}

static void ask(const uint8_t *line, size_t len, int asks)
{
    uint8_t sent[TINYBOOT_REPLY_SIZE];
    size_t n;
    request.command = line[0];
    request.flags = line[1];
    request.address = four(line + 2);
    request.data = line + 6;
    request.n = len - 6;
    if (is_own())
        on(ON_OTHERS, do_request);
    else
        lay_request();
    text("wrote ");
    decimal(now.said);
    if (now.said) {
        put('\n');
        return;
    }
    n = tinyboot_request_length(room);
    next((uint32_t)n);
    listed("", room, n);
    for (size_t i = 0; i < n; i++) sent[i] = room[i];
    if (asks) feed(sent, n, 1);
}

/* ---- what the other lines do ---- */
static void start(uint8_t asked)
{
    marked();
    now.mode = asked;
    do_start();
    looked();
    text("start ");
    if (now.said) decimal(now.said);
    if (!now.said) mode(tinyboot_answer_mode(answer));
    put('\n');
    runs = 0;
    begun = fill = 0;
    if (now.said) new_state(1); /* C leaves the state as it was; the bench's is a closed one */
}

static void run_app(uint32_t version)
{
    struct tinyboot_app_setup numbers = {.erase_size = four(setup),
                                         .capacity = four(setup + 4),
                                         .id_len = setup[8],
                                         .version = (uint16_t)two(setup + 25),
                                         .key = four(setup + 27),
                                         .app_version = (uint16_t)version};
    for (size_t i = 0; i < TINYBOOT_ID_SIZE; i++) numbers.id[i] = setup[9 + i];
    tinyboot_lay_app_setup(app_setup, &numbers);
    if (tinyboot_app_new_state(app_state, sizeof app_state) != 0) wrong("NO NEW STATE");
    runs = 1;
    begun = 0;
}

static void summed(const char *name, const uint8_t *s, size_t n)
{
    uint8_t crc[2];
    now.bytes = s;
    now.len = n;
    on(ON_OTHERS, do_crc);
    if (now.number > 0xFFFF) wrong("A CRC OF MORE THAN 16 BITS");
    crc[0] = (uint8_t)(now.number >> 8);
    crc[1] = (uint8_t)now.number;
    text(name);
    next((uint32_t)n);
    put(' ');
    hex(crc, 2);
    put('\n');
}

static void dump(void)
{
    uint32_t run = runs ? 0xFFFFFFFF : four(state + 128);
    summed("flash", flash, flash_len);
    listed("record", meta, meta_len);
    on(ON_OTHERS, do_position);
    if (now.number != (meta_len == TINYBOOT_META_SIZE ? meta[TINYBOOT_META_AT_POSITION] : 256u + TINYBOOT_BAD_RECORD)) wrong("ANOTHER POSITION");
    text("state");
    next(begun);
    next(runs ? 0 : fill);
    if (run == 0xFFFFFFFF) text(" -");
    if (run != 0xFFFFFFFF) next(run);
    next(*selected());
    next(!*closed());
    put('\n');
    listed("data", frame() + TINYBOOT_FRAME_AT_DATA, TINYBOOT_PAYLOAD_SIZE);
    summed("room", room, room_len);
}

/* The first so many steps of a rewrite: an erase, and three words. */
static void cut(const uint8_t *line)
{
    if (meta_len != TINYBOOT_META_SIZE || line[0] == 0) return;
    for (size_t i = 0; i < TINYBOOT_META_SIZE; i++) meta[i] = i < 4u * (line[0] - 1u) ? line[1 + i] : 0xFF;
}

static void mend(uint8_t entries)
{
    static uint8_t list[48];
    now.list = list;
    now.list_len = 3u * entries;
    on(ON_OTHERS, do_mend);
    text("mend ");
    decimal(now.said < TINYBOOT_REFUSED ? 0 : now.said);
    for (size_t i = 0; now.said < TINYBOOT_REFUSED && i < now.said; i++) {
        put(' ');
        hex(list + 3 * i, 3);
    }
    put('\n');
}

static void early(uint8_t asked)
{
    now.mode = asked;
    on(ON_OTHERS, do_early);
    text("early ");
    if (now.said >= TINYBOOT_REFUSED) decimal(now.said);
    if (now.said < TINYBOOT_REFUSED) text(now.said == TINYBOOT_STAYS ? "stays" : "reads on");
    put('\n');
}

static void number(const uint8_t *line)
{
    uint32_t value = four(line + 1);
    switch (line[0]) {
    case 0: begun = value; return;
    case 1: fill = value; return;
    case 2: tinyboot_put(state + 128, 4, value); return;
    case 3: *selected() = (uint8_t)value; return;
    default: *closed() = (uint8_t)!value;
    }
}

static void answered(const char *name, void (*call)(void), uint8_t byte, int is_rate)
{
    now.byte = byte;
    on(ON_OTHERS, call);
    text(name);
    next(is_rate ? now.number : now.said);
    put('\n');
}

static void renewed(const uint8_t *line, size_t len)
{
    for (size_t i = 0; i < TINYBOOT_SETUP_SIZE; i++) setup[i] = i < len ? line[i] : 0;
    new_bench();
}

/* ---- a line ---- */
static uint8_t line[LINE], letter, high;
static size_t len, at;
static int comment, waits, bad;
static uint32_t lines = 1;

static void fresh(void)
{
    letter = ' ';
    high = 16;
    len = at = 0;
    comment = waits = bad = 0;
}

static int between(size_t few, size_t many) { return few <= len && len <= many; }
static int ends_within(uint32_t from, size_t n, size_t most) { return from <= most && n <= most - from; }

static int settable(void)
{
    if (line[0] < 3) return !runs || line[0] == 0;
    return line[0] <= 4 && four(line + 1) <= 1;
}

static int allowed(void)
{
    switch (letter) {
    case 's': return between(31, 32);
    case 'n': return between(4, 4) && four(line) <= FLASH;
    case 'c': return between(1, 1) && line[0] <= RECORD;
    case 'm': return between(2, 2) && two(line) <= ROOM;
    case 'f': return between(4, LINE) && ends_within(four(line), len - 4, FLASH);
    case 'r': return between(1, 12);
    case 'p': return between(5, 5) && settable();
    case 'q': return between(1, LINE) && ends_within(line[0], len - 1, 64);
    case 'b':
    case 'e': return between(1, 1) && line[0] <= 1;
    case 'j': return between(13, 13) && line[0] <= 4;
    case 'a': return between(2, 2);
    case 'g':
    case 'y': return between(1, 1) && line[0] <= 13;
    case 'v': return between(1, 1) && line[0] <= 16;
    case 'w':
    case 'u': return between(6, LINE) && line[0] <= 5;
    case 'd':
    case 'k': return len == 0;
    case 'x':
    case 'o':
    case 'h':
    case 't': return 1;
    default: return 0;
    }
}

static void act(void)
{
    switch (letter) {
    case 's': renewed(line, len); return;
    case 'n': flash_len = four(line); return;
    case 'c': meta_len = line[0]; return;
    case 'm': room_len = two(line); return;
    case 'f':
        for (size_t i = 4; i < len; i++) flash[four(line) + i - 4] = line[i];
        return;
    case 'q':
        for (size_t i = 1; i < len; i++) frame()[line[0] + i - 1] = line[i];
        return;
    case 'r':
        for (size_t i = 0; i < len; i++) meta[i] = line[i];
        return;
    case 'p': number(line); return;
    case 'b': start(line[0]); return;
    case 'x': feed(line, len, 0); return;
    case 'o': told(fed(line, len)); return;
    case 'd': dump(); return;
    case 'j': cut(line); return;
    case 'e': early(line[0]); return;
    case 'v': mend(line[0]); return;
    case 'a': run_app(two(line)); return;
    case 'k': answered("confirm", do_confirm, 0, 0); return;
    case 'g': answered("baud", do_set_baud, line[0], 0); return;
    case 'y': answered("rate", do_baud, line[0], 1); return;
    case 'h': hear(line, len); return;
    case 'w': ask(line, len, 0); return;
    case 'u': ask(line, len, 1); return;
    case 't':
        for (size_t i = 0; i < len; i++) put(line[i]);
        put('\n');
    }
}

static int is_blank(uint8_t c) { return c == ' ' || c == '\t'; }

static void obey(void)
{
    if (is_blank(letter)) return;
    if (!bad && high == 16 && allowed()) {
        act();
        return;
    }
    text("?");
    next(lines);
    put('\n');
}

static uint8_t digit(uint8_t c)
{
    if (c >= '0' && c <= '9') return (uint8_t)(c - '0');
    if (c >= 'A' && c <= 'F') return (uint8_t)(c - 'A' + 10);
    return c >= 'a' && c <= 'f' ? (uint8_t)(c - 'a' + 10) : 16;
}

static void text_step(uint8_t c)
{
    if (is_blank(c) && at == 0) return;
    if (at >= LINE) {
        bad |= !is_blank(c);
        return;
    }
    line[at++] = c;
    if (!is_blank(c)) len = at;
}

static void digit_step(uint8_t c)
{
    uint8_t d = digit(c);
    if (d == 16) {
        bad = 1;
    } else if (high == 16) {
        high = d;
    } else {
        if (len == LINE) bad = 1;
        if (len < LINE) line[len++] = (uint8_t)(high << 4 | d);
        high = 16;
    }
}

static void step(uint8_t c)
{
    if (comment) return;
    if (c == '#') {
        comment = 1;
    } else if (letter == 't') {
        text_step(c);
    } else if (!is_blank(c)) {
        if (letter != ' ') digit_step(c);
        if (letter == ' ') letter = c;
    }
}

/* A CR counts for nothing right before the line's end. */
static void read(uint8_t c)
{
    if (c == '\n') {
        obey();
        fresh();
        lines++;
        return;
    }
    if (waits) step('\r');
    waits = c == '\r';
    if (!waits) step(c);
}

/* How deep each stack was written, and what this bench did that the library does not. */
static void depths(void)
{
    printed = 0;
    for (int i = 0; i < 4; i++) {
        size_t untouched = 0;
        while (untouched < DEEP && stacks[i][untouched] == PAINT) untouched++;
        text(stack_names[i]);
        next((uint32_t)(DEEP - untouched));
        put('\n');
    }
    text("laid");
    next(laid);
    put('\n');
#ifdef ONE
    text("one");
    next(ones);
    put('\n');
#endif
    sys_write(2, out, printed);
}

void begin(void)
{
    static uint8_t block[65536];
    static const struct tinyboot_setup first = {.erase_size = 64, .capacity = 16384, .key = TINYBOOT_NO_KEY};
    for (size_t i = 0; i < sizeof stacks; i++) stacks[0][i] = PAINT;
    if (tinyboot_state_size() != TINYBOOT_STATE_SIZE) wrong("ANOTHER STATE");
    on(ON_OTHERS, do_key);
    if (now.number != 0xBF9CF968) wrong("ANOTHER KEY"); /* FNV-1a's published value */
    tinyboot_lay_setup(setup, &first);
    new_bench();
    fresh();
    for (;;) {
        long n = sys_read(0, block, sizeof block);
        if (n <= 0) break;
        for (long i = 0; i < n; i++) read(block[i]);
    }
    obey();
    flush();
    depths();
    sys_exit(0);
}
