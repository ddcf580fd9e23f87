/* A module whose app answers the wire: the app confirms itself, says Info, and takes a Reset into the bootloader, which then takes an update. On a board
 * bootloader and app are two programs, and a reset leads from one to the other; here they are two functions, and the reset is a return. Bytes come from
 * standard input, one at a time; what a board would do is printed. Flash and record are arrays, a new module's. */
#include <stdio.h>
#include <stdlib.h>
#include <string.h>
#include "../include/tinyboot.h"

#define CAPACITY 1024
#define OWN_BAUD 4 /* the firmware's own rate, by its index: 115,200 */

/* what outlives a reset, and what the wire has not handed over yet */
static uint8_t flash[CAPACITY], meta[TINYBOOT_META_SIZE], in[64];
static size_t n = 0;

/* One byte more; a board would wait for it. Where no more come, this module is done. */
static void receive(int when_done)
{
    int byte = getchar();
    if (byte == EOF) exit(when_done);
    in[n++] = (uint8_t)byte;
}

static void send_bytes(const uint8_t *reply, const uint8_t *answer)
{
    printf("send ");
    for (size_t i = 0; i < tinyboot_answer_length(answer); i++) printf("%02X", reply[i]);
    printf("\n");
}

/* What was taken goes; what was not is handed in again. */
static void taken(const uint8_t *answer)
{
    n -= tinyboot_answer_taken(answer);
    memmove(in, in + tinyboot_answer_taken(answer), n);
}

static void refused(uint8_t said)
{
    if (said < TINYBOOT_REFUSED) return;
    printf("refused %d\n", said);
    exit(said);
}

/* From a reset, in this mode, until the app is to be run. */
static void bootloader(uint8_t mode)
{
    const struct tinyboot_setup numbers = {
        .erase_size = 128, .capacity = CAPACITY, .version = TINYBOOT_PACK_VERSION(1, 1, 0), .key = 0xA1B2C3D4, .start_kind = TINYBOOT_START_PRESENT};
    uint8_t setup[TINYBOOT_SETUP_SIZE], state[TINYBOOT_STATE_SIZE], reply[TINYBOOT_REPLY_SIZE], answer[TINYBOOT_ANSWER_SIZE], said;
    tinyboot_lay_setup(setup, &numbers);
    for (;;) {
        said = tinyboot_start(mode, setup, sizeof setup, state, sizeof state, flash, sizeof flash, meta, sizeof meta, answer, sizeof answer);
        refused(said);
        if (tinyboot_answer_mode(answer) == TINYBOOT_HANDOFF) return;
        do {
            if (n == 0) receive(3);
            said = tinyboot_feed(setup, sizeof setup, state, sizeof state, in, n, flash, sizeof flash, meta, sizeof meta,
                                 reply, sizeof reply, answer, sizeof answer);
            refused(said);
            taken(answer);
            if (said >= TINYBOOT_REPLY) send_bytes(reply, answer);
        } while (said != TINYBOOT_RESTART);
        mode = tinyboot_answer_mode(answer);
    }
}

/* From its start until a Reset: the mode to start in. */
static uint8_t app(void)
{
    const struct tinyboot_app_setup numbers = {.erase_size = 128,
                                               .capacity = CAPACITY,
                                               .version = TINYBOOT_PACK_VERSION(1, 1, 0),
                                               .key = 0xA1B2C3D4,
                                               .app_version = TINYBOOT_PACK_VERSION(1, 2, 3)};
    uint8_t setup[TINYBOOT_APP_SETUP_SIZE], state[TINYBOOT_APP_STATE_SIZE], reply[TINYBOOT_REPLY_SIZE], answer[TINYBOOT_ANSWER_SIZE], said;
    tinyboot_lay_app_setup(setup, &numbers);
    refused(tinyboot_app_new_state(state, sizeof state));
    printf("baud %lu\n", (unsigned long)tinyboot_baud(meta, sizeof meta, OWN_BAUD));
    said = tinyboot_confirm(meta, sizeof meta); /* once the app has found itself in order */
    refused(said);
    printf(said == TINYBOOT_WRITTEN ? "confirmed\n" : "nothing to confirm\n");
    for (;;) {
        if (n == 0) receive(0);
        said = tinyboot_app_feed(setup, sizeof setup, state, sizeof state, in, n, meta, sizeof meta, reply, sizeof reply, answer, sizeof answer);
        refused(said);
        taken(answer);
        if (said == TINYBOOT_RESTART) return tinyboot_answer_mode(answer); /* nothing is sent */
        if (said == TINYBOOT_REPLY) send_bytes(reply, answer);
    }
}

int main(void)
{
    uint8_t mode = TINYBOOT_HANDOFF; /* what power-on asks for */
    memset(flash, 0xFF, sizeof flash);
    memset(meta, 0xFF, sizeof meta);
    for (;;) {
        bootloader(mode);
        printf("hand-off\n");
        mode = app();
        printf(mode == TINYBOOT_SERVICE ? "reset, to stay\n" : "reset\n");
    }
}
