/* A module as firmware runs it: the start at power-on, then the receive loop of tinyboot.h, until the app is to be run. What a board does with a UART is done
 * with standard input and output here: bytes come one at a time, and each wait and reply is printed. Flash and record are arrays, a new module's. */
#include <stdio.h>
#include <stdlib.h>
#include <string.h>
#include "../include/tinyboot.h"

#define CAPACITY 1024

static uint8_t setup[TINYBOOT_SETUP_SIZE], state[TINYBOOT_STATE_SIZE], flash[CAPACITY], meta[TINYBOOT_META_SIZE];

/* At least one byte; a board would wait for it. */
static size_t receive(uint8_t *in, size_t most)
{
    int byte = most == 0 ? EOF : getchar();
    if (byte == EOF) exit(3);
    in[0] = (uint8_t)byte;
    return 1;
}

static void wait_byte_times(uint32_t n)
{
    if (n != 0) printf("wait %u\n", (unsigned)n);
}

static void send_bytes(const uint8_t *reply, size_t len)
{
    printf("send ");
    for (size_t i = 0; i < len; i++) printf("%02X", reply[i]);
    printf("\n");
}

/* From power-on, in this mode, until the app is to be run: 0; or until a call refuses: its number. */
static uint8_t serve(uint8_t mode)
{
    uint8_t in[64], reply[TINYBOOT_REPLY_SIZE], answer[TINYBOOT_ANSWER_SIZE], said;
    size_t n = 0;
    for (;;) {
        said = tinyboot_start(mode, setup, sizeof setup, state, sizeof state, flash, sizeof flash, meta, sizeof meta, answer, sizeof answer);
        if (said >= TINYBOOT_REFUSED) return said;
        if (tinyboot_answer_mode(answer) == TINYBOOT_HANDOFF) return 0; /* run the app */
        do {
            if (n == 0) n = receive(in, sizeof in);
            said = tinyboot_feed(setup, sizeof setup, state, sizeof state, in, n, flash, sizeof flash, meta, sizeof meta,
                                 reply, sizeof reply, answer, sizeof answer);
            if (said >= TINYBOOT_REFUSED) return said;
            n -= tinyboot_answer_taken(answer);
            memmove(in, in + tinyboot_answer_taken(answer), n);
            if (said >= TINYBOOT_REPLY) {
                wait_byte_times(tinyboot_answer_wait(answer));
                send_bytes(reply, tinyboot_answer_length(answer));
            }
        } while (said != TINYBOOT_RESTART);
        mode = tinyboot_answer_mode(answer); /* a restart, in the mode that was asked for */
    }
}

int main(void)
{
    const struct tinyboot_setup numbers = {
        .erase_size = 128, .capacity = CAPACITY, .version = TINYBOOT_PACK_VERSION(1, 1, 0), .key = 0xA1B2C3D4, .start_kind = TINYBOOT_START_PRESENT};
    if (tinyboot_state_size() != sizeof state) return 2; /* another header's archive */
    tinyboot_lay_setup(setup, &numbers);
    memset(flash, 0xFF, sizeof flash);
    memset(meta, 0xFF, sizeof meta);
    uint8_t refused = serve(TINYBOOT_HANDOFF); /* what power-on asks for; with a button held down it would be TINYBOOT_SERVICE */
    printf(refused ? "refused %d\n" : "hand-off\n", refused);
    return refused;
}
