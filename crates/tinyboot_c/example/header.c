/* Whether the inline functions of tinyboot.h lay and read bytes where ../../c_layout/specs/Layout.antt and
 * ../../c_app/specs/App.antt have them: 0, or the number of the first that does not.
 * It calls nothing of the library, and is C99 and C++11. */
#include <string.h>
#include "../include/tinyboot.h"

/* erase size 0x180, capacity 0xC000, an id of three bytes, version 1.2.3, key 0xA1B2C3D4, the careful start */
static const uint8_t laid[TINYBOOT_SETUP_SIZE] = {0x80, 0x01, 0,    0,    0x00, 0xC0, 0, 0, 3, 0x5A, 0x01, 0xC3, 0, 0, 0,   0,
                                                  0,    0,    0,    0,    0,    0,    0, 0, 0, 0x83, 0x08, 0xD4, 0xC3, 0xB2, 0xA1, 1};
/* the same of an app, version 2.3.4 */
static const uint8_t app_laid[TINYBOOT_APP_SETUP_SIZE] = {0x80, 0x01, 0, 0, 0x00, 0xC0, 0, 0, 3, 0x5A, 0x01, 0xC3, 0,    0,    0,    0,   0,
                                                          0,    0,    0, 0, 0,    0,    0, 0, 0x83, 0x08, 0xD4, 0xC3, 0xB2, 0xA1, 0xC4, 0x10};
/* a reply of 14 bytes after 11 byte-times, 0x10203 bytes taken; silence for a Select without a match, 16 bytes taken */
static const uint8_t answer[TINYBOOT_ANSWER_SIZE] = {2, 1, 14, 0, 11, 0, 0, 0, 0x03, 0x02, 0x01, 0, 0, 0, 0, 0};
static const uint8_t silent[TINYBOOT_ANSWER_SIZE] = {1, 1, 0, 0, 0, 5, 0, 0, 16, 0, 0, 0, 0, 0, 0, 0};

int main(void)
{
    uint8_t setup[TINYBOOT_SETUP_SIZE], state[TINYBOOT_STATE_SIZE], meta[TINYBOOT_META_SIZE];
    uint8_t app_setup[TINYBOOT_APP_SETUP_SIZE];
    struct tinyboot_setup numbers;
    struct tinyboot_app_setup app_numbers;
    size_t i;
    memset(&numbers, 0, sizeof numbers);
    numbers.erase_size = 0x180;
    numbers.capacity = 0xC000;
    numbers.id_len = 3;
    numbers.id[0] = 0x5A;
    numbers.id[1] = 0x01;
    numbers.id[2] = 0xC3;
    numbers.version = TINYBOOT_PACK_VERSION(1, 2, 3);
    numbers.key = 0xA1B2C3D4;
    numbers.start_kind = TINYBOOT_START_CAREFUL;
    memset(setup, 0xEE, sizeof setup);
    tinyboot_lay_setup(setup, &numbers);
    if (memcmp(setup, laid, sizeof laid) != 0) return 1;

    if (tinyboot_answer_number(answer) != TINYBOOT_REPLY) return 2;
    if (tinyboot_answer_mode(answer) != TINYBOOT_SERVICE) return 3;
    if (tinyboot_answer_length(answer) != 14) return 4;
    if (tinyboot_answer_wait(answer) != 11) return 5;
    if (tinyboot_answer_taken(answer) != 0x10203) return 6;

    for (i = 0; i < sizeof state; i++) state[i] = (uint8_t)i;
    if (tinyboot_frame_begun(state) != 132) return 7;
    tinyboot_drop_frame(state);
    for (i = 0; i < sizeof state; i++)
        if (state[i] != (i == 132 ? 0 : i)) return 8;

    /* a record while Validating: checksum 0x4DA0, size 70, no baud */
    memset(meta, 0xFF, sizeof meta);
    meta[TINYBOOT_META_AT_STATE] = TINYBOOT_VALIDATING;
    tinyboot_put(meta + TINYBOOT_META_AT_CHECKSUM, 2, 0x4DA0);
    tinyboot_put(meta + TINYBOOT_META_AT_IMAGE_SIZE, 4, 70);
    if (memcmp(meta, "\x3F\xFF\xA0\x4D\x46\x00\x00\x00\xFF\xFF\xFF\xFF", sizeof meta) != 0) return 9;
    if (tinyboot_get(meta + TINYBOOT_META_AT_IMAGE_SIZE, 4) != 70) return 10;

    if (tinyboot_answer_reason(answer) != TINYBOOT_NO_REASON) return 11;
    if (tinyboot_answer_number(silent) != TINYBOOT_SILENT) return 12;
    if (tinyboot_answer_reason(silent) != TINYBOOT_SELECT_WITHOUT_MATCH) return 13;
    if (tinyboot_answer_wait(silent) != 0) return 14;

    memset(&app_numbers, 0, sizeof app_numbers);
    app_numbers.erase_size = 0x180;
    app_numbers.capacity = 0xC000;
    app_numbers.id_len = 3;
    app_numbers.id[0] = 0x5A;
    app_numbers.id[1] = 0x01;
    app_numbers.id[2] = 0xC3;
    app_numbers.version = TINYBOOT_PACK_VERSION(1, 2, 3);
    app_numbers.key = 0xA1B2C3D4;
    app_numbers.app_version = TINYBOOT_PACK_VERSION(2, 3, 4);
    memset(app_setup, 0xEE, sizeof app_setup);
    tinyboot_lay_app_setup(app_setup, &app_numbers);
    if (memcmp(app_setup, app_laid, sizeof app_laid) != 0) return 15;
    return 0;
}
