/* The calls of tinyboot_one.h: one device's numbers, which `chip --one` gives as ONE_.., laid as tinyboot.h lays them, and every length with them. Compiled
 * together with the library's module, so that the constants reach its tests. */
#include "tinyboot_one.h"

#define LOW2(n) (n) & 0xFF, (n) >> 8 & 0xFF
#define LOW4(n) LOW2(n), (n) >> 16 & 0xFF, (n) >> 24 & 0xFF

/* A setup, byte by byte: loops over it would hide the constants from the compiler. What stands behind the id counts for nothing. */
#define SETUP \
    {LOW4(ONE_ERASE_SIZE), LOW4(ONE_CAPACITY), ONE_ID_LEN, 0, 0, 0, 0, 0, 0, 0, 0, 0, 0, 0, 0, 0, 0, 0, 0, LOW2(ONE_VERSION), LOW4(ONE_KEY), ONE_START_KIND}

uint8_t tinyboot_one_start(uint8_t mode, const uint8_t *restrict id, uint8_t *restrict state, const uint8_t *restrict flash, uint8_t *restrict meta,
                           uint8_t *restrict answer)
{
    uint8_t setup[TINYBOOT_SETUP_SIZE] = SETUP;
    __builtin_memcpy(setup + 9, id, ONE_ID_LEN ? TINYBOOT_ID_SIZE : 0);
    return tinyboot_start(mode, setup, sizeof setup, state, TINYBOOT_STATE_SIZE, flash, ONE_CAPACITY, meta, TINYBOOT_META_SIZE, answer, TINYBOOT_ANSWER_SIZE);
}

uint8_t tinyboot_one_feed(const uint8_t *restrict id, uint8_t *restrict state, const uint8_t *restrict bytes, size_t bytes_len, uint8_t *restrict flash,
                          uint8_t *restrict meta, uint8_t *restrict reply, uint8_t *restrict answer)
{
    uint8_t setup[TINYBOOT_SETUP_SIZE] = SETUP;
    __builtin_memcpy(setup + 9, id, ONE_ID_LEN ? TINYBOOT_ID_SIZE : 0);
    return tinyboot_feed(setup, sizeof setup, state, TINYBOOT_STATE_SIZE, bytes, bytes_len, flash, ONE_CAPACITY, meta, TINYBOOT_META_SIZE, reply,
                         TINYBOOT_REPLY_SIZE, answer, TINYBOOT_ANSWER_SIZE);
}
