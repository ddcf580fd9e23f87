/* One device, for a small controller: `crates/tinyboot_c/chip --one NUMBERS TARGET` makes an archive in which the setup and all lengths but that of the bytes
 * are constants, so that the tests of them cost nothing. It has these two calls and no others; they are those of tinyboot.h, called with these constants
 * (../chips/one.c), and what that header says of them holds here too. The buffers have the header's sizes, and the flash the capacity.
 */
#ifndef TINYBOOT_ONE_H
#define TINYBOOT_ONE_H

#include "tinyboot.h"

#ifdef __cplusplus
extern "C" {
#endif

/* tinyboot_start. `id` has TINYBOOT_ID_SIZE bytes, of which as many count as the setup's id length says; where that is 0 none is read. */
uint8_t tinyboot_one_start(uint8_t mode, const uint8_t *id, uint8_t *state, const uint8_t *flash, uint8_t *meta, uint8_t *answer);

/* tinyboot_feed. */
uint8_t tinyboot_one_feed(const uint8_t *id, uint8_t *state, const uint8_t *bytes, size_t bytes_len, uint8_t *flash, uint8_t *meta, uint8_t *reply,
                          uint8_t *answer);

#ifdef __cplusplus
}
#endif

#endif
