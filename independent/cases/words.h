/* Little endian words in bytes: not the device's own, so that an error in those
 * is told and not shared. */
#ifndef WORDS_H
#define WORDS_H

#include <stdint.h>

void put_word(uint8_t *bytes, uint32_t word);
uint32_t get_word(const uint8_t *bytes);

#endif
