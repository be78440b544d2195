#include "cases/words.h"

void put_word(uint8_t *bytes, uint32_t word)
{
    for (uint32_t i = 0; i < 4; i++)
        bytes[i] = (uint8_t)(word >> (8 * i));
}

uint32_t get_word(const uint8_t *bytes)
{
    return bytes[0] | (uint32_t)bytes[1] << 8 | (uint32_t)bytes[2] << 16
        | (uint32_t)bytes[3] << 24;
}
