/* Numbers: little endian bytes, signs, shifts and counts of zeros. */
#include "parts.h"

/* count is 1, 2 or 4. */
uint32_t ind_get(const uint8_t *bytes, uint32_t count)
{
    uint32_t value = 0;

    for (uint32_t i = 0; i < count; i++)
        value |= (uint32_t)bytes[i] << (8 * i);
    return value;
}

void ind_put(uint8_t *bytes, uint32_t count, uint32_t value)
{
    for (uint32_t i = 0; i < count; i++)
        bytes[i] = (uint8_t)((value >> (8 * i)) & 0xFF);
}

/* The value has no bit at or above `bits`; its top bit is the sign. */
uint32_t ind_sign_extend(uint32_t value, uint32_t bits)
{
    uint32_t sign = (uint32_t)1 << (bits - 1);

    return (value ^ sign) - sign;
}

/* Turning the sign bit over makes the signed order the unsigned one. */
int ind_signed_below(uint32_t a, uint32_t b)
{
    return (a ^ 0x80000000u) < (b ^ 0x80000000u);
}

/* by is below 32. */
uint32_t ind_shift_signed(uint32_t value, uint32_t by)
{
    uint32_t vacated = ~(0xFFFFFFFFu >> by);

    return (value >> by) | ((value >> 31) != 0 ? vacated : 0);
}

uint32_t ind_leading_zeros(uint32_t value)
{
    uint32_t count = 0;

    for (uint32_t bit = 0x80000000u; bit != 0 && (value & bit) == 0; bit >>= 1)
        count++;
    return count;
}

uint32_t ind_trailing_zeros(uint32_t value)
{
    uint32_t count = 0;

    for (uint32_t bit = 1; bit != 0 && (value & bit) == 0; bit <<= 1)
        count++;
    return count;
}

int ind_is_four(uint32_t value)
{
    return value % 4 == 0;
}
