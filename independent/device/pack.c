/* The kernel pack: count K, K pairs (first word, words), count N, N words. */
#include "parts.h"

/* Where a kernel's pair stands. */
static size_t pair_at(uint32_t number)
{
    return 4 + (size_t)8 * number;
}

static uint32_t kernels_fault(const uint8_t *bytes, size_t length)
{
    if (length < 4)
        return IND_PACK_KERNELS;
    uint32_t kernels = ind_get(bytes, 4);
    if (kernels > IND_KERNELS_MOST || length < pair_at(kernels))
        return IND_PACK_KERNELS;
    for (uint32_t i = 0; i < kernels; i++) {
        if (ind_get(bytes + pair_at(i) + 4, 4) == 0)
            return IND_PACK_KERNELS;
    }
    return IND_PACK_SOUND;
}

uint32_t ind_pack_scan(const uint8_t *bytes, size_t length, size_t *used)
{
    uint32_t fault = kernels_fault(bytes, length);

    if (fault != IND_PACK_SOUND)
        return fault;
    uint32_t kernels = ind_get(bytes, 4);
    size_t count_at = pair_at(kernels);
    if (length - count_at < 4)
        return IND_PACK_CODE;
    uint32_t words = ind_get(bytes + count_at, 4);
    if (words > IND_CODE_MOST || (length - count_at - 4) / 4 < words)
        return IND_PACK_CODE;
    for (uint32_t i = 0; i < kernels; i++) {
        uint64_t first = ind_get(bytes + pair_at(i), 4);
        if (first + ind_get(bytes + pair_at(i) + 4, 4) > words)
            return IND_PACK_CODE;
    }
    *used = count_at + 4 + (size_t)4 * words;
    return IND_PACK_SOUND;
}

int ind_pack_faulty(const uint8_t *pack, size_t pack_len)
{
    size_t used = 0;

    return ind_pack_scan(pack, pack_len, &used) != IND_PACK_SOUND
        || used != pack_len;
}

int ind_kernel_extent(const uint8_t *pack, size_t pack_len, uint32_t number,
                      struct ind_kernel *kernel)
{
    if (ind_pack_faulty(pack, pack_len) || number >= ind_get(pack, 4))
        return 0;
    size_t code_at = pair_at(ind_get(pack, 4)) + 4;
    kernel->first = ind_get(pack + pair_at(number), 4);
    kernel->words = ind_get(pack + pair_at(number) + 4, 4);
    kernel->code = pack + code_at + (size_t)4 * kernel->first;
    return 1;
}
