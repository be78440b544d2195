#include "cases/limits.h"

uint32_t edged_limit(struct chance *c)
{
    static const uint32_t limits[8] = {
        IND_LIMIT_LEAST, IND_LIMIT_LEAST + 1, LIMIT_QUARTER,
        IND_LIMIT_DEFAULT - 1, IND_LIMIT_DEFAULT, IND_LIMIT_DEFAULT + 1,
        IND_LIMIT_MOST - 1, IND_LIMIT_MOST
    };

    return mille(c, 700) ? limits[below(c, 8)]
                         : IND_LIMIT_LEAST + below(c, IND_LIMIT_MOST);
}

uint32_t usual_limit(struct chance *c)
{
    uint32_t x = below(c, 1000);

    if (x < 40)
        return IND_LIMIT_LEAST + below(c, 2);
    if (x < 110)
        return 3 + below(c, 38);
    if (x < 540)
        return 200 + below(c, 2000);
    if (x < 740)
        return LIMIT_QUARTER;
    return x < 970 ? IND_LIMIT_DEFAULT : edged_limit(c);
}

uint32_t exact_limit(struct chance *c)
{
    uint32_t x = below(c, 1000);

    if (x < 160)
        return IND_LIMIT_LEAST + below(c, 2);
    if (x < 600)
        return 3 + below(c, 38);
    if (x < 850)
        return 41 + below(c, 1000);
    if (x < 920)
        return LIMIT_QUARTER + (uint32_t)between(c, -1, 1);
    return x < 955 ? IND_LIMIT_DEFAULT
                   : IND_LIMIT_MOST - (uint32_t)mille(c, 300);
}

uint32_t late_limit(struct chance *c)
{
    uint32_t x = below(c, 1000);

    if (x < 300)
        return 12 + below(c, 16);
    return x < 850 ? 24 + below(c, 60) : usual_limit(c);
}

uint32_t outside_limit(struct chance *c)
{
    static const uint32_t limits[8] = {
        0, 0, IND_LIMIT_MOST + 1, IND_LIMIT_MOST + 1, IND_LIMIT_MOST + 2,
        2 * IND_LIMIT_MOST, 0x80000001, 0xFFFFFFFF
    };

    return mille(c, 800) ? limits[below(c, 8)] : edge_word(c);
}
