/* Sums and differences of lanes of 8 and of 16 bits, against a model that takes
 * each lane alone. */
#include "selftest/stage.h"

#include <string.h>

/* An instruction: VADD or VSUB. */
struct kind {
    uint32_t bits, subtracts;
};

enum { WORDS = IND_VECTOR_WORDS, KINDS = 4 };

static const struct kind kinds[KINDS] = {{8, 0}, {8, 1}, {16, 0}, {16, 1}};

/* funct6, 0 or 1, is funct7 without its lowest bit. */
static uint32_t word_of(const struct kind *kind, uint32_t rd, uint32_t rs1,
                        uint32_t rs2)
{
    return r_shape(VECTOR, kind->subtracts << 1, kind->bits == 8 ? 2 : 1, rd,
                   rs1, rs2);
}

/* Each lane cut out, worked on, cut to its bits, and put back. */
static uint32_t model(const struct kind *kind, uint32_t a, uint32_t b)
{
    uint32_t all = kind->bits == 8 ? 256 : 65536, result = 0;

    for (uint32_t low = 0; low < 32; low += kind->bits) {
        uint32_t x = (a >> low) % all, y = (b >> low) % all;
        uint32_t lane = (kind->subtracts ? all + x - y : x + y) % all;
        result += lane << low;
    }
    return result;
}

/* Steps count anew: in all there are more than a limit allows. */
static void step(struct ind_thread *thread, uint32_t word)
{
    thread->steps = 0;
    CHECK_EQ(run_word(thread, word), IND_GOES_ON);
}

static void check(struct ind_thread *thread, const struct kind *kind,
                  const uint32_t a[WORDS], const uint32_t b[WORDS])
{
    memcpy(thread->vector[1], a, sizeof thread->vector[1]);
    memcpy(thread->vector[2], b, sizeof thread->vector[2]);
    step(thread, word_of(kind, 3, 1, 2));
    for (uint32_t i = 0; i < WORDS; i++)
        CHECK_EQ(thread->vector[3][i], model(kind, a[i], b[i]));
}

/* Sums and differences of one width. */
static void check_both(struct ind_thread *thread, uint32_t bits,
                       const uint32_t a[WORDS], const uint32_t b[WORDS])
{
    for (uint32_t i = 0; i < KINDS; i++) {
        if (kinds[i].bits == bits)
            check(thread, &kinds[i], a, b);
    }
}

/* A byte in one lane and another in all others. */
static uint32_t among(uint32_t lane, uint32_t byte, uint32_t other)
{
    uint32_t rest = 0x01010101u - (1u << 8 * lane);

    return (byte << 8 * lane) + rest * other;
}

/* Every pair of bytes, in word n of the vectors as lane n. */
static void pairs_of_bytes(struct ind_thread *thread, uint32_t other_a,
                           uint32_t other_b)
{
    uint32_t a[WORDS], b[WORDS];

    for (uint32_t pair = 0; pair < 65536; pair++) {
        for (uint32_t lane = 0; lane < WORDS; lane++) {
            a[lane] = among(lane, pair / 256, other_a);
            b[lane] = among(lane, pair % 256, other_b);
        }
        check_both(thread, 8, a, b);
    }
}

/* Neighbours that carry, that borrow, and in which what comes from below shows:
 * in the top bit, or in all bits. */
static void bytes(struct ind_thread *thread)
{
    static const uint32_t others[] = {0x00, 0xFF, 0x80, 0x7F};

    for (uint32_t i = 0; i < COUNT(others); i++)
        for (uint32_t k = 0; k < COUNT(others); k++)
            pairs_of_bytes(thread, others[i], others[k]);
}

enum { HALVES = 14 };

/* The number's four digits, to the base HALVES, each tell a half; the next
 * words have the next numbers. */
static void four_halves(struct ind_thread *thread, uint32_t number)
{
    static const uint32_t halves[HALVES] = {
        0x0000, 0x0001, 0x0080, 0x00FF, 0x0100, 0x7F80, 0x7FFE, 0x7FFF,
        0x8000, 0x8001, 0x80FF, 0xFF00, 0xFFFE, 0xFFFF
    };
    uint32_t a[WORDS], b[WORDS];

    for (uint32_t i = 0; i < WORDS; i++) {
        uint32_t n = number + i, first = n / (HALVES * HALVES);
        a[i] = halves[first / HALVES % HALVES] << 16 | halves[first % HALVES];
        b[i] = halves[n / HALVES % HALVES] << 16 | halves[n % HALVES];
    }
    check_both(thread, 16, a, b);
}

/* Every choice of these for both halves of both words. */
static void edges_of_halves(struct ind_thread *thread)
{
    for (uint32_t n = 0; n < HALVES * HALVES * HALVES * HALVES; n++)
        four_halves(thread, n);
}

static void random_words(struct ind_thread *thread)
{
    uint64_t state = 1;
    uint32_t drawn[2 * WORDS];

    for (uint32_t n = 0; n < 100000; n++) {
        for (uint32_t i = 0; i < 2 * WORDS; i++) {
            state = state * 6364136223846793005u + 1442695040888963407u;
            drawn[i] = (uint32_t)(state >> 32);
        }
        check_both(thread, 8, drawn, drawn + WORDS);
        check_both(thread, 16, drawn, drawn + WORDS);
    }
}

/* rd may be a source, and both sources may be one. */
static void one_register(struct ind_thread *thread)
{
    static const uint32_t a[WORDS] = {
        0x80FF7F00, 0x7FFF8000, 0xFFFFFFFF, 0x01020304
    };
    static const uint32_t registers[][2] = { /* rd, rs2; rs1 is 1 */
        {3, 1}, {1, 1}, {1, 2}, {2, 2}
    };

    for (uint32_t n = 0; n < KINDS * COUNT(registers); n++) {
        const struct kind *kind = &kinds[n % KINDS];
        uint32_t rd = registers[n / KINDS][0], rs2 = registers[n / KINDS][1];
        uint32_t b = 0x8101807Fu;
        for (uint32_t i = 0; i < WORDS; i++) {
            thread->vector[1][i] = a[i];
            thread->vector[2][i] = b;
        }
        step(thread, word_of(kind, rd, 1, rs2));
        for (uint32_t i = 0; i < WORDS; i++)
            CHECK_EQ(thread->vector[rd][i],
                     model(kind, a[i], rs2 == 1 ? a[i] : b));
    }
}

/* ---- a whole kernel, worked by hand ---- */

/* The vectors at 0 and 16; the answers of `kinds` from 32 on. */
static const uint32_t first_words[2 * WORDS] = {
    0x010000FF, 0x80FF7F00, 0xFFFFFFFF, 0x00010000,
    0x01000001, 0x80010101, 0x01010101, 0x01000001
};

static const uint32_t want[KINDS][WORDS] = {
    {0x02000000, 0x00008001, 0x00000000, 0x01010001},
    {0x000000FE, 0x00FE7EFF, 0xFEFEFEFE, 0xFF0100FF},
    {0x02000100, 0x01008001, 0x01000100, 0x01010001},
    {0x000000FE, 0x00FE7DFF, 0xFEFEFEFE, 0xFF01FFFF}
};

static void whole_kernel(void)
{
    uint32_t words[4 + 3 * KINDS] = {
        r_shape(VLD, 0, 0, 1, 0, 0), i_shape(INT_IMM, 0, 5, 0, 16),
        r_shape(VLD, 0, 0, 2, 5, 0)
    };
    uint32_t number = 3;
    struct stage *stage = stage_new(4 * WORDS * (2 + KINDS));

    for (uint32_t i = 0; i < KINDS; i++) {
        words[number++] = word_of(&kinds[i], 3, 1, 2);
        words[number++] = i_shape(INT_IMM, 0, 5, 5, 16);
        words[number++] = r_shape(VST, 0, 0, 0, 5, 3);
    }
    words[number++] = WFI;
    for (uint32_t i = 0; i < 2 * WORDS; i++)
        put_word(stage->memory + 4 * i, first_words[i]);
    pack_one(stage, words, number);
    CHECK_EQ(serve(stage, head(0x20, 0, 0, 0), 1, 1, 0), 0);
    for (uint32_t i = 0; i < KINDS * WORDS; i++)
        CHECK_EQ(get_word(stage->memory + 32 + 4 * i),
                 want[i / WORDS][i % WORDS]);
    stage_free(stage);
}

void test_lanes(void)
{
    struct ind_thread thread;

    ind_thread_start(&thread, 0, 0, 1, 1);
    whole_kernel();
    one_register(&thread);
    bytes(&thread);
    edges_of_halves(&thread);
    random_words(&thread);
}
