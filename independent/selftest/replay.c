/* The replay job: the whole case's lines, and each number it refuses with. */
#include "selftest/stage.h"

#include <stdio.h>
#include <string.h>

#include "device/job.h"

struct input {
    uint8_t bytes[IND_INPUT_MOST + 1];
    size_t length;
};

static void add(struct input *input, uint32_t word)
{
    CHECK(input->length + 4 <= sizeof input->bytes);
    put_word(input->bytes + input->length, word);
    input->length += 4;
}

static void add_zeros(struct input *input, uint32_t words)
{
    for (uint32_t i = 0; i < words; i++)
        add(input, 0);
}

/* The job's lines are just these. */
static void replays_as(const struct input *input, const char *want)
{
    char got[4096];
    FILE *in = tmpfile(), *out = tmpfile();

    CHECK(in != NULL && out != NULL);
    CHECK_EQ(fwrite(input->bytes, 1, input->length, in), input->length);
    rewind(in);
    CHECK_EQ(ind_replay(in, out), 0);
    rewind(out);
    size_t length = fread(got, 1, sizeof got - 1, out);
    got[length] = '\0';
    if (strcmp(got, want) != 0)
        fprintf(stderr, "lines:\n%swanted:\n%s", got, want);
    CHECK_EQ(strcmp(got, want), 0);
    fclose(in);
    fclose(out);
}

static void add_windows(struct input *input, uint32_t start, uint32_t length)
{
    add(input, IND_RINGS);
    for (uint32_t i = 0; i < IND_RINGS; i++) {
        add(input, start);
        add(input, length);
    }
}

static struct input whole_case(void)
{
    struct input input = {{0}, 0};

    add_windows(&input, 0, 16);
    add(&input, 16);
    add(&input, 0x00030222);
    add_zeros(&input, 3);
    add(&input, 20);
    add(&input, 0x00030422);
    add_zeros(&input, 3);
    add(&input, 1);
    add_zeros(&input, 4);
    add(&input, 4);
    add_zeros(&input, 4);
    CHECK_EQ(input.length, 116);
    return input;
}

/* Where each section of the whole case starts; cut there or inside: refused
 * with its number. */
static void too_short(void)
{
    const size_t end[] = {36, 56, 80, 84, 88, 92, 96, 116};
    struct input input = whole_case();
    uint32_t section = 1;
    char want[32];

    for (size_t length = 0; length < 116; length++) {
        if (length == end[section - 1])
            section++;
        snprintf(want, sizeof want, "refused %u\n", (unsigned)section);
        input.length = length;
        replays_as(&input, want);
    }
    input.length = 117;
    replays_as(&input, "refused 9\n");
    input.length = IND_INPUT_MOST;
    replays_as(&input, "refused 9\n");
    input.length = IND_INPUT_MOST + 1;
    replays_as(&input, "refused 0\n");
}

static void replay_word_changed(size_t at, uint32_t word, const char *want)
{
    struct input input = whole_case();

    put_word(input.bytes + at, word);
    replays_as(&input, want);
}

static void faulty_sections(void)
{
    replay_word_changed(0, 3, "refused 1\n");
    replay_word_changed(0, 5, "refused 1\n");
    replay_word_changed(36, 0xFFFFFFFF, "refused 2\n");
    replay_word_changed(56, 0xFFFFFFFF, "refused 3\n");
    replay_word_changed(80, 0xFFFFFFFF, "refused 4\n");
    replay_word_changed(84, 0xFFFFFFFF, "refused 5\n");
    replay_word_changed(88, IND_KERNELS_MOST + 1, "refused 6\n");
    replay_word_changed(92, 0xFFFFFFFF, "refused 7\n");
    replay_word_changed(96, IND_JOB_WORDS_MOST + 1, "refused 8\n");
    replay_word_changed(96, 3, "refused 9\n");
    replay_word_changed(4, 2, "refused 101\n");
    replay_word_changed(8, 20, "refused 101\n");
    replay_word_changed(28, 4, "refused 101\n");
    replay_word_changed(32, 14, "refused 101\n");
}

/* No commands, one kernel (first, words), a WFI for code, `words` of memory. */
static struct input one_kernel(uint32_t first, uint32_t count, uint32_t words)
{
    struct input input = {{0}, 0};

    add_windows(&input, 0, 4);
    add_zeros(&input, 4);
    add(&input, 1);
    add(&input, first);
    add(&input, count);
    add(&input, 1);
    add(&input, WFI);
    add(&input, words);
    add_zeros(&input, words);
    return input;
}

static void kernels_and_memory(void)
{
    const uint32_t most = IND_JOB_WORDS_MOST;
    struct input good = one_kernel(0, 1, most);
    struct input no_words = one_kernel(5, 0, most + 1);
    struct input outside = one_kernel(1, 1, most + 1);
    struct input wrapped = one_kernel(0xFFFFFFFF, 1, 1);
    struct input much = one_kernel(0, 1, most + 1);
    struct input none = one_kernel(0, 1, 0);

    replays_as(&good, "idle 0\n");
    replays_as(&no_words, "refused 6\n");
    replays_as(&outside, "refused 7\n");
    replays_as(&wrapped, "refused 7\n");
    replays_as(&much, "refused 8\n");
    replays_as(&none, "refused 101\n");
}

/* A kernel's store, read back, with a failed command between. */
static void work_is_replayed(void)
{
    const uint32_t commands[] = {
        0x00010220, 1, 1, 0, /* dispatch, emitting in slot 1 */
        0x02010302, 0, 0, 0, /* two words are read, IRQ and emit */
        0x05010202, 0, 0, 0  /* five words are too many for 16 bytes */
    };
    const uint32_t rest[] = {
        0, 0, 0, 1, 0, 2, 2, s_shape(2, 0, 3, 0), WFI, 4, 0, 0, 0, 0
    };
    struct input input = {{0}, 0};

    add_windows(&input, 0, 16);
    add(&input, sizeof commands);
    for (size_t i = 0; i < sizeof commands / 4; i++)
        add(&input, commands[i]);
    for (size_t i = 0; i < sizeof rest / 4; i++)
        add(&input, rest[i]);
    replays_as(&input, "1 0 0 1 0\n2 0 0 2 2\n3 0 8 3 0\nidle 3\n");
}

/* A job names no limit: a WFI that is step 16,384 ends, a step later it is
 * outcome 14. */
static void limit_of_a_job(void)
{
    for (uint32_t later = 0; later < 2; later++) {
        const uint32_t rest[] = {
            0, 0, 0, 1, 0, 7, 7,
            2u << 12 | 5 << 7 | LUI,        /* s5 = 8192: step 1 */
            i_shape(INT_IMM, 0, 5, 5, -2),  /* 8190 rounds of two steps */
            i_shape(INT_IMM, 0, 5, 5, -1),
            b_shape(1, 5, 0, -4),           /* ends as step 16382 */
            MEMBAR, later == 0 ? WFI : MEMBAR, WFI, 0
        };
        struct input input = {{0}, 0};
        add_windows(&input, 0, 0);
        add(&input, 16);
        add(&input, 0x20);
        add(&input, 1);
        add(&input, 1);
        add(&input, 0);
        for (size_t i = 0; i < sizeof rest / 4; i++)
            add(&input, rest[i]);
        replays_as(&input, later == 0 ? "1 0 0 0 0\nidle 1\n"
                                      : "1 0 14 0 0\nidle 1\n");
    }
}

void test_replay(void)
{
    struct input whole = whole_case();

    replays_as(&whole, "1 0 0 1 0\n2 1 0 0 0\nidle 2\n");
    too_short();
    faulty_sections();
    kernels_and_memory();
    work_is_replayed();
    limit_of_a_job();
}
