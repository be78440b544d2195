/* null: every choice of pieces is made empty and lent to the device of an
 * archive, once as pointers to no bytes and once as NULL. Both calls must leave
 * the same, which is what the independent device leaves. */
#include <inttypes.h>
#include <stdio.h>

#include "cases/call.h"
#include "cases/kernels/table.h"
#include "cases/words.h"
#include "device/image.h"
#include "device/parts.h"
#include "whole/whole.h"

enum {
    COMMANDS = 8,
    MAKINGS = 3,
    ROW_WORDS = 4,
    STRIDE = WORD * ROW_WORDS,
    SOME = 4 * STRIDE,                /* bytes of memory */
    CHOICES = 1 << (PIECE_REPORT + 1) /* a bit for each piece of a turn */
};

static const struct calls archive = {
    fv_fresh, fv_fresh_with, fv_fresh_edition_2, fv_turn
};

static const enum call_kind makings[MAKINGS] = {
    CALL_FRESH, CALL_FRESH_WITH, CALL_FRESH_EDITION_2
};

static struct call *before, *pointed, *nulled, *wanted;
static uint64_t calls, accepted, different;

/* Some work at the window's start; of an empty window, on no bytes. */
static void put_command(struct piece *ring, uint32_t which, uint32_t window)
{
    const uint32_t words = window == 0 ? 0 : ROW_WORDS;
    const uint32_t row = words | 1u << 16, next = WORD * words;
    const uint32_t flags = FLAG_EMIT | (which == 0 ? FLAG_PAYLOAD : 0);
    const uint32_t commands[COMMANDS][4] = {
        { WRITE_MEM, 0, 0, 0 }, { READ_MEM, 0, 0, 0 },
        { FILL_RECT, 0, row, 0x00C03028 }, { BLIT, next, 0, row },
        { DISPATCH_1D, 1, 1, 0 }, { BARRIER, 0, 0, 0 },
        { COPY_BUFFER, next, 0, 0 }, { SET_FB, 0, STRIDE, 0 }
    };

    piece_add_word(ring, commands[which][0] | flags << 8 | words << 24);
    for (int i = 1; i < 4; i++)
        piece_add_word(ring, commands[which][i]);
    for (uint32_t i = 0; i < words && (flags & FLAG_PAYLOAD) != 0; i++)
        piece_add_word(ring, 0x01010101 * (i + 1));
}

/* Four equal rings, in windows that are empty or the whole memory. The fence
 * that all emit goes round next, and so do counts of commands, by any ring and
 * by outcome 0. */
static void put_device(struct piece *image, uint32_t window)
{
    const struct ind_frame frame = { window != 0, 0, STRIDE, 0 };
    struct ind_device device = {
        .limit = IND_LIMIT_DEFAULT, .edition = IND_EDITION_2
    };

    device.slots[0] = UINT32_MAX;
    for (int i = 0; i < IND_RINGS; i++) {
        device.rings[i].window_length = window;
        device.rings[i].frame = frame;
        device.taken[i] = UINT32_MAX;
        device.outcomes[i] = UINT32_MAX;
    }
    ind_image_encode(&device, image->bytes);
}

/* One kernel: it stores a word in the window, or stops there. */
static void put_kernel(struct piece *pack)
{
    const uint32_t words[] = {
        1, 0, 3, 3, table[ROW_MEMBAR].match, word_s(ROW_SW, 0, 3, 2 * WORD),
        table[ROW_WFI].match
    };

    for (size_t i = 0; i < sizeof words / sizeof words[0]; i++)
        piece_add_word(pack, words[i]);
}

static void start_turn(uint32_t which, uint32_t window)
{
    struct piece *pieces = before->pieces;

    call_start(before, CALL_TURN);
    put_device(&pieces[PIECE_DEVICE], window);
    piece_zeros(&pieces[PIECE_MEMORY], SOME);
    for (int i = 0; i < SOME; i++)
        pieces[PIECE_MEMORY].bytes[i] = (uint8_t)(i + 1);
    for (int i = 0; i < IND_RINGS; i++)
        put_command(&pieces[PIECE_RING + i], which, window);
    put_kernel(&pieces[PIECE_PACK]);
    piece_zeros(&pieces[PIECE_PIPE], IND_PIPE_LEAST);
}

static void start_making(enum call_kind kind)
{
    call_start(before, kind);
    if (kind != CALL_FRESH)
        put_word(before->pieces[PIECE_LIMIT].bytes, IND_LIMIT_MOST);
    if (kind == CALL_FRESH_EDITION_2)
        put_word(before->pieces[PIECE_FIRST].bytes, UINT32_MAX);
}

static void tell(uint32_t empty, const char *how, int piece)
{
    different++;
    printf("%s differs %s; empty are", piece_names[piece], how);
    for (int i = 0; i < PIECES; i++) {
        if ((empty >> i & 1) != 0)
            printf(" %s,", piece_names[i]);
    }
    printf(" answers %" PRIu32 ", as NULL %" PRIu32 ", wanted %" PRIu32 "\n",
           call_answer(pointed), call_answer(nulled), call_answer(wanted));
}

/* Makes these pieces empty, and the call three times. */
static void compare(uint32_t empty)
{
    for (int i = 0; i < PIECES; i++) {
        if ((empty >> i & 1) != 0)
            piece_end(&before->pieces[i], 0);
    }
    call_copy(pointed, before);
    call_copy(wanted, before);
    before->nulls = 1;
    call_copy(nulled, before);
    call_make(pointed, &archive);
    call_make(nulled, &archive);
    call_make(wanted, &independent);
    calls++;
    accepted += call_answer(wanted) == IND_SERVED; /* of a making: made */
    int as_null = call_difference(pointed, nulled);
    int otherwise = call_difference(pointed, wanted);
    if (as_null >= 0)
        tell(empty, "as NULL", as_null);
    else if (otherwise >= 0)
        tell(empty, "from what is wanted", otherwise);
}

static void compare_all(void)
{
    for (uint32_t choice = 0; choice < CHOICES * COMMANDS * 2; choice++) {
        start_turn(choice / 2 % COMMANDS, choice % 2 == 0 ? 0 : SOME);
        compare(choice / 2 / COMMANDS);
    }
    for (uint32_t choice = 0; choice < 4 * MAKINGS; choice++) {
        start_making(makings[choice / 4]);
        compare(choice / 2 % 2 << PIECE_DEVICE | choice % 2 << PIECE_WINDOWS);
    }
}

int main(void)
{
    before = call_new();
    pointed = call_new();
    nulled = call_new();
    wanted = call_new();
    compare_all();
    call_free(before);
    call_free(pointed);
    call_free(nulled);
    call_free(wanted);
    printf("%" PRIu64 " calls with empty pieces, %" PRIu64 " accepted, "
           "%" PRIu64 " differ\n", calls, accepted, different);
    return different != 0 || accepted == 0;
}
