/* Fioravispa for programs in C: the device's four calls, names for its numbers,
 * and small helpers that spell commands and read answers. docs/DEVICE.md is the
 * manual.
 *
 * The device keeps nothing between calls: its state is an image of bytes that
 * the caller keeps. Everything else is lent for one call. All numbers in bytes
 * are little endian. Link with target/staticlib/libcapi.a, which bin/archive builds
 * (x86-64). */
#ifndef FIORAVISPA_H
#define FIORAVISPA_H

#include <stddef.h>
#include <stdint.h>

#ifdef __cplusplus
extern "C" {
#endif

/* ---- sizes ---- */

enum {
    FV_RINGS = 4,
    FV_SLOTS = 64,
    FV_OUTCOMES = 15,             /* 0 to 14 */
    FV_IMAGE_BYTES = 456,         /* 114 words: seven for each ring, slots, marker, limit, counts, edition */
    FV_IMAGE_RING_WORDS = 7,      /* window start, window length, cursor, frame held, base, stride, format */
    FV_IMAGE_SLOTS_WORD = 28,     /* where the slots start */
    FV_IMAGE_MARKER_WORD = 92,
    FV_IMAGE_LIMIT_WORD = 93,
    FV_IMAGE_COMMANDS_WORD = 94,  /* commands taken, a word for each ring */
    FV_IMAGE_OUTCOMES_WORD = 98,  /* commands by outcome, a word for each */
    FV_IMAGE_EDITION_WORD = 113,
    FV_REPORT_BYTES = 44,         /* 11 words */
    FV_WINDOWS_BYTES = 32,        /* four pairs: start, length */
    FV_MEMORY_MOST = 1048576,
    FV_RING_MOST = 65536,
    FV_PIPE_LEAST = 1020,         /* the 255 words that one READ_MEM can give */
    FV_HEADER_BYTES = 16,
    FV_COMMAND_MOST = 1040,       /* header, target and 255 words of payload */
    FV_LEN_MOST = 255,
    FV_SIDE_MOST = 65535,         /* width and height */
    FV_STRIDE_LEAST = 4,
    FV_STRIDE_MOST = 65536,
    FV_GROUPS_MOST = 64,
    FV_THREADS_MOST = 64,         /* in one group */
    FV_LIMIT_LEAST = 1,           /* steps that a thread may take, a number of the device */
    FV_LIMIT_MOST = 65536,
    FV_LIMIT_DEFAULT = 16384,     /* where none is named */
    FV_KERNELS_MOST = 16,
    FV_CODE_MOST = 16384,         /* words */
    FV_PACK_LEAST = 8,            /* two counts of 0: no kernel */
    FV_PACK_MOST = 65672          /* two counts, 16 pairs and 16,384 words */
};

#define FV_SLOT_FULL 4294967295u  /* a slot that holds this takes no emit in edition 1; in edition 2 an emit leaves 0 */
#define FV_MET_BELOW 2147483648u  /* edition 2: a wait is met if slot - target, modulo 2^32, is below this */

/* The protocol's edition, chosen when a device is made. The editions differ in their
 * slots alone: in edition 1 numbers end at FV_SLOT_FULL, in edition 2 they go round to
 * 0; and a wait is met by another rule (fv_is_met). */
enum {
    FV_EDITION_1 = 1,
    FV_EDITION_2 = 2
};

/* ---- what a call answers ---- */

enum {
    FV_MADE = 0,                  /* fv_fresh, fv_fresh_with, fv_fresh_edition_2: the device is made */
    FV_SERVED = 0,                /* fv_turn: one command was taken; the report tells of it */
    FV_IDLE = 1,                  /* fv_turn: no ring is ready; image, memory and pipe are as they were */

    /* The whole call is refused, for the first of these that applies. After fv_turn
     * image, memory and pipe are as they were. fv_fresh can give 101 alone, and
     * fv_fresh_with and fv_fresh_edition_2 also 102 for their limit; with either number
     * they write a fresh device of four empty windows at 0 whose limit is
     * FV_LIMIT_DEFAULT, of edition 1 with slots of 0. */
    FV_REFUSED_MEMORY = 101,      /* memory too long, or a window outside it or not in multiples of 4 */
    FV_REFUSED_STATE = 102,       /* marker above 3, limit outside FV_LIMIT_LEAST to FV_LIMIT_MOST, cursor above
                                   * FV_RING_MOST, a held frame SET_FB would refuse, or counts of commands and
                                   * of outcomes whose sums differ modulo 4,294,967,296 */
    FV_REFUSED_RINGS = 103,       /* a ring too long or shorter than its cursor */
    FV_REFUSED_PIPE = 104,        /* pipe under FV_PIPE_LEAST */
    FV_REFUSED_PACK = 105,        /* faulty pack */

    /* A piece of the wrong length: nothing is written, the report neither. */
    FV_WRONG_IMAGE = 201,         /* not FV_IMAGE_BYTES */
    FV_WRONG_REPORT = 202,        /* not FV_REPORT_BYTES */
    FV_WRONG_WINDOWS = 203        /* not FV_WINDOWS_BYTES */
};

/* ---- what became of a served command ----
 * The cursor moves past it in any case. Of 1 to 10 the smallest that applies is
 * given; they change no memory, pipe or frame. 11 to 14 keep the stores made before
 * the stop and end the whole dispatch; the report tells which thread stopped, at which
 * place, and of 13 the address. */

enum {
    FV_OUTCOME_DONE = 0,
    FV_OUTCOME_OPCODE = 1,        /* opcode none of the eight below */
    FV_OUTCOME_FLAGS = 2,         /* a reserved flag is set */
    FV_OUTCOME_PAYLOAD = 3,       /* WRITE_MEM without the payload flag, or another command with it */
    FV_OUTCOME_SLOT = 4,          /* emit or wait set and rdst above 63 */
    FV_OUTCOME_FULL = 5,          /* edition 1: emit set and the slot holds FV_SLOT_FULL; never in edition 2 */
    FV_OUTCOME_UNALIGNED = 6,     /* an address, or SET_FB's base or stride, not a multiple of 4 */
    FV_OUTCOME_FRAME = 7,         /* FILL or BLIT with no frame; or, width and height nonzero,
                                   * 4 * width above the stride */
    FV_OUTCOME_OUTSIDE = 8,       /* bytes outside the window, or SET_FB base not below its length */
    FV_OUTCOME_FORMAT = 9,        /* stride outside 4 to 65,536, or format not 0 */
    FV_OUTCOME_DISPATCH = 10,     /* groups or threads outside 1 to 64, or no such kernel */
    FV_OUTCOME_INSTRUCTION = 11,  /* a word that is no instruction; docs/DEVICE.md lists them */
    FV_OUTCOME_PLACE = 12,        /* taken branch to a place that is not a multiple of 4 inside the kernel;
                                   * or running off its end */
    FV_OUTCOME_ACCESS = 13,       /* load or store not wholly in the window */
    FV_OUTCOME_STEPS = 14         /* thread already took as many steps as the device's limit */
};

/* ---- commands ---- */

enum {
    FV_WRITE_MEM = 0x01,          /* payload to arg0 */
    FV_READ_MEM = 0x02,           /* len words from arg0 to the pipe's front */
    FV_FILL_RECT = 0x10,          /* arg0 dst, arg1 size: width + 65,536 * height, arg2 color */
    FV_BLIT = 0x11,               /* arg0 dst, arg1 src, arg2 size */
    FV_DISPATCH_1D = 0x20,        /* arg0 groups, arg1 threads in a group, arg2 kernel */
    FV_BARRIER = 0x22,            /* nothing: each command ends in its turn */
    FV_COPY_BUFFER = 0x23,        /* arg0 dst, arg1 src, len words */
    FV_SET_FB = 0x30              /* arg0 base, arg1 stride, arg2 format */
};

/* An emit adds 1 to slot rdst after the work, with outcome 0 or 6 to 14: a command
 * that fails with 6 to 14 still signals, one that fails with 1 to 5 does not.
 * A wait keeps its ring from being ready until slot rdst meets the target: in
 * edition 1 if it holds at least the target, in edition 2 if it is less than
 * FV_MET_BELOW past it, modulo 2^32 (fv_is_met). A command with a faulty header
 * (outcome 1 to 4) does not wait. */
enum {
    FV_FLAG_IRQ = 1,              /* the report tells it, unless the outcome is 1 to 4 */
    FV_FLAG_EMIT = 2,
    FV_FLAG_WAIT = 4,             /* one word, the target, follows the header */
    FV_FLAG_PAYLOAD = 8           /* len words follow the header and the target */
};

/* ---- the calls ----
 * Each piece is a pointer and its length in bytes. A piece of length 0 may be NULL.
 * No byte of it is read or written, so a ring that is not used can stay {0}. A piece
 * that a call changes may overlap no other. */

/* Puts a fresh device of edition 1 into an image: slots, cursors, marker and counts 0,
 * frames unset, the limit FV_LIMIT_DEFAULT.
 *   image          FV_IMAGE_BYTES; what it held does not matter
 *   windows        FV_WINDOWS_BYTES: start and length for each ring, in multiples of 4
 *   memory_length  of the memory that the turns will lend
 * Gives FV_MADE; or FV_REFUSED_MEMORY, with a fresh device of four empty windows;
 * or FV_WRONG_IMAGE, FV_WRONG_WINDOWS. */
uint32_t fv_fresh(uint8_t *image, size_t image_length, const uint8_t *windows, size_t windows_length,
                  uint64_t memory_length);

/* The same with a limit that is named, of edition 1 too.
 *   limit          the steps that a thread of a kernel may take, FV_LIMIT_LEAST to FV_LIMIT_MOST
 * The device keeps it: no turn changes it. Gives what fv_fresh gives; and, where that
 * would be FV_MADE, FV_REFUSED_STATE for a limit outside these. With either refusal
 * comes the device that fv_fresh gives with FV_REFUSED_MEMORY, whatever limit was
 * named. */
uint32_t fv_fresh_with(uint8_t *image, size_t image_length, const uint8_t *windows, size_t windows_length,
                       uint64_t memory_length, uint32_t limit);

/* The same as fv_fresh_with, but of edition 2: the number that all slots start with is
 * named too.
 *   first          what each of the FV_SLOTS slots holds at first; any number
 * The device keeps its edition: no turn changes it. Gives what fv_fresh_with gives, and
 * with a refusal the same device, which is of edition 1 with slots of 0. */
uint32_t fv_fresh_edition_2(uint8_t *image, size_t image_length, const uint8_t *windows, size_t windows_length,
                            uint64_t memory_length, uint32_t limit, uint32_t first);

/* One turn: the first ready ring from the marker upward has its command taken.
 *   image    the device; only a served turn changes it
 *   memory   the video memory, at most FV_MEMORY_MOST; only the served ring's window can change
 *   ring0..  command bytes from each ring's start, at most FV_RING_MOST; the image holds the cursors
 *   pack     the kernels; see fv_put_pack
 *   pipe     at least FV_PIPE_LEAST; READ_MEM puts words at its front
 *   report   FV_REPORT_BYTES; see fv_read_report
 * Gives the report's first word; or FV_WRONG_IMAGE, FV_WRONG_REPORT. */
typedef uint32_t fv_turn_function(uint8_t *image, size_t image_length, uint8_t *memory, size_t memory_length,
                                  const uint8_t *ring0, size_t ring0_length, const uint8_t *ring1,
                                  size_t ring1_length, const uint8_t *ring2, size_t ring2_length,
                                  const uint8_t *ring3, size_t ring3_length, const uint8_t *pack,
                                  size_t pack_length, uint8_t *pipe, size_t pipe_length, uint8_t *report,
                                  size_t report_length);
fv_turn_function fv_turn;

#ifdef __cplusplus
}
#endif

/* ---- words ---- */

static inline void fv_put_word(uint8_t *bytes, uint32_t word)
{
    bytes[0] = (uint8_t)word;
    bytes[1] = (uint8_t)(word >> 8);
    bytes[2] = (uint8_t)(word >> 16);
    bytes[3] = (uint8_t)(word >> 24);
}

/* Word k of some bytes. */
static inline uint32_t fv_word(const uint8_t *bytes, size_t k)
{
    const uint8_t *at = bytes + 4 * k;
    return at[0] | (uint32_t)at[1] << 8 | (uint32_t)at[2] << 16 | (uint32_t)at[3] << 24;
}

static inline uint8_t *fv_put_words(uint8_t *bytes, const uint32_t *words, size_t count)
{
    for (size_t i = 0; i < count; i++)
        fv_put_word(bytes + 4 * i, words[i]);
    return bytes + 4 * count;
}

/* ---- windows ---- */

struct fv_window {
    uint32_t start, length;
};

static inline void fv_put_windows(uint8_t *bytes, const struct fv_window windows[FV_RINGS])
{
    for (size_t q = 0; q < FV_RINGS; q++) {
        fv_put_word(bytes + 8 * q, windows[q].start);
        fv_put_word(bytes + 8 * q + 4, windows[q].length);
    }
}

/* ---- the image ---- */

/* The number that slot k holds, k below FV_SLOTS. */
static inline uint32_t fv_image_slot(const uint8_t *image, uint32_t k)
{
    return fv_word(image, FV_IMAGE_SLOTS_WORD + k);
}

/* How many bytes of ring q have been taken, q below FV_RINGS. */
static inline uint32_t fv_image_cursor(const uint8_t *image, uint32_t q)
{
    return fv_word(image, FV_IMAGE_RING_WORDS * q + 2);
}

static inline struct fv_window fv_image_window(const uint8_t *image, uint32_t q)
{
    struct fv_window window = {fv_word(image, FV_IMAGE_RING_WORDS * q), fv_word(image, FV_IMAGE_RING_WORDS * q + 1)};
    return window;
}

/* The ring that the next turn looks at first. */
static inline uint32_t fv_image_marker(const uint8_t *image)
{
    return fv_word(image, FV_IMAGE_MARKER_WORD);
}

/* The steps that a thread of a kernel may take. */
static inline uint32_t fv_image_limit(const uint8_t *image)
{
    return fv_word(image, FV_IMAGE_LIMIT_WORD);
}

/* How many commands of ring q have been taken, q below FV_RINGS. From 4,294,967,295 it
 * goes round to 0. */
static inline uint32_t fv_image_commands(const uint8_t *image, uint32_t q)
{
    return fv_word(image, FV_IMAGE_COMMANDS_WORD + q);
}

/* How many commands, of all rings, had this outcome, which is below FV_OUTCOMES. It goes
 * round in the same way. */
static inline uint32_t fv_image_outcomes(const uint8_t *image, uint32_t outcome)
{
    return fv_word(image, FV_IMAGE_OUTCOMES_WORD + outcome);
}

/* FV_EDITION_1 or FV_EDITION_2: any word but 2 stands for edition 1. */
static inline uint32_t fv_image_edition(const uint8_t *image)
{
    return fv_word(image, FV_IMAGE_EDITION_WORD) == FV_EDITION_2 ? FV_EDITION_2 : FV_EDITION_1;
}

/* 1 if a slot that holds this number meets the target, else 0. The edition is
 * FV_EDITION_2, or any other number for edition 1: see fv_image_edition. */
static inline int fv_is_met(uint32_t edition, uint32_t slot, uint32_t target)
{
    return edition == FV_EDITION_2 ? (uint32_t)(slot - target) < FV_MET_BELOW : slot >= target;
}

struct fv_frame {
    uint32_t held;                /* 0: the ring has no frame */
    uint32_t base, stride, format;
};

static inline struct fv_frame fv_image_frame(const uint8_t *image, uint32_t q)
{
    size_t k = FV_IMAGE_RING_WORDS * q + 3;
    struct fv_frame frame = {fv_word(image, k), fv_word(image, k + 1), fv_word(image, k + 2), fv_word(image, k + 3)};
    return frame;
}

/* ---- the report ---- */

struct fv_report {
    uint32_t status;              /* FV_SERVED, FV_IDLE or a refusal; with the latter two all else is 0 */
    uint32_t ring;                /* whose command was taken */
    uint32_t outcome;
    uint32_t fence;               /* what an emit left in its slot, in edition 2 perhaps 0; else 0: ask emitted */
    uint32_t words_read;          /* len of a READ_MEM with outcome 0, else 0 */
    uint32_t irq;                 /* 1 or 0 */
    uint32_t emitted;             /* 1 if the command emitted a fence, else 0, in both editions */

    /* Which thread stopped a dispatch, with outcome 11 to 14; else all four are 0. */
    uint32_t address;             /* 13: the first address that is not inside the window: the access's own, or the
                                   * window's length if it begins inside; 11, 12, 14: 0 */
    uint32_t place;               /* where the thread stood, in bytes from its kernel's start: at the word, branch,
                                   * load or store that was not done (14: the step not taken); past the last word
                                   * the kernel's length */
    uint32_t group;               /* the thread's group, from 0, */
    uint32_t thread;              /* and its number in it, from 0 */
};

static inline struct fv_report fv_read_report(const uint8_t *bytes)
{
    struct fv_report report = {fv_word(bytes, 0), fv_word(bytes, 1), fv_word(bytes, 2),
                               fv_word(bytes, 3), fv_word(bytes, 4), fv_word(bytes, 5),
                               fv_word(bytes, 6), fv_word(bytes, 7), fv_word(bytes, 8),
                               fv_word(bytes, 9), fv_word(bytes, 10)};
    return report;
}

/* ---- the kernel pack ----
 * Count K, K pairs (first word, words), count N, N code words, nothing after. It is
 * faulty with more than FV_KERNELS_MOST or FV_CODE_MOST, or with a kernel that has no
 * word or does not lie in the code. */

struct fv_kernel {
    const uint32_t *words;
    uint32_t count;
};

static inline size_t fv_pack_bytes(const struct fv_kernel *kernels, uint32_t count)
{
    size_t bytes = FV_PACK_LEAST + 8 * (size_t)count;
    for (uint32_t i = 0; i < count; i++)
        bytes += 4 * (size_t)kernels[i].count;
    return bytes;
}

/* Puts the kernels one after another, each with its place in the row as its number;
 * `kernels` may be NULL if there are none. Gives the pack's length, or 0 and puts
 * nothing if there is no room. */
static inline size_t fv_put_pack(uint8_t *bytes, size_t room, const struct fv_kernel *kernels, uint32_t count)
{
    uint8_t *at = bytes;
    uint32_t first = 0;

    if (room < fv_pack_bytes(kernels, count))
        return 0;
    at = fv_put_words(at, &count, 1);
    for (uint32_t i = 0; i < count; i++) {
        at = fv_put_words(at, &first, 1);
        at = fv_put_words(at, &kernels[i].count, 1);
        first += kernels[i].count;
    }
    at = fv_put_words(at, &first, 1);
    for (uint32_t i = 0; i < count; i++)
        at = fv_put_words(at, kernels[i].words, kernels[i].count);
    return (size_t)(at - bytes);
}

/* ---- command bytes ---- */

/* A ring that is being written: `length` bytes of commands stand at `bytes`. The
 * device goes over them once; more may be appended between turns. A ring of {0} is
 * empty and has no room. */
struct fv_ring {
    uint8_t *bytes;
    size_t length, room;
};

/* A ring does not wrap: once its commands are taken, this takes ring q back to its
 * start, empty. Its count of commands goes on. */
static inline void fv_restart(struct fv_ring *ring, uint8_t *image, uint32_t q)
{
    ring->length = 0;
    fv_put_word(image + 4 * (FV_IMAGE_RING_WORDS * q + 2), 0);
}

/* One command, field by field: a sound one or, in a test, a faulty one. */
struct fv_command {
    uint32_t opcode, flags, rdst; /* each at most 255 */
    size_t len;                   /* at most FV_LEN_MOST */
    uint32_t arg0, arg1, arg2;
    uint32_t target;              /* with FV_FLAG_WAIT */
    const uint32_t *payload;      /* with FV_FLAG_PAYLOAD: len words */
};

static inline size_t fv_command_bytes(const struct fv_command *command)
{
    return FV_HEADER_BYTES + (command->flags & FV_FLAG_WAIT ? 4u : 0u)
           + (command->flags & FV_FLAG_PAYLOAD ? 4 * command->len : 0);
}

/* Gives 1; or 0 and appends nothing if there is no room or a field does not fit. */
static inline int fv_append(struct fv_ring *ring, const struct fv_command *command)
{
    size_t size = fv_command_bytes(command);
    uint8_t *at;
    const uint32_t header[4] = {command->opcode | command->flags << 8 | command->rdst << 16
                                    | (uint32_t)command->len << 24,
                                command->arg0, command->arg1, command->arg2};

    if ((command->opcode | command->flags | command->rdst | command->len) > 255)
        return 0;
    if (ring->room < ring->length || ring->room - ring->length < size)
        return 0;
    at = fv_put_words(ring->bytes + ring->length, header, 4);
    if (command->flags & FV_FLAG_WAIT)
        at = fv_put_words(at, &command->target, 1);
    if (command->flags & FV_FLAG_PAYLOAD)
        fv_put_words(at, command->payload, command->len);
    ring->length += size;
    return 1;
}

/* What a command does besides its work, in either edition: the device's edition decides
 * when a target is met, and whether a slot takes an emit at FV_SLOT_FULL. One slot serves
 * both wait and emit. */
struct fv_sync {
    uint32_t flags;               /* FV_FLAG_IRQ, FV_FLAG_EMIT, FV_FLAG_WAIT */
    uint32_t rdst;                /* the slot */
    uint32_t target;              /* the number to wait for */
};

static inline struct fv_sync fv_none(void)
{
    struct fv_sync sync = {0, 0, 0};
    return sync;
}

/* Adds 1 to the slot; from FV_SLOT_FULL edition 2 goes to 0, and edition 1 gives FV_OUTCOME_FULL. */
static inline struct fv_sync fv_emit(uint32_t slot)
{
    struct fv_sync sync = {FV_FLAG_EMIT, slot, 0};
    return sync;
}

/* Waits until the slot meets the target by the device's edition: see fv_is_met. */
static inline struct fv_sync fv_wait(uint32_t slot, uint32_t target)
{
    struct fv_sync sync = {FV_FLAG_WAIT, slot, target};
    return sync;
}

static inline struct fv_sync fv_wait_then_emit(uint32_t slot, uint32_t target)
{
    struct fv_sync sync = {FV_FLAG_WAIT | FV_FLAG_EMIT, slot, target};
    return sync;
}

/* The same with the IRQ bit set. */
static inline struct fv_sync fv_with_irq(struct fv_sync sync)
{
    sync.flags |= FV_FLAG_IRQ;
    return sync;
}

/* A command with no payload, whatever `sync` says of one. */
static inline int fv_append_plain(struct fv_ring *ring, struct fv_sync sync, uint32_t opcode, size_t len,
                                  uint32_t arg0, uint32_t arg1, uint32_t arg2)
{
    struct fv_command command = {opcode, sync.flags & ~(uint32_t)FV_FLAG_PAYLOAD, sync.rdst, len, arg0, arg1, arg2,
                                 sync.target, NULL};
    return fv_append(ring, &command);
}

/* ---- the eight commands ----
 * Each appends to a ring and gives 1; or 0 and appends nothing if there is no room,
 * or a len, width, height or slot does not fit into its field. Addresses count from
 * the start of the ring's window. */

static inline int fv_write_mem(struct fv_ring *ring, struct fv_sync sync, uint32_t dst, const uint32_t *words,
                               size_t len)
{
    struct fv_command command = {FV_WRITE_MEM, sync.flags | FV_FLAG_PAYLOAD, sync.rdst, len, dst, 0, 0, sync.target,
                                 words};
    return fv_append(ring, &command);
}

static inline int fv_read_mem(struct fv_ring *ring, struct fv_sync sync, uint32_t src, size_t len)
{
    return fv_append_plain(ring, sync, FV_READ_MEM, len, src, 0, 0);
}

/* Pixel (x, y) lies at dst + y * stride + 4 * x; the stride is the ring's frame's. */
static inline int fv_fill_rect(struct fv_ring *ring, struct fv_sync sync, uint32_t dst, uint32_t width,
                               uint32_t height, uint32_t color)
{
    if ((width | height) > FV_SIDE_MOST)
        return 0;
    return fv_append_plain(ring, sync, FV_FILL_RECT, 0, dst, width | height << 16, color);
}

/* The stride is used for both sides. They may overlap: each written pixel is what the source's pixel was before. */
static inline int fv_blit(struct fv_ring *ring, struct fv_sync sync, uint32_t dst, uint32_t src, uint32_t width,
                          uint32_t height)
{
    if ((width | height) > FV_SIDE_MOST)
        return 0;
    return fv_append_plain(ring, sync, FV_BLIT, 0, dst, src, width | height << 16);
}

static inline int fv_dispatch_1d(struct fv_ring *ring, struct fv_sync sync, uint32_t groups, uint32_t threads,
                                 uint32_t kernel)
{
    return fv_append_plain(ring, sync, FV_DISPATCH_1D, 0, groups, threads, kernel);
}

static inline int fv_barrier(struct fv_ring *ring, struct fv_sync sync)
{
    return fv_append_plain(ring, sync, FV_BARRIER, 0, 0, 0, 0);
}

/* The two sides may overlap: each written word is what the source's word was before. */
static inline int fv_copy_buffer(struct fv_ring *ring, struct fv_sync sync, uint32_t dst, uint32_t src, size_t len)
{
    return fv_append_plain(ring, sync, FV_COPY_BUFFER, len, dst, src, 0);
}

static inline int fv_set_fb(struct fv_ring *ring, struct fv_sync sync, uint32_t base, uint32_t stride,
                            uint32_t format)
{
    return fv_append_plain(ring, sync, FV_SET_FB, 0, base, stride, format);
}

/* ---- a turn with everything in one place ---- */

struct fv_lent {
    uint8_t *memory;
    size_t memory_length;
    struct fv_ring rings[FV_RINGS];
    const uint8_t *pack;
    size_t pack_length;
    uint8_t *pipe;
    size_t pipe_length;
};

/* `turn` is fv_turn, or another device's in its place. */
static inline struct fv_report fv_turn_by(fv_turn_function *turn, uint8_t image[FV_IMAGE_BYTES],
                                          const struct fv_lent *lent)
{
    const struct fv_ring *r = lent->rings;
    uint8_t report[FV_REPORT_BYTES];

    turn(image, FV_IMAGE_BYTES, lent->memory, lent->memory_length, r[0].bytes, r[0].length, r[1].bytes,
         r[1].length, r[2].bytes, r[2].length, r[3].bytes, r[3].length, lent->pack, lent->pack_length, lent->pipe,
         lent->pipe_length, report, FV_REPORT_BYTES);
    return fv_read_report(report);
}

#endif
