/* The independent device: the rules of docs/DEVICE.md once more, in plain C11.
 * Every number here is that manual's. A piece that a call changes may overlap
 * no other. */
#ifndef IND_DEVICE_H
#define IND_DEVICE_H

#include <stddef.h>
#include <stdint.h>

enum {
    IND_MEMORY_MOST = 1048576, /* bytes */
    IND_RING_MOST = 65536,     /* bytes */
    IND_HEADER_BYTES = 16,     /* of a command */
    IND_LEN_MOST = 255,        /* words of a transfer */
    IND_PIPE_LEAST = 1020,     /* bytes: the longest READ_MEM */
    IND_EXTENT_MOST = 65535,   /* pixels: width, and height */
    IND_STRIDE_LEAST = 4,      /* bytes */
    IND_STRIDE_MOST = 65536,
    IND_KERNELS_MOST = 16,
    IND_CODE_MOST = 16384,     /* words */
    IND_PAIR_BYTES = 8,        /* of a window, or of a kernel in its pack */
    IND_PACK_LEAST = 8,        /* bytes: two counts of 0 */
    IND_SIDE_MOST = 64,        /* groups, and threads in a group */
    IND_LIMIT_LEAST = 1,       /* steps a thread may take */
    IND_LIMIT_MOST = 65536,
    IND_LIMIT_DEFAULT = 16384, /* where none is named */
    IND_RINGS = 4,
    IND_SLOTS = 64,
    IND_REGISTERS = 32,
    IND_VECTOR_WORDS = 4
};

/* What a whole call answers. */
enum {
    IND_SERVED = 0,
    IND_IDLE = 1,
    IND_REFUSED_MEMORY = 101,
    IND_REFUSED_STATE = 102,
    IND_REFUSED_RING = 103,
    IND_REFUSED_PIPE = 104,
    IND_REFUSED_PACK = 105
};

/* Outcome numbers of a served command. */
enum {
    IND_DONE = 0,
    IND_NO_OPCODE = 1,
    IND_RESERVED_FLAG = 2,
    IND_PAYLOAD_BIT = 3,
    IND_NO_SLOT = 4,
    IND_SLOT_FULL = 5,
    IND_NOT_FOURS = 6,
    IND_NO_FRAME_ROOM = 7,
    IND_OUTSIDE_WINDOW = 8,
    IND_BAD_FRAME = 9,
    IND_BAD_DISPATCH = 10,
    IND_NOT_LISTED = 11,
    IND_BAD_PLACE = 12,
    IND_BAD_ACCESS = 13,
    IND_STEPS_SPENT = 14,
    IND_OUTCOMES
};

/* Editions of the protocol. In edition 2 the numbers of the slots go round. */
enum { IND_EDITION_1 = 1, IND_EDITION_2 = 2 };

/* Counts of commands: one for each ring, then one for each outcome. */
enum { IND_COUNTS = IND_RINGS + IND_OUTCOMES };

/* What one step answers besides 11 to 14. */
enum { IND_GOES_ON = 0, IND_ENDED = 1 };

struct ind_frame {
    uint32_t held, base, stride, format; /* held: 0 unset, anything else set */
};

struct ind_ring {
    uint32_t window_start, window_length, cursor;
    struct ind_frame frame;
};

struct ind_device {
    struct ind_ring rings[IND_RINGS];
    uint32_t slots[IND_SLOTS];
    uint32_t marker;
    uint32_t limit; /* of steps */
    uint32_t taken[IND_RINGS];       /* commands, a count for each ring */
    uint32_t outcomes[IND_OUTCOMES]; /* the same, a count for each outcome */
    uint32_t edition; /* 2, or any other number for 1 */
};

/* Where a kernel stopped (11 to 14). All 0 where none did. */
struct ind_stop {
    uint32_t address; /* of 13: the first that is not in the window; else 0 */
    uint32_t place;   /* where the thread stood, from the kernel's start */
    uint32_t group, thread;
};

struct ind_report {
    uint32_t status; /* 0 served, 1 idle, or 101 to 105 */
    uint32_t ring, outcome, fence, words_read, irq;
    uint32_t emitted; /* 1 with a fence, which may be 0, else 0 */
    struct ind_stop stop;
};

/* Makes a fresh device of edition 1 and the default limit; windows are pairs
 * (start, length). Gives 0, or 101 and then such a device of four empty windows
 * at 0. */
uint32_t ind_fresh(struct ind_device *device, uint64_t memory_len,
                   const uint32_t windows[IND_RINGS][2]);

/* The same with a limit that is named. Gives 102 too, after 101; with either
 * comes the device that ind_fresh gives with 101. */
uint32_t ind_fresh_with(struct ind_device *device, uint64_t memory_len,
                        const uint32_t windows[IND_RINGS][2], uint32_t limit);

/* The same of edition 2, every slot at `first`. What comes with 101 or 102 is
 * of edition 1, its slots at 0. */
uint32_t ind_fresh_edition_2(struct ind_device *device, uint64_t memory_len,
                             const uint32_t windows[IND_RINGS][2],
                             uint32_t limit, uint32_t first);

/* Takes one turn and gives the report's status.
 * Any bytes and any device state may be handed in. */
uint32_t ind_turn(struct ind_device *device, uint8_t *memory, size_t memory_len,
                  const uint8_t *const ring[IND_RINGS],
                  const size_t ring_len[IND_RINGS], const uint8_t *pack,
                  size_t pack_len, uint8_t *pipe, size_t pipe_len,
                  struct ind_report *report);

/* ---- the kernel pack ---- */

/* One kernel of a pack. A step uses only words and code. */
struct ind_kernel {
    uint32_t first, words;
    const uint8_t *code; /* the byte where its first word stands */
};

enum { IND_PACK_SOUND = 0, IND_PACK_KERNELS = 1, IND_PACK_CODE = 2 };

/* Reads a pack from the front of some bytes: sound (then *used is its size),
 * or which of its two sections, kernels or code, is the first faulty one. */
uint32_t ind_pack_scan(const uint8_t *bytes, size_t length, size_t *used);

/* 1 if these bytes are not exactly one sound pack, else 0. */
int ind_pack_faulty(const uint8_t *pack, size_t pack_len);

/* The extent of a kernel: 1 and *kernel filled, or 0 if there is none such. */
int ind_kernel_extent(const uint8_t *pack, size_t pack_len, uint32_t number,
                      struct ind_kernel *kernel);

/* ---- kernels ---- */

/* A ring's window; start + length must lie inside the memory. */
struct ind_window {
    uint8_t *memory;
    uint32_t start, length;
};

struct ind_thread {
    uint32_t scalar[IND_REGISTERS];
    uint32_t vector[IND_REGISTERS][IND_VECTOR_WORDS];
    uint32_t place; /* bytes from the kernel's start */
    uint32_t steps; /* steps taken */
};

void ind_thread_start(struct ind_thread *thread, uint32_t group,
                      uint32_t thread_in_group, uint32_t threads,
                      uint32_t groups);

/* One step: goes on (0), ended (1), or 11 to 14. A stop (11 to 14) leaves the
 * thread and the memory as they were. *outside is the first address of a load
 * or store that is not in the window (13), else 0. */
uint32_t ind_step(struct ind_thread *thread, const struct ind_kernel *kernel,
                  const struct ind_window *window, uint32_t limit,
                  uint32_t *outside);

/* Steps until the thread ends (0) or first stops (11 to 14), at its place.
 * *outside is that of the last step. */
uint32_t ind_run(struct ind_thread *thread, const struct ind_kernel *kernel,
                 const struct ind_window *window, uint32_t limit,
                 uint32_t *outside);

/* A whole dispatch, each thread under the limit: 0, or 11 to 14 and where that
 * was. */
uint32_t ind_dispatch(const struct ind_kernel *kernel,
                      const struct ind_window *window, uint32_t groups,
                      uint32_t threads, uint32_t limit,
                      struct ind_stop *stop);

#endif
