/* The device as bytes: an image and a report, and the four calls on them. They
 * have the interface of the other device's fv_fresh, fv_fresh_with,
 * fv_fresh_edition_2 and fv_turn, so that both can be linked into one
 * program. */
#ifndef IND_IMAGE_H
#define IND_IMAGE_H

#include "device.h"

/* Words of one ring in the image, which starts with the four rings. */
enum {
    IND_IMAGE_WINDOW_START, IND_IMAGE_WINDOW_LENGTH, IND_IMAGE_CURSOR,
    IND_IMAGE_HELD, IND_IMAGE_BASE, IND_IMAGE_STRIDE, IND_IMAGE_FORMAT,
    IND_IMAGE_RING_WORDS
};

/* Words of the image behind the rings. */
enum {
    IND_IMAGE_SLOTS = IND_RINGS * IND_IMAGE_RING_WORDS,
    IND_IMAGE_MARKER = IND_IMAGE_SLOTS + IND_SLOTS,
    IND_IMAGE_LIMIT,
    IND_IMAGE_TAKEN,
    IND_IMAGE_OUTCOMES = IND_IMAGE_TAKEN + IND_RINGS,
    IND_IMAGE_EDITION = IND_IMAGE_OUTCOMES + IND_OUTCOMES,
    IND_IMAGE_WORDS
};

/* Words of the report. */
enum {
    IND_REPORT_STATUS, IND_REPORT_RING, IND_REPORT_OUTCOME, IND_REPORT_FENCE,
    IND_REPORT_WORDS_READ, IND_REPORT_IRQ, IND_REPORT_EMITTED,
    IND_REPORT_ADDRESS, IND_REPORT_PLACE, IND_REPORT_GROUP, IND_REPORT_THREAD,
    IND_REPORT_WORDS
};

enum {
    IND_IMAGE_BYTES = 4 * IND_IMAGE_WORDS,
    IND_REPORT_BYTES = 4 * IND_REPORT_WORDS,
    IND_WINDOWS_BYTES = IND_PAIR_BYTES * IND_RINGS
};

/* What a call answers to a piece of the wrong length: it changes nothing. */
enum {
    IND_WRONG_IMAGE = 201,
    IND_WRONG_REPORT = 202,
    IND_WRONG_WINDOWS = 203
};

/* The held flag becomes 0 or 1; without a frame its three words are 0. The
 * edition becomes 1 or 2. */
void ind_image_encode(const struct ind_device *device, uint8_t *image);
void ind_image_decode(const uint8_t *image, struct ind_device *device);

void ind_report_encode(const struct ind_report *report, uint8_t *bytes);
void ind_report_decode(const uint8_t *bytes, struct ind_report *report);

/* Gives 0 or 101 and writes the image either way; or 201 or 203. */
uint32_t ind_fv_fresh(uint8_t *device, size_t device_len,
                      const uint8_t *windows, size_t windows_len,
                      uint64_t memory_len);

/* The same with a limit of steps that is named; 102 too. */
uint32_t ind_fv_fresh_with(uint8_t *device, size_t device_len,
                           const uint8_t *windows, size_t windows_len,
                           uint64_t memory_len, uint32_t limit);

/* The same of edition 2, with the number that every slot starts with. */
uint32_t ind_fv_fresh_edition_2(uint8_t *device, size_t device_len,
                                const uint8_t *windows, size_t windows_len,
                                uint64_t memory_len, uint32_t limit,
                                uint32_t first);

/* Gives the report's first word; or 201 or 202. */
uint32_t ind_fv_turn(uint8_t *device, size_t device_len, uint8_t *memory,
                     size_t memory_len, const uint8_t *ring0, size_t ring0_len,
                     const uint8_t *ring1, size_t ring1_len,
                     const uint8_t *ring2, size_t ring2_len,
                     const uint8_t *ring3, size_t ring3_len,
                     const uint8_t *pack, size_t pack_len, uint8_t *pipe,
                     size_t pipe_len, uint8_t *report, size_t report_len);

#endif
