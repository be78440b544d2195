/* What the archive defines: image.h has the same four with a prefix. */
#ifndef WHOLE_H
#define WHOLE_H

#include <stddef.h>
#include <stdint.h>

uint32_t fv_fresh(uint8_t *device, size_t device_len, const uint8_t *windows,
                  size_t windows_len, uint64_t memory_len);

uint32_t fv_fresh_with(uint8_t *device, size_t device_len,
                       const uint8_t *windows, size_t windows_len,
                       uint64_t memory_len, uint32_t limit);

uint32_t fv_fresh_edition_2(uint8_t *device, size_t device_len,
                            const uint8_t *windows, size_t windows_len,
                            uint64_t memory_len, uint32_t limit,
                            uint32_t first);

uint32_t fv_turn(uint8_t *device, size_t device_len, uint8_t *memory,
                 size_t memory_len, const uint8_t *ring0, size_t ring0_len,
                 const uint8_t *ring1, size_t ring1_len, const uint8_t *ring2,
                 size_t ring2_len, const uint8_t *ring3, size_t ring3_len,
                 const uint8_t *pack, size_t pack_len, uint8_t *pipe,
                 size_t pipe_len, uint8_t *report, size_t report_len);

#endif
