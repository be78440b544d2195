/* The device as bytes, and the calls on them. */
#include "image.h"

#include "parts.h"

/* One word on, so that a run of words reads as a list. */
static void put_next(uint8_t **at, uint32_t value)
{
    ind_put(*at, WORD, value);
    *at += WORD;
}

static uint32_t get_next(const uint8_t **at)
{
    *at += WORD;
    return ind_get(*at - WORD, WORD);
}

void ind_image_encode(const struct ind_device *device, uint8_t *image)
{
    for (uint32_t i = 0; i < IND_RINGS; i++) {
        const struct ind_ring *ring = &device->rings[i];
        uint32_t held = ring->frame.held != 0;
        put_next(&image, ring->window_start);
        put_next(&image, ring->window_length);
        put_next(&image, ring->cursor);
        put_next(&image, held);
        put_next(&image, held ? ring->frame.base : 0);
        put_next(&image, held ? ring->frame.stride : 0);
        put_next(&image, held ? ring->frame.format : 0);
    }
    for (uint32_t i = 0; i < IND_SLOTS; i++)
        put_next(&image, device->slots[i]);
    put_next(&image, device->marker);
    put_next(&image, device->limit);
    for (uint32_t i = 0; i < IND_RINGS; i++)
        put_next(&image, device->taken[i]);
    for (uint32_t i = 0; i < IND_OUTCOMES; i++)
        put_next(&image, device->outcomes[i]);
    put_next(&image, device->edition == IND_EDITION_2 ? IND_EDITION_2
                                                      : IND_EDITION_1);
}

void ind_image_decode(const uint8_t *image, struct ind_device *device)
{
    for (uint32_t i = 0; i < IND_RINGS; i++) {
        struct ind_ring *ring = &device->rings[i];
        ring->window_start = get_next(&image);
        ring->window_length = get_next(&image);
        ring->cursor = get_next(&image);
        ring->frame.held = get_next(&image);
        ring->frame.base = get_next(&image);
        ring->frame.stride = get_next(&image);
        ring->frame.format = get_next(&image);
    }
    for (uint32_t i = 0; i < IND_SLOTS; i++)
        device->slots[i] = get_next(&image);
    device->marker = get_next(&image);
    device->limit = get_next(&image);
    for (uint32_t i = 0; i < IND_RINGS; i++)
        device->taken[i] = get_next(&image);
    for (uint32_t i = 0; i < IND_OUTCOMES; i++)
        device->outcomes[i] = get_next(&image);
    device->edition = get_next(&image);
}

void ind_report_encode(const struct ind_report *report, uint8_t *bytes)
{
    put_next(&bytes, report->status);
    put_next(&bytes, report->ring);
    put_next(&bytes, report->outcome);
    put_next(&bytes, report->fence);
    put_next(&bytes, report->words_read);
    put_next(&bytes, report->irq);
    put_next(&bytes, report->emitted);
    put_next(&bytes, report->stop.address);
    put_next(&bytes, report->stop.place);
    put_next(&bytes, report->stop.group);
    put_next(&bytes, report->stop.thread);
}

void ind_report_decode(const uint8_t *bytes, struct ind_report *report)
{
    report->status = get_next(&bytes);
    report->ring = get_next(&bytes);
    report->outcome = get_next(&bytes);
    report->fence = get_next(&bytes);
    report->words_read = get_next(&bytes);
    report->irq = get_next(&bytes);
    report->emitted = get_next(&bytes);
    report->stop.address = get_next(&bytes);
    report->stop.place = get_next(&bytes);
    report->stop.group = get_next(&bytes);
    report->stop.thread = get_next(&bytes);
}

static uint32_t make(uint8_t *device, size_t device_len,
                     const uint8_t *windows, size_t windows_len,
                     uint64_t memory_len, const struct ind_choice *choice)
{
    uint32_t pairs[IND_RINGS][2];
    struct ind_device made;

    if (device_len != IND_IMAGE_BYTES)
        return IND_WRONG_IMAGE;
    if (windows_len != IND_WINDOWS_BYTES)
        return IND_WRONG_WINDOWS;
    for (uint32_t i = 0; i < IND_RINGS; i++) {
        pairs[i][0] = get_next(&windows);
        pairs[i][1] = get_next(&windows);
    }
    uint32_t answer = ind_make(&made, memory_len, pairs, choice);
    ind_image_encode(&made, device);
    return answer;
}

uint32_t ind_fv_fresh_edition_2(uint8_t *device, size_t device_len,
                                const uint8_t *windows, size_t windows_len,
                                uint64_t memory_len, uint32_t limit,
                                uint32_t first)
{
    const struct ind_choice choice = {limit, IND_EDITION_2, first};

    return make(device, device_len, windows, windows_len, memory_len, &choice);
}

uint32_t ind_fv_fresh_with(uint8_t *device, size_t device_len,
                           const uint8_t *windows, size_t windows_len,
                           uint64_t memory_len, uint32_t limit)
{
    const struct ind_choice choice = {limit, IND_EDITION_1, 0};

    return make(device, device_len, windows, windows_len, memory_len, &choice);
}

uint32_t ind_fv_fresh(uint8_t *device, size_t device_len,
                      const uint8_t *windows, size_t windows_len,
                      uint64_t memory_len)
{
    return ind_fv_fresh_with(device, device_len, windows, windows_len,
                             memory_len, IND_LIMIT_DEFAULT);
}

/* Only a served turn writes the image: it stays byte for byte otherwise. */
uint32_t ind_fv_turn(uint8_t *device, size_t device_len, uint8_t *memory,
                     size_t memory_len, const uint8_t *ring0, size_t ring0_len,
                     const uint8_t *ring1, size_t ring1_len,
                     const uint8_t *ring2, size_t ring2_len,
                     const uint8_t *ring3, size_t ring3_len,
                     const uint8_t *pack, size_t pack_len, uint8_t *pipe,
                     size_t pipe_len, uint8_t *report, size_t report_len)
{
    const uint8_t *const ring[IND_RINGS] = {ring0, ring1, ring2, ring3};
    const size_t ring_len[IND_RINGS] = {
        ring0_len, ring1_len, ring2_len, ring3_len
    };
    struct ind_device state;
    struct ind_report told;

    if (device_len != IND_IMAGE_BYTES)
        return IND_WRONG_IMAGE;
    if (report_len != IND_REPORT_BYTES)
        return IND_WRONG_REPORT;
    ind_image_decode(device, &state);
    uint32_t status = ind_turn(&state, memory, memory_len, ring, ring_len, pack,
                               pack_len, pipe, pipe_len, &told);
    if (status == IND_SERVED)
        ind_image_encode(&state, device);
    ind_report_encode(&told, report);
    return status;
}
