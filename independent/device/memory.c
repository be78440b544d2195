/* A ring's window on the memory: addresses count from the window's start. */
#include "parts.h"

/* The end is not wrapped, so it is counted in 64 bits. Bytes that start inside
 * leave the window at its length. */
struct ind_reach ind_reach(const struct ind_window *window, uint32_t address,
                           uint64_t bytes)
{
    struct ind_reach reach = {1, 0};

    if ((uint64_t)address + bytes > window->length) {
        reach.inside = 0;
        reach.outside = address < window->length ? window->length : address;
    }
    return reach;
}

/* Load and store ask for bytes inside only. */
uint32_t ind_load(const struct ind_window *window, uint32_t address,
                  uint32_t count)
{
    return ind_get(window->memory + ((size_t)window->start + address), count);
}

void ind_store(const struct ind_window *window, uint32_t address,
               uint32_t count, uint32_t value)
{
    ind_put(window->memory + ((size_t)window->start + address), count, value);
}
