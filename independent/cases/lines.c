#include "cases/lines.h"

#include <inttypes.h>

enum { NAME_MOST = 48 };

void title(FILE *out, const char *text)
{
    if (out != NULL)
        fprintf(out, "%s\n", text);
}

int line(FILE *out, const char *name, uint64_t value)
{
    if (out != NULL)
        fprintf(out, "  %10" PRIu64 " %s\n", value, name);
    return value == 0;
}

int lines(FILE *out, const char *format, uint32_t first,
          const uint64_t *values, uint32_t number)
{
    char name[NAME_MOST];
    int missing = 0;

    for (uint32_t i = 0; i < number; i++) {
        snprintf(name, sizeof name, format, first + i);
        missing += line(out, name, values[i]);
    }
    return missing;
}

int span_lines(FILE *out, const char *what, uint32_t first,
               const uint32_t *ends, const uint64_t *values, uint32_t number)
{
    char name[NAME_MOST];
    int missing = 0;

    for (uint32_t i = 0; i < number; i++) {
        if (first == ends[i])
            snprintf(name, sizeof name, "%s %" PRIu32, what, first);
        else
            snprintf(name, sizeof name, "%s %" PRIu32 " to %" PRIu32, what,
                     first, ends[i]);
        missing += line(out, name, values[i]);
        first = ends[i] + 1;
    }
    return missing;
}

uint32_t span_of(const uint32_t *ends, uint32_t number)
{
    uint32_t span = 0;

    while (ends[span] < number)
        span++;
    return span;
}
