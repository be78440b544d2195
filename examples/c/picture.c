/* A frame as a picture file. */
#include "picture.h"

#include <stdio.h>

#include "fioravispa.h"

static void put_pixel(FILE *file, uint32_t color)
{
    for (int i = 0; i < POINTS; i++) {
        putc((int)(color >> 16 & 255), file);
        putc((int)(color >> 8 & 255), file);
        putc((int)(color & 255), file);
    }
}

int picture_write(const char *path, const uint8_t *pixels, uint32_t width, uint32_t height)
{
    FILE *file = fopen(path, "wb");
    if (!file)
        return 0;
    fprintf(file, "P6\n%u %u\n255\n", width * POINTS, height * POINTS);
    for (uint32_t line = 0; line < height * POINTS; line++)
        for (uint32_t x = 0; x < width; x++)
            put_pixel(file, fv_word(pixels, line / POINTS * width + x));
    int wrong = ferror(file);
    return fclose(file) == 0 && !wrong;
}
