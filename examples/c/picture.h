/* A frame as a picture file. */
#ifndef PICTURE_H
#define PICTURE_H

#include <stdint.h>

enum { POINTS = 8 }; /* each pixel becomes a square of so many points */

/* Writes width by height pixels, words 00RRGGBB, as a PPM file. Gives 1, or 0 if
 * the file could not be written. */
int picture_write(const char *path, const uint8_t *pixels, uint32_t width, uint32_t height);

#endif
