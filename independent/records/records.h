/* Files of recorded calls: RECORDS.md has the format. */
#ifndef RECORDS_H
#define RECORDS_H

#include <stdio.h>

#include "cases/call.h"

enum { RECORD_MOST = 262140 }; /* bytes of a body */

/* Writes the call as it was handed over and as it was left. Gives the bytes
 * written, or 0 and writes nothing if its body is longer than `most`. */
size_t record_write(FILE *out, const struct call *before,
                    const struct call *after, size_t most);

/* Reads the next call: 1; 0 at the file's end; -1 if this is no record. */
int record_read(FILE *in, struct call *before, struct call *after);

#endif
