/* load.h: a file of a folder as bytes, for the examples. */
#ifndef LOAD_H
#define LOAD_H

#include <errno.h>
#include <stdio.h>

#include "snapshot.h"

/* At most `room` bytes: of a file that is longer than any, one more than SNAP_READ_MOST is enough to have it refused.
   Answers 0, or the errno of a file that is missing or cannot be read. */
static int load(const char *folder, const char *name, uint8_t *bytes, size_t room, size_t *length)
{
    char path[4096];
    *length = 0;
    if (snprintf(path, sizeof path, "%s/%s", folder, name) >= (int)sizeof path)
        return ENAMETOOLONG;
    FILE *from = fopen(path, "rb");
    if (from == NULL)
        return errno;
    *length = fread(bytes, 1, room, from);
    int error = ferror(from) ? errno : 0;
    fclose(from);
    return error;
}

#endif
