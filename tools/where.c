/* where.c: the place at which a file is refused, in words and with the bytes around it. */
#include "tool.h"

/* The bytes of a row, how many rows are shown, and how many of them before the place in the middle of a file. */
#define ROW 16
#define ROWS 5
#define ROWS_BEFORE 2

/* The one body of a version 1 file is no block to a reader. */
void where_refused(const struct taking *taken, char text[WHERE_SIZE])
{
    char in_block[32] = "";
    if (taken->block > 0 && taken->version != 1)
        snprintf(in_block, sizeof in_block, " (block %u)", (unsigned)taken->block);
    text[0] = 0;
    if (taken->offset != 0)
        snprintf(text, WHERE_SIZE, " at byte %u%s%s", (unsigned)taken->offset,
                 taken->unwrapped ? " of the unwrapped file" : "", in_block);
}

void show_around(FILE *to, const char *file, const struct taking *taken)
{
    struct span span = {taken->bytes, 0, (long)taken->length - 1};
    long place = (long)taken->offset, last = (place > span.last ? place : span.last) / ROW;
    long row = place / ROW - ROWS_BEFORE;
    if (place == 0)
        return;
    /* near an end of the file, more rows on the other side */
    if (row > last - ROWS + 1)
        row = last - ROWS + 1;
    if (row < 0)
        row = 0;
    fprintf(to, "Byte %06lX of %s, %shexadecimal, in brackets%s\n", (unsigned long)place, shown(file),
            taken->unwrapped ? "unwrapped, " : "", place > span.last ? ": the file ends before it" : "");
    for (long left = ROWS; left > 0 && row <= last; left--, row++) {
        fprintf(to, "%06lX ", (unsigned long)(row * ROW));
        print_columns(to, &span, row * ROW, ROW, place);
    }
}
