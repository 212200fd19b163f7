/* view.c: a page or a range of addresses as hex and text. */
#include <string.h>

#include "tool.h"

#define COLUMNS 16

/* What stands before the byte of a column: a wider gap in the middle, the bracket before it or behind the one before. */
static void print_gap(FILE *to, int column, bool opens, bool closes)
{
    if (column == COLUMNS / 2)
        fputs(closes ? "] " : opens ? " [" : "  ", to);
    else
        fputs(closes ? "]" : opens ? "[" : " ", to);
}

void print_columns(FILE *to, const struct span *span, long start, int columns, long marked)
{
    char text[COLUMNS + 1] = "";
    for (int column = 0; column < columns; column++) {
        long place = start + column;
        print_gap(to, column, place == marked, column > 0 && place - 1 == marked);
        text[column] = ' ';
        if (place < span->first || place > span->last) {
            fputs("  ", to);
            continue;
        }
        uint8_t byte = span->bytes[place - span->first];
        fprintf(to, "%02X", byte);
        text[column] = (char)(byte >= 32 && byte < 127 ? byte : '.');
    }
    fprintf(to, "%s |%s|\n", start + columns - 1 == marked ? "]" : " ", text);
}

/* Whole rows that repeat the one before are shown as one star; the last row is always shown. */
static void print_rows(FILE *to, const struct span *span)
{
    bool star = false;
    for (long row = span->first / COLUMNS * COLUMNS; row <= span->last; row += COLUMNS) {
        long before = row - COLUMNS - span->first;
        bool whole = before >= 0 && row + COLUMNS <= span->last;
        bool same = whole && memcmp(span->bytes + before, span->bytes + before + COLUMNS, COLUMNS) == 0;
        if (!same) {
            fprintf(to, "%04lX ", (unsigned long)row);
            print_columns(to, span, row, COLUMNS, NO_PLACE);
        } else if (!star) {
            fputs("*\n", to);
        }
        star = same;
    }
}

/* A page's bytes at its first address, or at offsets where it is not paged in. */
static enum status span_of_page(const char *file, const struct snapshot *opened, const struct view_range *range,
                                const char *rom, struct span *span)
{
    struct machine m = machine_of(opened->header);
    unsigned places[2] = {0};
    enum status status = page_bytes(file, opened, range->page, rom, &span->bytes);
    if (status == ACCEPTED)
        page_places(&m, (unsigned)range->page, places);
    span->first = places[0];
    span->last = span->first + (long)SNAP_PAGE_SIZE - 1;
    return status;
}

/* A range's bytes, out of the pages that are seen there. */
static enum status span_of_range(const char *file, const struct snapshot *opened, const struct view_range *range,
                                 const char *rom, struct span *span)
{
    static uint8_t memory[4 * SNAP_PAGE_SIZE];
    struct machine m = machine_of(opened->header);
    unsigned long quarter = range->first / SNAP_PAGE_SIZE, last = range->last / SNAP_PAGE_SIZE;
    for (; quarter <= last; quarter++) {
        const uint8_t *bytes;
        enum status status = page_bytes(file, opened, m.seen[quarter], rom, &bytes);
        if (status != ACCEPTED)
            return status;
        memcpy(memory + quarter * SNAP_PAGE_SIZE, bytes, SNAP_PAGE_SIZE);
    }
    *span = (struct span){memory + range->first, (long)range->first, (long)range->last};
    return ACCEPTED;
}

static enum status span_of(const char *file, const struct snapshot *opened, const struct view_range *range,
                           const char *rom, struct span *span)
{
    return (range->is_range ? span_of_range : span_of_page)(file, opened, range, rom, span);
}

static void print_page_head(FILE *to, const char *file, const struct machine *m, unsigned page)
{
    unsigned places[2], count = page_places(m, page, places);
    fprintf(to, "Page %u of %s, %s, %s", page, shown(file), page < 8 ? "RAM" : "ROM",
            count == 0 ? "not paged in: offsets in it" : "");
    for (unsigned at = 0; at < count; at++)
        fprintf(to, "%s%04X-%04X", at == 0 ? "at " : " and ", places[at], places[at] + SNAP_PAGE_SIZE - 1);
    fputs("\n", to);
}

static void print_range_head(FILE *to, const char *file, const struct machine *m, const struct view_range *range)
{
    fprintf(to, "Addresses %04lX-%04lX of %s", range->first, range->last, shown(file));
    for (unsigned long quarter = range->first / SNAP_PAGE_SIZE; quarter <= range->last / SNAP_PAGE_SIZE; quarter++)
        fprintf(to, ", page %u", m->seen[quarter]);
    fputs("\n", to);
}

enum status print_view_range(FILE *to, const char *place, const char *file, const struct snapshot *opened,
                             const struct view_range *range, const char *rom)
{
    struct machine m = machine_of(opened->header);
    struct span span;
    enum status status = span_of(place, opened, range, rom, &span);
    if (status != ACCEPTED)
        return status;
    if (range->is_range)
        print_range_head(to, file, &m, range);
    else
        print_page_head(to, file, &m, (unsigned)range->page);
    print_rows(to, &span);
    return ACCEPTED;
}

enum status put_view_range(const char *file, const struct snapshot *opened, const struct view_range *range, const char *rom)
{
    struct span span;
    enum status status = span_of(file, opened, range, rom, &span);
    /* a failure is told when standard output is flushed */
    if (status == ACCEPTED)
        fwrite(span.bytes, 1, (size_t)(span.last - span.first + 1), stdout);
    return status;
}
