/* find.c: every place of some bytes in the pages of a machine. */
#include <stdlib.h>
#include <string.h>

#include "tool.h"

/* Three pages in a row. */
#define MEMORY_SIZE (3u * SNAP_PAGE_SIZE)

static bool is_hex(const char *word)
{
    size_t length = strlen(word);
    return length > 0 && length % 2 == 0 && strspn(word, "0123456789abcdefABCDEF") == length;
}

/* The digits of a word: blanks, and a 0x, $ or # before them, are left out. Room is for as many as the memory has. */
static const char *digits_of(const char *word)
{
    static char digits[2 * MEMORY_SIZE + 3];
    size_t length = 0;
    for (word = after_hex_mark(word + strspn(word, " \t")); *word != 0 && length < sizeof digits - 1; word++)
        if (*word != ' ' && *word != '\t')
            digits[length++] = *word;
    digits[length] = 0;
    return digits;
}

/* Two digits a byte. */
static enum status take_bytes(const char *digits, struct sought *sought)
{
    static uint8_t bytes[MEMORY_SIZE];
    sought->bytes = bytes;
    sought->length = strlen(digits) / 2;
    if (sought->length > sizeof bytes)
        return misused("what is sought is longer than the memory");
    for (size_t at = 0; at < sought->length; at++) {
        char pair[3] = {digits[2 * at], digits[2 * at + 1], 0};
        bytes[at] = (uint8_t)strtoul(pair, NULL, 16);
    }
    return ACCEPTED;
}

static enum status take_text(const char *word, bool settled, struct sought *sought)
{
    bool quoted = !settled && word[0] == '"';
    size_t length = strlen(word);
    /* the closing quote may be left out */
    bool closed = quoted && length > 1 && word[length - 1] == '"';
    bool either = !settled && !quoted && is_hex(digits_of(word));
    *sought = (struct sought){(const uint8_t *)word + quoted, length - quoted - closed, true,
                              either ? "; --hex seeks bytes" : ""};
    return sought->length == 0 ? misused("'%s' is nothing to find", word) : ACCEPTED;
}

enum status take_sought(const char *word, bool text, bool hex, struct sought *sought)
{
    if (text && hex)
        return misused("'--text' and '--hex' cannot both be asked for");
    if (hex && !is_hex(digits_of(word)))
        return misused("'%s' is not an even number of hex digits", word);
    if (text || (!hex && !is_hex(word)))
        return take_text(word, text, sought);
    *sought = (struct sought){.hint = hex ? "" : "; --text seeks the text"};
    return take_bytes(digits_of(word), sought);
}

/* A page, and those that follow it in memory as paging is now; none follows at C000, or where it is not paged in. */
static size_t lay_in_a_row(const struct machine *m, const struct snapshot *opened, unsigned page, uint8_t *row)
{
    unsigned quarter = 1;
    size_t length = 0;
    while (quarter < 3 && m->seen[quarter] != page)
        quarter++;
    for (; quarter < 4; quarter++) {
        unsigned next = length == 0 ? page : m->seen[quarter];
        memcpy(row + length, opened->area + next * SNAP_PAGE_SIZE, SNAP_PAGE_SIZE);
        length += SNAP_PAGE_SIZE;
    }
    return length;
}

/* A place, and the bytes from there on, in a line of 72 columns. */
static void print_place(FILE *to, const struct machine *m, unsigned page, size_t offset, bool crosses,
                        const struct span *row)
{
    char text[24] = "not paged in";
    unsigned places[2], count = page_places(m, page, places), length = 0;
    for (unsigned at = 0; at < count; at++) {
        /* what runs over the border does so below C000 only */
        if (crosses && places[at] == 0xC000)
            continue;
        length += (unsigned)snprintf(text + length, sizeof text - length, "%s%04X", at == 0 ? "at " : " and ",
                                     places[at] + (unsigned)offset);
    }
    fprintf(to, "page %u offset %04X  %-16s", page, (unsigned)offset, text);
    print_columns(to, row, (long)offset, 8, NO_PLACE);
}

/* What was sought, and how it was taken, in a line of 80 columns. */
static void print_not_found(FILE *to, const struct sought *sought)
{
    char text[200];
    size_t most = sought->hint[0] != 0 ? 12 : 16;
    if (sought->is_text) {
        snprintf(text, sizeof text, "%.*s", (int)sought->length, (const char *)sought->bytes);
        fprintf(to, "not found: text \"%s\"%s\n", shown_in_short(text), sought->hint);
        return;
    }
    fputs("not found: bytes", to);
    for (size_t at = 0; at < sought->length && at < most; at++)
        fprintf(to, " %02X", sought->bytes[at]);
    fprintf(to, "%s%s\n", sought->length > most ? " .." : "", sought->hint);
}

void print_places(FILE *to, const struct snapshot *opened, const struct sought *sought)
{
    static uint8_t row[MEMORY_SIZE];
    struct machine m = machine_of(opened->header);
    bool found = false;
    for (unsigned page = 0; page < 8; page++) {
        if (!owns_page(&m, page))
            continue;
        size_t length = lay_in_a_row(&m, opened, page, row);
        struct span span = {row, 0, (long)length - 1};
        for (size_t offset = 0; offset < SNAP_PAGE_SIZE && offset + sought->length <= length; offset++) {
            if (memcmp(row + offset, sought->bytes, sought->length) != 0)
                continue;
            print_place(to, &m, page, offset, offset + sought->length > SNAP_PAGE_SIZE, &span);
            found = true;
        }
    }
    if (!found)
        print_not_found(to, sought);
}
