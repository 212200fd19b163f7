/* range.c: the part of a machine's memory that a word of the command line names. */
#include <stdlib.h>
#include <string.h>

#include "tool.h"

/* An address in the first `length` bytes of a text. */
static bool take_address(const char *text, size_t length, unsigned long *address)
{
    char word[16];
    return snprintf(word, sizeof word, "%.*s", (int)length, text) < (int)sizeof word && take_hex(word, 0xFFFF, address);
}

const char *take_view_range(const char *text, struct view_range *range)
{
    static const char neither[] = "is neither a page, as in 5, nor a range of addresses, as in 4000..57FF";
    const char *dots = strstr(text, "..");
    range->is_range = dots != NULL;
    if (dots == NULL) {
        /* a number that is too long for strtoul becomes its greatest, which is no page */
        range->page = strtoul(text, NULL, 10);
        return text[0] != 0 && text[strspn(text, "0123456789")] == 0 ? NULL : neither;
    }
    if (!take_address(text, (size_t)(dots - text), &range->first) || !take_address(dots + 2, strlen(dots + 2), &range->last))
        return neither;
    return range->first <= range->last ? NULL : "is no range of addresses: the first is above the last";
}
