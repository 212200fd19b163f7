/* numbers.c: numbers as people write them. */
#include <stdlib.h>
#include <string.h>
#include <strings.h>

#include "tool.h"

const char *after_hex_mark(const char *text)
{
    return text + (strncasecmp(text, "0x", 2) == 0 ? 2 : text[0] == '$' || text[0] == '#' ? 1 : 0);
}

bool take_hex(const char *text, unsigned long most, unsigned long *value)
{
    char *end;
    text = after_hex_mark(text);
    if (strspn(text, "0123456789abcdefABCDEF") == 0 || strlen(text) > 8)
        return false;
    *value = strtoul(text, &end, 16);
    return *end == 0 && *value <= most;
}

bool take_decimal(const char *text, unsigned long most, unsigned long *value)
{
    char *end;
    if (strspn(text, "0123456789") == 0 || strlen(text) > 8)
        return false;
    *value = strtoul(text, &end, 10);
    return *end == 0 && *value <= most;
}

const char *grouped(uint64_t value, char text[GROUPED_SIZE])
{
    char digits[GROUPED_SIZE], *to = text;
    int count = snprintf(digits, sizeof digits, "%llu", (unsigned long long)value);
    for (int at = 0; at < count; at++) {
        if (at > 0 && (count - at) % 3 == 0)
            *to++ = ',';
        *to++ = digits[at];
    }
    *to = 0;
    return text;
}
