/* report.c: refusals, wrong use and system errors, each as one line on standard error, and names as they can be shown. */
#include <errno.h>
#include <stdarg.h>
#include <string.h>

#include "checking.h"
#include "tool.h"

unsigned character_length(const unsigned char *s)
{
    unsigned more, least = s[0];
    if (least < 0x80)
        return 1;
    if (least < 0xC2 || least > 0xF4)
        return 0;
    more = least < 0xE0 ? 1 : least < 0xF0 ? 2 : 3;
    /* no overlong forms, no surrogates, nothing above 10FFFF */
    if ((least == 0xE0 && s[1] < 0xA0) || (least == 0xED && s[1] > 0x9F))
        return 0;
    if ((least == 0xF0 && s[1] < 0x90) || (least == 0xF4 && s[1] > 0x8F))
        return 0;
    for (unsigned at = 1; at <= more; at++)
        if ((s[at] & 0xC0) != 0x80)
            return 0;
    return more + 1;
}

bool is_control_character(const unsigned char *s, unsigned length)
{
    switch (length) {
    case 1: return s[0] < 32 || s[0] == 127;
    case 2: return s[0] == 0xC2 && s[1] < 0xA0;
    case 3:
        return s[0] == 0xE2
            && ((s[1] == 0x80 && s[2] >= 0xA8 && s[2] <= 0xAE) || (s[1] == 0x81 && s[2] >= 0xA6 && s[2] <= 0xA9));
    default: return false;
    }
}

/* A text as it can be shown, cut where so many characters are reached. */
static const char *show(const char *name, size_t most)
{
    static char texts[4][4 * PATH_ROOM];
    static unsigned turn;
    const unsigned char *s = (const unsigned char *)name;
    char *text = texts[turn++ % 4], *to = text, *end = text + sizeof texts[0] - 20;
    for (size_t columns = 0; *s != 0 && to < end;) {
        unsigned length = character_length(s), count = length == 0 ? 1 : length;
        bool plain = length != 0 && !is_control_character(s, length);
        columns += plain ? 1 : 4 * count;
        if (columns > most)
            break;
        for (; count > 0; count--, s++)
            to += snprintf(to, 5, plain ? "%c" : "\\x%02X", *s);
    }
    snprintf(to, 4, "%s", *s == 0 ? "" : "...");
    return text;
}

const char *shown(const char *name)
{
    return name[0] == 0 ? "''" : show(name, SIZE_MAX);
}

const char *shown_in_short(const char *text)
{
    return show(text, 40);
}

/* What is printed goes out first, so that both streams in one file are in order. */
void warn(const char *file, const char *format, ...)
{
    va_list arguments;
    fflush(stdout);
    clear_progress();
    fprintf(stderr, "snapshot: %s: ", shown(file));
    va_start(arguments, format);
    vfprintf(stderr, format, arguments);
    va_end(arguments);
    fputs("\n", stderr);
}

enum status refused(const char *file, uint32_t number)
{
    warn(file, "refused, %u: %s%s", (unsigned)number, snap_sentence(number),
         number == SNAP_LOG_FULL ? "; 'snapshot edit --new-log' begins a new one" : "");
    return REFUSED;
}

enum status refused_with_hint(const char *file, uint32_t number, const char *hint)
{
    if (hint[0] == 0)
        return refused(file, number);
    warn(file, "refused, %u: %s (%s)", (unsigned)number, snap_sentence(number), hint);
    return REFUSED;
}

enum status cannot(const char *file, const char *sentence)
{
    warn(file, "%s", sentence);
    return SYSTEM;
}

enum status cannot_errno(const char *file, const char *doing)
{
    warn(file, "%s: %s", doing, strerror(errno));
    return SYSTEM;
}

enum status cannot_write(const char *file)
{
    return cannot_errno(file, errno == EACCES ? "cannot be written: its folder" : "cannot be written");
}

enum status misused(const char *format, ...)
{
    char sentence[2 * PATH_ROOM];
    va_list arguments;
    va_start(arguments, format);
    vsnprintf(sentence, sizeof sentence, format, arguments);
    va_end(arguments);
    fflush(stdout);
    fprintf(stderr, "snapshot: %s\n", shown(sentence));
    return USAGE;
}
