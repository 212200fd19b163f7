/* edit.c: an editing session, from the prompt or from a script, which ends at the first line that is refused. */
#define _POSIX_C_SOURCE 200809L
#include <string.h>
#include <sys/stat.h>
#include <unistd.h>

#include "tool.h"

#define SCRIPT_MOST (1u << 20)

static struct editing session;

/* A script is plain text. */
static enum status check_text(const char *name, const char *text, size_t length, bool first)
{
    static const char *const marks[] = {"\xEF\xBB\xBF", "\xFE\xFF", "\xFF\xFE"};
    for (size_t at = 0; first && at < sizeof marks / sizeof marks[0]; at++)
        if (length >= strlen(marks[at]) && memcmp(text, marks[at], strlen(marks[at])) == 0)
            return cannot(name, "begins with a byte order mark; a script is plain text without one");
    if (memchr(text, 0, length) != NULL)
        return cannot(name, "holds a zero byte; a script is plain text");
    return ACCEPTED;
}

/* Takes a line without its end; false after the last. One that is longer than any script is cut after so many bytes. */
static bool take_line(FILE *from, char line[SCRIPT_MOST + 2], size_t *length)
{
    int byte;
    *length = 0;
    while ((byte = getc(from)) != EOF && byte != '\n' && *length <= SCRIPT_MOST)
        line[(*length)++] = (char)byte;
    bool there = byte != EOF || *length > 0;
    if (*length > 0 && line[*length - 1] == '\r')
        --*length;
    line[*length] = 0;
    return there;
}

static enum status run_lines(FILE *from, const char *name)
{
    static char line[SCRIPT_MOST + 2];
    char place[PATH_ROOM + 16];
    size_t length;
    enum status status = ACCEPTED;
    for (unsigned number = 1; status == ACCEPTED && !session.ended && take_line(from, line, &length); number++) {
        snprintf(place, sizeof place, "%s:%u", name, number);
        status = check_text(name, line, length, number == 1);
        if (status == ACCEPTED)
            status = length > SCRIPT_MOST ? misused("%s: the line is too long", place) : run_line(&session, place, line);
    }
    return status == ACCEPTED && ferror(from) ? cannot_errno(name, "cannot be read") : status;
}

static enum status from_script(FILE *from, const char *name)
{
    enum status status = run_lines(from, name);
    unsigned count = session.unsaved;
    if (count == 0 || (status == ACCEPTED && session.ended))
        return status;
    warn(name, "%s%u change%s since the last save %s dropped", status == ACCEPTED ? "ends without 'save': " : "", count,
         count == 1 ? "" : "s", count == 1 ? "is" : "are");
    return status == ACCEPTED ? USAGE : status;
}

static enum status from_file(const char *script)
{
    static uint8_t text[SCRIPT_MOST + 1];
    struct stat about;
    size_t length;
    if (stat(script, &about) == 0 && !S_ISREG(about.st_mode) && !S_ISDIR(about.st_mode))
        return cannot(script, "is a pipe or a device, not a file; '--script -' reads standard input");
    enum status status = read_bounded(script, text, SCRIPT_MOST, &length);
    if (status == ACCEPTED)
        status = check_text(script, (const char *)text, length, true);
    if (status != ACCEPTED || length == 0)
        return status;
    FILE *from = fmemopen(text, length, "r");
    if (from == NULL)
        return cannot_errno(script, "cannot be read");
    status = from_script(from, script);
    fclose(from);
    return status;
}

enum status edit(const struct edit_words *words)
{
    enum status status = begin_session(&session, words);
    if (status == ACCEPTED && words->script != NULL && !is_stream(words->script))
        status = from_file(words->script);
    else if (status == ACCEPTED && words->script == NULL && isatty(STDIN_FILENO))
        status = from_prompt(&session);
    else if (status == ACCEPTED)
        status = from_script(stdin, "standard input");
    forget(session.known);
    return status;
}
