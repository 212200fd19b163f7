/* completion.c: the tab key at the prompt: commands, then names of pairs after pair, and of files after save. */
#define _XOPEN_SOURCE 700
#include <editline/readline.h>
#include <stdlib.h>
#include <string.h>
#include <strings.h>
#include <sys/stat.h>

#include "tool.h"

static const char *pair_name(size_t at)
{
    return at < SNAP_PAIRS ? pair_names[at] : NULL;
}

/* The next name of a list that begins with a text, from the first where it is not `again`. */
static char *next_match(const char *(*name_of)(size_t), const char *text, int again)
{
    static size_t at;
    const char *name;
    if (!again)
        at = 0;
    while ((name = name_of(at)) != NULL) {
        at++;
        if (strncasecmp(name, text, strlen(text)) == 0)
            return strdup(name);
    }
    return NULL;
}

static char *match_command(const char *text, int again)
{
    return next_match(command_name, text, again);
}

static char *match_pair(const char *text, int again)
{
    return next_match(pair_name, text, again);
}

/* Where the open quote is that a place stands behind, or NULL. */
static const char *open_quote(const char *line, int place)
{
    const char *quote = NULL;
    for (int at = 0; at < place && line[at] != 0; at++)
        if (line[at] == '"')
            quote = quote == NULL ? line + at : NULL;
    return quote;
}

/* Between quotes the name begins behind the quote, and what stands before the last word of it is there already. */
static char **match_files(const char *text, int start)
{
    struct stat about;
    const char *quote = open_quote(rl_line_buffer, start);
    size_t there = quote == NULL ? 0 : (size_t)(rl_line_buffer + start - quote - 1);
    char name[PATH_ROOM];
    snprintf(name, sizeof name, "%.*s%s", (int)there, quote == NULL ? "" : quote + 1, text);
    char **matches = rl_completion_matches(name, rl_filename_completion_function);
    if (matches == NULL)
        return NULL;
    bool folder = stat(matches[0], &about) == 0 && S_ISDIR(about.st_mode);
    rl_completion_append_character = folder ? '/' : quote != NULL ? '"' : ' ';
    for (char **match = matches; *match != NULL; match++)
        memmove(*match, *match + there, strlen(*match + there) + 1);
    return matches;
}

static char **complete(const char *text, int start, int end)
{
    const char *line = rl_line_buffer;
    size_t first = strspn(line, " \t"), length = strcspn(line + first, " \t");
    (void)end;
    /* nothing else is offered */
    rl_attempted_completion_over = 1;
    rl_completion_append_character = ' ';
    if ((size_t)start <= first)
        return rl_completion_matches(text, match_command);
    size_t second = first + length + strspn(line + first + length, " \t");
    if (length == 4 && strncasecmp(line + first, "pair", 4) == 0 && (size_t)start == second)
        return rl_completion_matches(text, match_pair);
    if (length == 4 && strncasecmp(line + first, "save", 4) == 0)
        return match_files(text, start);
    return NULL;
}

void begin_completion(void)
{
    rl_attempted_completion_function = complete;
    rl_basic_word_break_characters = " \t\"";
}
