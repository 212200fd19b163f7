/* unread.c: what is said of an input that is not accepted: a line on standard error, or JSON where that is asked for; and of any
 * input that is explained. */
#include <errno.h>
#include <string.h>

#include "checking.h"
#include "tool.h"

static bool as_json, with_bytes;

void tell_in_json(void)
{
    as_json = true;
}

void tell_with_bytes(void)
{
    with_bytes = true;
}

enum status unread(const char *file, const char *sentence)
{
    if (!as_json)
        return cannot(file, sentence);
    clear_for_output();
    print_json_error(stdout, file, sentence);
    return SYSTEM;
}

enum status unread_errno(const char *file, const char *doing)
{
    char sentence[200];
    if (!as_json)
        return cannot_errno(file, doing);
    snprintf(sentence, sizeof sentence, "%s: %s", doing, strerror(errno));
    return unread(file, sentence);
}

static void print_json_line(const char *file, const struct taking *taken)
{
    print_json_taking(stdout, file, taken);
}

static void tell_bytes(const char *file, const struct taking *taken)
{
    if (!with_bytes)
        return;
    fflush(stdout);
    clear_progress();
    show_around(stderr, file, taken);
}

enum status refused_file(const char *file, const struct taking *taken)
{
    char hint[HINT_SIZE], where[WHERE_SIZE];
    hint_for(taken, hint);
    where_refused(taken, where);
    if (as_json)
        print_json_line(file, taken);
    else
        warn(file, hint[0] == 0 ? "refused, %u%s: %s" : "refused, %u%s: %s (%s)", (unsigned)taken->number, where,
             snap_sentence(taken->number), hint);
    tell_bytes(file, taken);
    return REFUSED;
}

static void print_explained(const char *file, const struct taking *taken)
{
    char explanation[EXPLANATION_SIZE];
    explain(taken, explanation);
    if (is_accepted(taken))
        printf("%s: %s\n", shown(file), explanation);
    else
        printf("%s: refused, %u: %s\n", shown(file), (unsigned)taken->number, explanation);
}

void explained_file(const char *file, const struct taking *taken)
{
    clear_for_output();
    (as_json ? print_json_line : print_explained)(file, taken);
    if (!is_accepted(taken))
        tell_bytes(file, taken);
}
