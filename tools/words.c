/* words.c: a line of an editing session, taken apart in place. */
#include <string.h>

#include "tool.h"

/* The word after an opening quote; `rest` is left after the closing one. */
static const char *take_quoted(char **rest)
{
    char *from = *rest, *to = *rest;
    while (*from != '"') {
        if (*from == 0)
            return "the closing quote is missing";
        if (*from == '\\' && *++from != '"' && *from != '\\')
            return "between quotes a backslash stands before \" or \\ alone";
        *to++ = *from++;
    }
    *rest = from + 1;
    if (strchr(" \t;", **rest) == NULL)
        return "after a closing quote comes a blank";
    *to = 0;
    return NULL;
}

const char *take_words(char *text, struct line *line)
{
    line->count = 0;
    for (char *rest = text; (rest += strspn(rest, " \t"))[0] != 0 && rest[0] != ';';) {
        struct word word = {.text = rest, .quoted = rest[0] == '"'};
        const char *wrong = NULL;
        if (word.quoted) {
            word.text = ++rest;
            wrong = take_quoted(&rest);
        } else {
            rest += strcspn(rest, " \t;");
        }
        if (wrong != NULL)
            return wrong;
        bool comment = *rest == ';';
        if (line->count < LINE_WORDS)
            line->words[line->count] = word;
        if (line->count <= LINE_WORDS)
            line->count++;
        if (*rest != 0)
            *rest++ = 0;
        if (comment)
            break;
    }
    return NULL;
}
