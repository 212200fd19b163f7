/* known.c: the files that a run has opened or saved, each as it was then. */
#define _XOPEN_SOURCE 700
#include <stdlib.h>
#include <string.h>

#include "tool.h"

static struct known_file *find(struct known_file *known, const char *target)
{
    while (known != NULL && strcmp(known->target, target) != 0)
        known = known->next;
    return known;
}

/* Where there is no memory the file stays unknown, and is not replaced. */
void know(struct known_file **list, const char *target, struct file_state state)
{
    struct known_file *known = find(*list, target);
    if (known == NULL && (known = malloc(sizeof *known + strlen(target) + 1)) != NULL) {
        strcpy(known->target, target);
        known->next = *list;
        *list = known;
    }
    if (known != NULL)
        known->state = state;
}

void know_input(struct known_file **list, const char *name)
{
    char target[PATH_ROOM];
    struct file_state state;
    if (realpath(name, target) != NULL && look_at(target, &state))
        know(list, target, state);
}

const char *changed(struct known_file *list, const char *target, const struct file_state *now)
{
    const struct known_file *known = find(list, target);
    struct file_state before = known != NULL ? known->state : (struct file_state){0};
    if (!before.present && now->present)
        return "is there and was not opened or saved here; 'save --force' replaces it, 'save NAME' saves elsewhere";
    if (before.present && !now->present)
        return "is gone since it was opened or saved here; 'save --force' makes it again, 'save NAME' saves elsewhere";
    if (before.length != now->length || before.sum != now->sum)
        return "was changed since it was opened or saved here; 'save --force' replaces it, 'save NAME' saves elsewhere";
    return NULL;
}

void forget(struct known_file *known)
{
    while (known != NULL) {
        struct known_file *next = known->next;
        free(known);
        known = next;
    }
}
