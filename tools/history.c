/* history.c: the lines typed at the prompt, kept between runs. Where they cannot be kept, they are not, without a word. */
#define _XOPEN_SOURCE 700
#include <editline/readline.h>
#include <errno.h>
#include <stdlib.h>
#include <string.h>
#include <sys/stat.h>

#include "tool.h"

/* With the mark that libedit puts before them, 1000 lines in the file. */
#define HISTORY_LINES 999
#define HISTORY_BYTES (1 << 20)

static bool history_name(char name[PATH_ROOM])
{
    const char *state = getenv("XDG_STATE_HOME"), *home = getenv("HOME");
    int length = -1;
    if (state != NULL && state[0] == '/')
        length = snprintf(name, PATH_ROOM, "%s/snapshot/history", state);
    else if (home != NULL && home[0] == '/')
        length = snprintf(name, PATH_ROOM, "%s/.local/state/snapshot/history", home);
    return length > 0 && length < PATH_ROOM;
}

/* Anything but a file of a fitting size is left alone. */
static bool fits(const char *name)
{
    struct stat about;
    if (stat(name, &about) != 0)
        return errno == ENOENT;
    return S_ISREG(about.st_mode) && about.st_size <= HISTORY_BYTES;
}

static void make_folders(char *name)
{
    for (char *slash = strchr(name + 1, '/'); slash != NULL; slash = strchr(slash + 1, '/')) {
        *slash = 0;
        mkdir(name, 0700);
        *slash = '/';
    }
}

void load_history(void)
{
    char name[PATH_ROOM];
    using_history();
    stifle_history(HISTORY_LINES);
    if (history_name(name) && fits(name))
        read_history(name);
}

void keep_history(void)
{
    char name[PATH_ROOM];
    if (!history_name(name) || !fits(name))
        return;
    make_folders(name);
    mode_t mask = umask(077);
    write_history(name);
    umask(mask);
}
