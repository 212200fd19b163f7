/* folders.c: the files to look at: those that are named, and in folders, in the order of their names, those whose names are a
 * snapshot's. */
#define _XOPEN_SOURCE 700
#include <dirent.h>
#include <errno.h>
#include <stdlib.h>
#include <string.h>
#include <strings.h>
#include <sys/stat.h>
#include <unistd.h>

#include "checking.h"

static bool ends_in(const char *name, size_t length, const char *end)
{
    size_t end_length = strlen(end);
    return length >= end_length && strncasecmp(name + length - end_length, end, end_length) == 0;
}

static bool is_snapshot_name(const char *name)
{
    size_t length = strlen(name);
    if (ends_in(name, length, ".gz"))
        length -= 3;
    return ends_in(name, length, ".z80") || ends_in(name, length, ".scs");
}

static void no_memory(struct file_list *list, const char *path)
{
    unread(path, "there is no memory for the list of files");
    list->unread++;
}

/* Takes the path over. */
static void add_path(struct file_list *list, char *path)
{
    if (list->count == list->room) {
        size_t room = list->room > 0 ? 2 * list->room : 64;
        char **paths = realloc(list->paths, room * sizeof *paths);
        if (paths == NULL) {
            no_memory(list, path);
            free(path);
            return;
        }
        list->paths = paths;
        list->room = room;
    }
    list->paths[list->count++] = path;
}

static void unread_folder(struct file_list *list, const char *path)
{
    unread_errno(path, "cannot be opened");
    list->unread++;
}

/* What stands in a folder. A link is what it leads to, but is not followed into a folder: so none is entered twice. What is gone
   since the folder was listed is a file that cannot be opened. */
enum entry_kind { FILE_ENTRY, FOLDER_ENTRY, LINKED_FOLDER, UNREAD_ENTRY };
static enum entry_kind kind_of_entry(const char *path)
{
    struct stat about;
    if (lstat(path, &about) != 0)
        return errno == ENOENT ? FILE_ENTRY : UNREAD_ENTRY;
    if (S_ISLNK(about.st_mode))
        return stat(path, &about) == 0 && S_ISDIR(about.st_mode) ? LINKED_FOLDER : FILE_ENTRY;
    return S_ISDIR(about.st_mode) ? FOLDER_ENTRY : FILE_ENTRY;
}

static void add_folder(struct file_list *list, const char *folder);

static void add_entry(struct file_list *list, const char *folder, const char *name)
{
    size_t length = strlen(folder), size = length + strlen(name) + 2;
    char *path = malloc(size);
    if (path == NULL) {
        no_memory(list, folder);
        return;
    }
    snprintf(path, size, "%s%s%s", folder, folder[length - 1] == '/' ? "" : "/", name);
    enum entry_kind kind = kind_of_entry(path);
    if (kind == FILE_ENTRY && is_snapshot_name(name)) {
        add_path(list, path);
        return;
    }
    if (kind == FOLDER_ENTRY)
        add_folder(list, path);
    if (kind == UNREAD_ENTRY)
        unread_folder(list, path);
    free(path);
}

static int is_not_hidden(const struct dirent *entry)
{
    return entry->d_name[0] != '.';
}

/* By their bytes, whatever the language. */
static int by_name(const struct dirent **one, const struct dirent **other)
{
    return strcmp((*one)->d_name, (*other)->d_name);
}

static void add_folder(struct file_list *list, const char *folder)
{
    struct dirent **entries;
    /* of a folder that may be listed but not entered nothing can be said but that */
    int count = access(folder, X_OK) == 0 ? scandir(folder, &entries, is_not_hidden, by_name) : -1;
    if (count < 0) {
        unread_folder(list, folder);
        return;
    }
    for (int at = 0; at < count; at++) {
        add_entry(list, folder, entries[at]->d_name);
        free(entries[at]);
    }
    free(entries);
}

void add_files(struct file_list *list, const char *name)
{
    struct stat about;
    size_t before = list->count + list->unread;
    if (!is_stream(name) && stat(name, &about) == 0 && S_ISDIR(about.st_mode)) {
        add_folder(list, name);
        if (list->count + list->unread == before)
            warn(name, "there is no .z80 or .scs file in this folder");
        return;
    }
    char *path = malloc(strlen(name) + 1);
    if (path == NULL)
        no_memory(list, name);
    else
        add_path(list, strcpy(path, name));
}

void drop_files(struct file_list *list)
{
    for (size_t at = 0; at < list->count; at++)
        free(list->paths[at]);
    free(list->paths);
    *list = (struct file_list){0};
}
