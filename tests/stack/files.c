/* Files to read: kept for the threads, tried with every wrong length of the buffers, and cut. */
#include "stack.h"
#include <stdio.h>
#include <stdlib.h>
#include <string.h>

#define TABLE "tests/files/expected.txt"

struct file files[FILES_MOST];
unsigned file_count;

static void stop(const char *what, const char *name)
{
    printf("FAIL %s: %s\n", name, what);
    exit(1);
}

const struct file *keep(enum function reader, const char *name, const uint8_t *bytes, size_t length)
{
    if (file_count == FILES_MOST)
        stop("too many files", name);
    struct file *file = &files[file_count++];
    char *kept_name = malloc(strlen(name) + 1);
    file->bytes = malloc(length + 1);
    if (file->bytes == NULL || kept_name == NULL)
        stop("no memory", name);
    file->name = strcpy(kept_name, name);
    file->reader = reader;
    file->length = length;
    if (length > 0)
        memcpy(file->bytes, bytes, length);
    return file;
}

struct tried_call read_call(const struct file *file)
{
    struct tried_call call = usual(file->reader, &ordinary);
    call.file = file->bytes;
    call.file_len = file->length;
    return call;
}

/* Areas and header buffers of other lengths, and both. */
void try_read_lengths(const struct file *file)
{
    static const size_t areas[4] = {0, 1, SNAP_AREA_SIZE - 1, SNAP_AREA_SIZE + 1};
    static const size_t headers[4] = {0, 30, SNAP_HEADER_SIZE - 1, SNAP_HEADER_SIZE + 1};
    for (unsigned at = 0; at < 4; at++) {
        struct tried_call call = read_call(file);
        call.area_len = areas[at];
        try_read(file->name, &call, (struct refused_at){SNAP_AREA_LENGTH, 0});
        call.header_len = headers[at];
        try_read(file->name, &call, (struct refused_at){SNAP_INVALID_MACHINE, 0});
        call.area_len = SNAP_AREA_SIZE;
        try_read(file->name, &call, (struct refused_at){SNAP_INVALID_MACHINE, 0});
    }
}

static void try_cut(const struct file *file, size_t length)
{
    struct tried_call call = read_call(file);
    call.file_len = length;
    try_read(file->name, &call, z80_cut(file->bytes, length));
    try_explain(file->name, call, z80_cut(file->bytes, length));
}

/* No beginning of an accepted file is accepted. */
static void try_cuts(const struct file *file)
{
    size_t step = file->length / 40 + 1, length = 0;
    for (; length < 90; length++)
        try_cut(file, length);
    for (; length < file->length; length += step)
        try_cut(file, length);
    try_cut(file, file->length - 1);
}

/* Whether the last OUTs, byte 37 and the sound registers are as they are read from this file. */
static int are_ports_read(const uint8_t *file, const uint8_t *header)
{
    static const uint8_t none[55];
    const uint8_t *from = is_v1_file(file) ? none : file;
    int is_128k = is_128(header), has_chip = is_128k || (from[37] & SNAP_EMULATION_SOUND) != 0;
    return header[35] == (is_128k ? from[35] : 0) && header[37] == (from[37] & (is_128k ? 3 : 7))
        && memcmp(header + 38, has_chip ? from + 38 : none, 17) == 0;
}

/* The file as it is; accepted, it is also cut, its area and its ports compared, and its machine used. */
void try_file(const char *name, const uint8_t *bytes, size_t length, struct refused_at due, const uint8_t *area)
{
    static const uint8_t zeros[SNAP_AREA_SIZE];
    const struct file *file = keep(READ, name, bytes, length);
    struct tried_call call = read_call(file);
    try_read_lengths(file);
    if (due.number == 0)
        try_cuts(file);
    try_explain(file->name, call, due);
    try_read(file->name, &call, due);
    if (due.number != 0)
        area = zeros;
    if (area != NULL)
        expect_holds(file->name, "the area is not what it must be", memcmp(ordinary.area, area, SNAP_AREA_SIZE) == 0);
    if (due.number != 0)
        return;
    expect_holds(file->name, "the ports are not what they must be", are_ports_read(bytes, ordinary.header));
    use_machine(file->name);
}

/* The number that reading a stored file gives: the table's, and 0 for a sample. All that are refused have a bad header. */
static uint32_t due_of_file(const char *path)
{
    char name[100], sum[20];
    unsigned number;
    const char *last = strrchr(path, '/');
    if (strncmp(path, "samples/", 8) == 0)
        return 0;
    FILE *table = fopen(TABLE, "r");
    if (table == NULL || last == NULL)
        stop("no " TABLE, path);
    while (fscanf(table, "%99s %u %19s", name, &number, sum) == 3)
        if (strcmp(name, last + 1) == 0) {
            fclose(table);
            return number;
        }
    stop("not in " TABLE, path);
    return 0;
}

void try_stored(const char *path)
{
    static uint8_t bytes[1 << 20];
    FILE *from = fopen(path, "rb");
    if (from == NULL)
        stop("cannot be opened", path);
    size_t length = fread(bytes, 1, sizeof bytes, from);
    fclose(from);
    try_file(path, bytes, length, (struct refused_at){due_of_file(path), 0}, NULL);
}
