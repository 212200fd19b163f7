/* Files that are read once into a clean area, and again and again into dirty slots. */
#include "soak.h"
#include <stdio.h>
#include <stdlib.h>
#include <string.h>

#define MOST 1000

static struct stored_file {
    uint8_t *file;
    size_t length;
    struct refused_at first;
    uint8_t header[SNAP_HEADER_SIZE];
    uint8_t *area;
} files[MOST];
static size_t count;

static void fail(const char *what, const char *name)
{
    printf("FAIL %s: %s\n", name, what);
    exit(1);
}

static int is_scs_file(const struct stored_file *stored)
{
    return stored->length >= 8 && memcmp(stored->file, "SamSnap!", 8) == 0;
}

static uint32_t read_into(const struct stored_file *stored, uint8_t *area, uint8_t *header, uint64_t *offset)
{
    *offset = OFFSET_DIRT;
    if (is_scs_file(stored))
        return snap_scs_read(stored->file, stored->length, area, SNAP_AREA_SIZE, header, SNAP_HEADER_SIZE, offset);
    return snap_z80_read(stored->file, stored->length, area, SNAP_AREA_SIZE, header, SNAP_HEADER_SIZE, offset);
}

/* A .z80 file, or an input of the fuzz target: a file, SCS files among them, after its first two bytes. */
void store(const char *name)
{
    static uint8_t bytes[1 << 20];
    if (count == MOST)
        fail("too many files", name);
    FILE *from = fopen(name, "rb");
    if (from == NULL)
        fail("cannot be opened", name);
    size_t length = fread(bytes, 1, sizeof bytes, from);
    fclose(from);
    size_t skipped = strstr(name, ".z80") == NULL && length >= 2 ? 2 : 0;
    struct stored_file *stored = &files[count++];
    stored->length = length - skipped;
    stored->file = malloc(length + 1);
    stored->area = calloc(1, SNAP_AREA_SIZE);
    if (stored->file == NULL || stored->area == NULL)
        fail("no memory", name);
    memcpy(stored->file, bytes + skipped, stored->length);
    struct refused_at *first = &stored->first;
    first->number = read_into(stored, stored->area, stored->header, &first->offset);
    if (has_offset(first->number) ? first->offset == 0 || first->offset > stored->length : first->offset != 0)
        fail("its number and its offset do not go together", name);
}

void stored_request(struct server_slot *slot, uint64_t *seed)
{
    const struct stored_file *stored = &files[next(seed) % count];
    expect_read(slot, read_into(stored, slot->area, slot->header, &slot->offset), stored->first);
    if (!is_scs_file(stored))
        expect_explained(stored->file, stored->length, stored->first);
    if (stored->first.number != 0)
        expect_refused(slot);
    expect_bytes("area", slot->area, stored->area, SNAP_AREA_SIZE);
    expect_bytes("header", slot->header, stored->header, SNAP_HEADER_SIZE);
}
