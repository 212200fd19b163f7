/* opening.c: the bytes of a file taken as a snapshot: a .Z80 or SCS file, or one of them in gzip. */
#include "tool.h"

#define SCS_LONG "longer than 5,242,880 bytes, the most that is read of an SCS file"
#define Z80_LONG "longer than any file of its kind"
#define GZIP_LONG "longer than 5,242,880 bytes, the most that is read of a file in gzip"
#define UNWRAPPED "unwrapped, it is "

/* What is wrong with a length, or NULL. What is only looked through may be longer than any .Z80 file that can be opened. */
static const char *too_long(const uint8_t *bytes, size_t length, bool unwrapped, bool is_opened)
{
    if (is_scs(bytes, length))
        return length <= INPUT_MOST ? NULL : unwrapped ? UNWRAPPED SCS_LONG : SCS_LONG;
    size_t most = is_opened ? SNAP_READ_MOST : INPUT_MOST;
    return length <= most ? NULL : unwrapped ? UNWRAPPED Z80_LONG : Z80_LONG;
}

/* Only what is opened needs an area; why a file is refused is asked for afterwards. */
static void take_z80(struct taking *taken, struct snapshot *opened)
{
    const uint8_t *bytes = taken->bytes;
    size_t length = taken->length;
    if (opened != NULL)
        taken->number = snap_z80_read(bytes, length, opened->area, sizeof opened->area, opened->header, sizeof opened->header,
                                      &taken->offset);
    if (opened == NULL || taken->number != SNAP_ACCEPTED)
        taken->number = snap_z80_explain(bytes, length, &taken->offset, &taken->block, &taken->found, &taken->due);
}

static void take_scs(struct taking *taken, struct snapshot *opened)
{
    static struct snapshot looked_through;
    struct snapshot *into = opened != NULL ? opened : &looked_through;
    taken->number = snap_scs_read(taken->bytes, taken->length, into->area, sizeof into->area, into->header, sizeof into->header,
                                  &taken->offset);
    taken->block = scs_block_with(taken->bytes, taken->length, taken->offset);
}

static struct taking take_plain(const uint8_t *bytes, size_t length, bool unwrapped, struct snapshot *opened)
{
    bool scs = is_scs(bytes, length);
    struct taking taken = {.fault = too_long(bytes, length, unwrapped, opened != NULL),
                           .kind = scs ? SCS_FILE : Z80_FILE, .version = scs ? 0 : version_of(bytes, length),
                           .bytes = bytes, .length = length, .unwrapped = unwrapped};
    if (taken.fault == NULL)
        (scs ? take_scs : take_z80)(&taken, opened);
    return taken;
}

bool is_accepted(const struct taking *taken)
{
    return taken->fault == NULL && taken->number == SNAP_ACCEPTED;
}

/* What stands in a wrapper; no second one. */
static struct taking take_wrapped(const uint8_t *file, size_t length, struct snapshot *opened)
{
    static uint8_t inside[INPUT_MOST + 1];
    size_t inside_length;
    if (length > INPUT_MOST)
        return (struct taking){.fault = GZIP_LONG};
    const char *fault = unwrap(file, length, inside, sizeof inside, &inside_length);
    if (fault != NULL)
        return (struct taking){.fault = fault};
    struct taking taken = take_plain(inside, inside_length, true, opened);
    if (!is_accepted(&taken) && begins_as_gzip(inside, inside_length))
        taken.fault = "in its gzip wrapper there is another";
    return taken;
}

/* Registers may look like a wrapper: what is no whole one may be a .Z80 file, and is one where that is accepted. */
static struct taking take_either(const uint8_t *file, size_t length, struct snapshot *opened)
{
    if (!begins_as_gzip(file, length))
        return take_plain(file, length, false, opened);
    struct taking taken = take_wrapped(file, length, opened);
    if (taken.fault == NULL)
        return taken;
    struct taking plain = take_plain(file, length, false, opened);
    return is_accepted(&plain) ? plain : taken;
}

struct taking take_snapshot(const uint8_t *file, size_t length, struct snapshot *opened)
{
    struct taking taken = take_either(file, length, opened);
    if (opened != NULL && is_accepted(&taken)) {
        opened->kind = taken.kind;
        opened->version = taken.version;
        opened->says_16k = taken.kind == Z80_FILE && says_16k(taken.bytes, taken.length);
        opened->length = length;
        opened->unwrapped = taken.unwrapped ? taken.length : 0;
    }
    return taken;
}
