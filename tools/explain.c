/* explain.c: what is found of a file that is looked through, as one sentence with its figures. */
#include "checking.h"

/* Where the number of a .Z80 block stands in its head. */
#define Z80_BLOCK_NUMBER 2u
/* The library counts no further. */
#define COUNTED_MOST 65536u
#define HIGH_COUNTER_MOST 3u

/* The block, or the body of a version 1 file, and the byte; nothing where there is no place. */
static int put_place(const struct taking *taken, char *text, size_t room)
{
    if (taken->block == 0)
        return 0;
    if (taken->version == 1)
        return snprintf(text, room, "the body, at byte %u: ", (unsigned)taken->offset);
    return snprintf(text, room, "block %u, at byte %u: ", (unsigned)taken->block, (unsigned)taken->offset);
}

/* Whether it is the body of a version 1 file that is not packed: bit 5 of byte 12, where 255 counts as 1. */
static bool is_plain_body(const struct taking *taken)
{
    uint8_t flags = taken->bytes[SNAP_AT_FLAGS];
    return taken->version == 1 && (flags == 255 || (flags & 32) == 0);
}

static const char *bytes_word(uint64_t count)
{
    return count == 1 ? "byte" : "bytes";
}

/* Why a .Z80 file is refused. The head of a block that is refused for its number is there. */
static int put_reason(const struct taking *taken, char *text, size_t room)
{
    const uint8_t *head = taken->bytes + taken->offset;
    char found[GROUPED_SIZE], due[GROUPED_SIZE];
    grouped(taken->found, found);
    grouped(taken->due, due);
    switch (taken->number) {
    case SNAP_FILE_SHORT:
        return snprintf(text, room, "the file is shorter than its header: it has %s %s, at least %s are due", found,
                        bytes_word(taken->found), due);
    case SNAP_COUNTER_RANGE:
        return snprintf(text, room, "the %s T state counter is %s, its largest is %s",
                        taken->due == HIGH_COUNTER_MOST ? "high" : "low", found, due);
    case SNAP_BLOCK_CUT:
        return snprintf(text, room, "the file ends inside it");
    case SNAP_BLOCK_NUMBER:
        return snprintf(text, room, "its number is %u, which this machine does not have", head[Z80_BLOCK_NUMBER]);
    case SNAP_BLOCK_TWICE:
        return snprintf(text, room, "its number is %u, which an earlier block has", head[Z80_BLOCK_NUMBER]);
    case SNAP_MALFORMED_DATA:
        return snprintf(text, room, "packed data are malformed there");
    case SNAP_UNPACKED_LENGTH:
        return snprintf(text, room, "it %s %s %s%s, %s are due", is_plain_body(taken) ? "has" : "unpacks to", found,
                        bytes_word(taken->found), taken->found == COUNTED_MOST ? " or more" : "", due);
    case SNAP_BLOCK_MISSING:
        return snprintf(text, room, "%s of %s blocks %s there", found, due, taken->found == 1 ? "is" : "are");
    case SNAP_END_MARKER:
        return snprintf(text, room, "the file ends without its end marker");
    default:
        return snprintf(text, room, "%s", snap_sentence(taken->number));
    }
}

static void explain_good(const struct taking *taken, char text[EXPLANATION_SIZE])
{
    const char *wrapped = taken->unwrapped ? " in gzip" : "";
    if (taken->kind == SCS_FILE)
        snprintf(text, EXPLANATION_SIZE, "good, SCS%s", wrapped);
    else
        snprintf(text, EXPLANATION_SIZE, "good, version %u%s", taken->version, wrapped);
}

void explain(const struct taking *taken, char text[EXPLANATION_SIZE])
{
    char hint[HINT_SIZE];
    int length = 0;
    if (is_accepted(taken)) {
        explain_good(taken, text);
        return;
    }
    if (taken->unwrapped)
        length += snprintf(text, EXPLANATION_SIZE, "unwrapped, ");
    length += put_place(taken, text + length, EXPLANATION_SIZE - (size_t)length);
    if (taken->kind == SCS_FILE)
        length += snprintf(text + length, EXPLANATION_SIZE - (size_t)length, "%s", snap_sentence(taken->number));
    else
        length += put_reason(taken, text + length, EXPLANATION_SIZE - (size_t)length);
    hint_for(taken, hint);
    if (hint[0] != 0)
        snprintf(text + length, EXPLANATION_SIZE - (size_t)length, " (%s)", hint);
}
