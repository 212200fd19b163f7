/* refused_at.h: the number, the offset and the figures that soak and stack expect of a file that is read or explained. */
#ifndef REFUSED_AT_H
#define REFUSED_AT_H

#include "snapshot.h"

/* What stands in an offset before a call: no read gives it. */
#define OFFSET_DIRT 0xA5A5A5A5A5A5A5A5u

/* Both are 0 for a file that is accepted. */
struct refused_at {
    uint32_t number;
    uint64_t offset;
};

/* Whether this number has an offset. */
static inline int has_offset(uint32_t number)
{
    return (number >= SNAP_BLOCK_CUT && number <= SNAP_UNPACKED_LENGTH) || number == SNAP_END_MARKER
        || number == SNAP_SCS_BLOCK_TWICE;
}

static inline int is_v1_file(const uint8_t *file)
{
    return file[6] != 0 || file[7] != 0;
}

/* Where the blocks of a .Z80 file begin, or its body. */
static inline size_t header_length(const uint8_t *file)
{
    return is_v1_file(file) ? 30 : file[30] == 23 ? 55 : 86;
}

/* Where the block after the one with this head begins. */
static inline size_t after_block(const uint8_t *file, size_t head)
{
    size_t size = file[head] + file[head + 1] * 256u;
    return head + 3 + (size == 0xFFFF ? SNAP_PAGE_SIZE : size);
}

/* A good .Z80 file of which only so many bytes are read, fewer than it has. */
static inline struct refused_at z80_cut(const uint8_t *file, size_t length)
{
    int is_packed_v1 = file[12] != 255 && (file[12] & 0x20) != 0;
    size_t at = header_length(file);
    if (length < at)
        return (struct refused_at){SNAP_FILE_SHORT, 0};
    if (is_v1_file(file))
        return is_packed_v1 ? (struct refused_at){SNAP_END_MARKER, length} : (struct refused_at){SNAP_UNPACKED_LENGTH, 30};
    for (; at < length; at = after_block(file, at))
        if (after_block(file, at) > length)
            return (struct refused_at){SNAP_BLOCK_CUT, at};
    return (struct refused_at){SNAP_BLOCK_MISSING, 0};
}

/* What snap_z80_explain gives beside its number; as the offset, each is OFFSET_DIRT before a call. */
struct figures_told {
    uint64_t offset, block, found, due;
};
static const struct figures_told figures_dirt = {OFFSET_DIRT, OFFSET_DIRT, OFFSET_DIRT, OFFSET_DIRT};

/* How many blocks of a file begin at an offset or before it; a v1 body is one. Those before the last of them are whole. */
static inline uint64_t blocks_up_to(const uint8_t *file, size_t length, uint64_t offset)
{
    uint64_t count = 0;
    if (is_v1_file(file))
        return 1;
    for (size_t at = header_length(file); at < length && at <= offset; at = length - at < 3 ? length : after_block(file, at))
        count++;
    return count;
}

/* Whether found and due go with the number. */
static inline int figures_fit(uint32_t number, struct figures_told given, const uint8_t *file, size_t length)
{
    uint64_t found = given.found, due = given.due;
    switch (number) {
    case SNAP_FILE_SHORT:
        return found == length && found < due && (due == 30 || due == 32 || due == 55 || due == 86);
    case SNAP_COUNTER_RANGE:
        return found > due && (due == 3 ? found == file[57] : found == file[55] + file[56] * 256u)
            && (due == 3 || due == SNAP_QUARTER_48K - 1 || due == SNAP_QUARTER_128K - 1);
    case SNAP_UNPACKED_LENGTH:
        return found != due && found <= 65536 && due == (is_v1_file(file) ? 3 * SNAP_PAGE_SIZE : SNAP_PAGE_SIZE);
    case SNAP_BLOCK_MISSING:
        return found < due && (due == 3 || due == 8) && found == blocks_up_to(file, length, length);
    default:
        return found == 0 && due == 0;
    }
}

/* Whether all that is explained goes with what reading gives. */
static inline int is_explained(struct refused_at due, struct figures_told given, const uint8_t *file, size_t length)
{
    uint64_t block = has_offset(due.number) ? blocks_up_to(file, length, due.offset) : 0;
    return given.offset == due.offset && given.block == block && figures_fit(due.number, given, file, length);
}

/* A good SCS file of which only so many bytes are read. */
static inline struct refused_at scs_cut(const uint8_t *file, size_t length)
{
    int there[256] = {0};
    size_t at = 15;
    if (length <= at)
        return (struct refused_at){length < at ? SNAP_FILE_SHORT : SNAP_SCS_MEMORY_NOT_FIRST, 0};
    while (at < length && file[at] != 0) {
        const uint8_t *size = file + at + 1;
        uint64_t after = at + 5 + size[0] + size[1] * 256u + size[2] * 65536u + (uint64_t)size[3] * 16777216u;
        if (after > length)
            return (struct refused_at){SNAP_BLOCK_CUT, at};
        there[file[at]] = 1;
        at = (size_t)after;
    }
    return (struct refused_at){there[1] && there[2] ? SNAP_ACCEPTED : SNAP_SCS_BLOCK_MISSING, 0};
}

#endif
