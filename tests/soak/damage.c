/* The file of a request damaged in one place, so that its refusal and the offset of it are known. */
#include "soak.h"

#define ED 0xED

/* A block of the file: its head, and where it ends. */
struct made_block {
    size_t head, end;
    int is_plain;
};

static struct made_block block_at(const struct made *made, size_t head)
{
    size_t size = made->file[head] + made->file[head + 1] * 256u;
    int is_plain = size == 0xFFFF;
    return (struct made_block){head, head + 3 + (is_plain ? SNAP_PAGE_SIZE : size), is_plain};
}

/* One of the blocks but the first so many, each as likely as another. */
static struct made_block pick_block(const struct made *made, unsigned skipped, uint64_t *seed)
{
    struct made_block picked = block_at(made, SNAP_HEADER_SIZE);
    unsigned count = 0, among = 0;
    for (struct made_block block = picked;; block = block_at(made, block.end)) {
        if (count++ >= skipped && next(seed) % ++among == 0)
            picked = block;
        if (block.end == made->length)
            return picked;
    }
}

/* One of the codes of a packed block; it has some. */
static size_t pick_code(const struct made *made, struct made_block block, uint64_t *seed)
{
    size_t picked = 0;
    unsigned among = 0;
    for (size_t at = block.head + 3; at + 3 < block.end;) {
        int is_code = made->file[at] == ED && made->file[at + 1] == ED;
        if (is_code && next(seed) % ++among == 0)
            picked = at;
        at += is_code ? 4 : 1;
    }
    return picked;
}

/* A block's number that no machine has, or that the block before it has. */
static struct refused_at damage_number(struct made *made, uint64_t *seed)
{
    unsigned is_twice = next(seed) % 2;
    struct made_block block = pick_block(made, is_twice, seed), before = block_at(made, SNAP_HEADER_SIZE);
    while (before.end < block.head)
        before = block_at(made, before.end);
    made->file[block.head + 2] = is_twice ? made->file[before.head + 2] : (uint8_t)(11 + next(seed) % 245);
    return (struct refused_at){is_twice ? SNAP_BLOCK_TWICE : SNAP_BLOCK_NUMBER, block.head};
}

/* A code's count that is 0, or one more or less; in a block that is not packed, the number. */
static struct refused_at damage_data(struct made *made, uint64_t *seed)
{
    struct made_block block = pick_block(made, 0, seed);
    if (block.is_plain)
        return damage_number(made, seed);
    size_t code = pick_code(made, block, seed);
    uint8_t *count = &made->file[code + 2];
    int is_malformed = next(seed) % 2 == 0;
    *count = (uint8_t)(is_malformed ? 0 : *count == 255 ? 254 : *count + 1);
    return is_malformed ? (struct refused_at){SNAP_MALFORMED_DATA, code}
                        : (struct refused_at){SNAP_UNPACKED_LENGTH, block.head};
}

struct refused_at damage_file(struct made *made, uint64_t *seed)
{
    uint64_t whole = made->length;
    switch (next(seed) % 6) {
    case 0:
        made->file[60] = 1; /* a Multiface paged in */
        return (struct refused_at){SNAP_BYTE_60, 0};
    case 1:
        made->length += 1 + next(seed) % 2;
        return (struct refused_at){SNAP_BLOCK_CUT, whole};
    case 2:
        return damage_number(made, seed);
    case 3:
    case 4:
        return damage_data(made, seed);
    default:
        made->length = SNAP_HEADER_SIZE + next(seed) % (whole - SNAP_HEADER_SIZE);
        return z80_cut(made->file, (size_t)made->length);
    }
}
