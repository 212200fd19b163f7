/* The unpackers and the packers of two builds in one process: the time of this one as a ratio of the other one's, over all
   packed blocks of some files and over all their pages. The other archive's functions are linked with other_ before their names. Run by
   bench/beside, which tells OTHER_VERSION. */
#include "beside.h"
#include <stdint.h>
#include <stdio.h>
#include <string.h>

enum { BLOCKS = 512, FILES_ROOM = 8 << 20, PAGE = 16384, PACKED_MOST = 27306 };

uint32_t packing_pack(const uint8_t *, size_t, uint8_t *, size_t, uint64_t *);
uint32_t other_packing_pack(const uint8_t *, size_t, uint8_t *, size_t, uint64_t *);
uint32_t packing_unpack(const uint8_t *, size_t, uint8_t *, size_t, uint64_t *, uint64_t *);
/* before version 400 it tells no place, before 500 no length */
#if OTHER_VERSION < 400
uint32_t other_packing_unpack(const uint8_t *, size_t, uint8_t *, size_t);
#define OTHER_UNPACK(src, length) other_packing_unpack(src, length, page, PAGE)
#elif OTHER_VERSION < 500
uint32_t other_packing_unpack(const uint8_t *, size_t, uint8_t *, size_t, uint64_t *);
#define OTHER_UNPACK(src, length) other_packing_unpack(src, length, page, PAGE, &place)
#else
uint32_t other_packing_unpack(const uint8_t *, size_t, uint8_t *, size_t, uint64_t *, uint64_t *);
#define OTHER_UNPACK(src, length) other_packing_unpack(src, length, page, PAGE, &place, &found)
#endif

static uint8_t all[FILES_ROOM], page[PAGE], pages[BLOCKS][PAGE], packed[PACKED_MOST];
static struct packed_block { const uint8_t *data; size_t length; } blocks[BLOCKS];
static int count, page_count;
static uint64_t place, found;

/* The blocks of a v2 or v3 file: the packed ones that both unpack to a page, and the pages of all. */
static void take_blocks(const uint8_t *file, size_t length)
{
    if (length < 86 || file[6] || file[7]) return;
    for (size_t at = file[30] == 23 ? 55 : 86, size; at + 3 <= length; at += 3 + size) {
        const uint8_t *data = file + at + 3;
        size = file[at] + file[at + 1] * 256u;
        int plain = size == 65535;
        if (plain) size = PAGE;
        if (length - at - 3 < size || page_count == BLOCKS) return;
        if (!plain && (packing_unpack(data, size, page, PAGE, &place, &found) || OTHER_UNPACK(data, size))) continue;
        memcpy(pages[page_count++], plain ? data : page, PAGE);
        if (!plain) blocks[count++] = (struct packed_block){ data, size };
    }
}

static void unpack_all(int ours)
{
    for (int i = 0; i < count; i++) {
        if (ours) packing_unpack(blocks[i].data, blocks[i].length, page, PAGE, &place, &found);
        else OTHER_UNPACK(blocks[i].data, blocks[i].length);
    }
}

static void pack_all(int ours)
{
    for (int i = 0; i < page_count; i++) (ours ? packing_pack : other_packing_pack)(pages[i], PAGE, packed, PACKED_MOST, &found);
}

static double seconds(void (*work)(int), int ours)
{
    double start = now();
    work(ours);
    return now() - start;
}

static void timed(const char *name, void (*work)(int), int over, const char *what)
{
    double ratio[ROUNDS];
    for (int round = 0; round < ROUNDS; round++) {
        work(1), work(0);
        double ours, theirs;
        if (round % 2) { ours = seconds(work, 1); theirs = seconds(work, 0); }
        else { theirs = seconds(work, 0); ours = seconds(work, 1); }
        ratio[round] = ours / theirs;
    }
    printf("  %-18s %.2f  (%d %s)\n", name, median(ratio), over, what);
}

int main(int argc, char **argv)
{
    size_t used = 0;
    for (int i = 1; i < argc; i++) {
        FILE *f = fopen(argv[i], "rb");
        if (!f) return 2;
        size_t length = fread(all + used, 1, sizeof all - used, f);
        fclose(f);
        take_blocks(all + used, length);
        used += length;
    }
    if (!count) return 2;
    timed("unpacking", unpack_all, count, "packed blocks");
    timed("packing", pack_all, page_count, "pages");
    return 0;
}
