/* Files made here and read: what they hold, or why they are refused, is known. */
#include "made.h"
#include "stack.h"
#include <stdio.h>
#include <string.h>

#define PACKED_V1 0x20 /* in byte 12 of a v1 header */
#define SAMROM_V1 0x10
#define V1_BODY 30u

/* The file that is made: accepted as a 48K (0) or a 128K (1) machine, or refused. */
static void read_accepted(const char *name, int is_128k)
{
    static uint8_t due[SNAP_AREA_SIZE];
    memcpy(due, memory, sizeof due);
    for (unsigned page = 0; !is_128k && page < 8; page++)
        if (page != 0 && page != 2 && page != 5)
            memset(due + page * SNAP_PAGE_SIZE, 0, SNAP_PAGE_SIZE);
    try_file(name, made.bytes, made.length, (struct refused_at){0}, due);
}

static void read_refused(const char *name, uint32_t due, size_t place)
{
    try_file(name, made.bytes, made.length, (struct refused_at){due, place}, NULL);
}

/* The memory of a v1 file, less so many bytes at its end. */
static void put_stream(enum storing storing, size_t less)
{
    static uint8_t stream[3 * SNAP_PAGE_SIZE];
    for (unsigned at = 0; at < 3; at++)
        memcpy(stream + at * SNAP_PAGE_SIZE, memory + pages_48[at] * SNAP_PAGE_SIZE, SNAP_PAGE_SIZE);
    put_data(stream, sizeof stream - less, storing);
}

static void put_marker(void)
{
    const uint8_t marker[4] = {0, ED, ED, 0};
    put_bytes(marker, sizeof marker);
}

static void v1_good(void)
{
    put_header(1, PACKED_V1);
    put_stream(PACKED, 0);
    put_marker();
    read_accepted("v1 packed", 0);
    put_header(1, PACKED_V1);
    put_stream(LONGEST, 0);
    put_marker();
    read_accepted("v1 packed as long as can be", 0);
    put_header(1, 0);
    put_stream(PLAIN, 0);
    read_accepted("v1 plain", 0);
    put_header(1, 255);
    put_stream(PLAIN, 0);
    read_accepted("v1 plain, byte 12 is 255", 0);
}

/* A v1 file whose packed stream lacks its last bytes, and then other ones, which begin with the bad code where there is one. */
static void v1_ends(const char *name, size_t less, const uint8_t *end, size_t count, uint32_t due)
{
    put_header(1, PACKED_V1);
    put_stream(PACKED, less);
    size_t code = made.length;
    put_bytes(end, count);
    read_refused(name, due, due == SNAP_MALFORMED_DATA ? code : due == SNAP_END_MARKER ? made.length : V1_BODY);
}

static void v1_bad(void)
{
    static const uint8_t zero_run[8] = {ED, ED, 0, 0x41, 0, ED, ED, 0}, cut_run[7] = {ED, ED, 3, 0, ED, ED, 0};
    static const uint8_t cut_code[6] = {ED, ED, 0, ED, ED, 0}, marker[4] = {0, ED, ED, 0}, longer[5] = {1, 0, ED, ED, 0};
    static const uint8_t other[4] = {0, ED, ED, 1};
    v1_ends("v1 malformed, a run of 0", 0, zero_run, 8, SNAP_MALFORMED_DATA);
    v1_ends("v1 malformed, a code of 3 bytes", 0, cut_run, 7, SNAP_MALFORMED_DATA);
    v1_ends("v1 malformed, a code of 2 bytes", 0, cut_code, 6, SNAP_MALFORMED_DATA);
    v1_ends("v1 of one byte less", 1, marker, 4, SNAP_UNPACKED_LENGTH);
    v1_ends("v1 of one byte more", 0, longer, 5, SNAP_UNPACKED_LENGTH);
    v1_ends("v1 of half the memory", 24576, marker, 4, SNAP_UNPACKED_LENGTH);
    v1_ends("v1 of nothing", 49152, marker, 4, SNAP_UNPACKED_LENGTH);
    v1_ends("v1 with another marker", 0, other, 4, SNAP_END_MARKER);
    v1_ends("v1 without a marker", 49152, marker, 3, SNAP_END_MARKER);
    put_header(1, PACKED_V1);
    for (unsigned left = 20000; left > 0; left--)
        put_run(255, ED);
    put_marker();
    read_refused("v1 of five million bytes", SNAP_UNPACKED_LENGTH, V1_BODY);
    put_header(1, 0);
    put_stream(PLAIN, 1);
    read_refused("v1 plain, one byte less", SNAP_UNPACKED_LENGTH, V1_BODY);
    put_byte(0);
    put_byte(0);
    read_refused("v1 plain, one byte more", SNAP_UNPACKED_LENGTH, V1_BODY);
    put_header(1, SAMROM_V1);
    read_refused("v1 with SamRom", SNAP_MODE_NOT_CARRIED, 0);
    put_header(1, PACKED_V1);
    made.bytes[29] |= 3;
    read_refused("v1, interrupt mode 3", SNAP_INTERRUPT_MODE, 0);
}

/* Every mode of v2 and v3, or one of each model, stored in three ways. */
static void later_good(unsigned version, int is_each)
{
    static const char *const how[3] = {"packed", "packed as long as can be", "plain"};
    char name[80];
    for (unsigned mode = 0; mode < 256; mode += mode < 10 ? 1 : 245) {
        if (!is_each && mode != 0 && mode != 4)
            continue;
        int is_carried = version == 2 ? mode < 5 && mode != 2 : mode < 7 && mode != 2;
        for (unsigned storing = PACKED; storing <= PLAIN; storing++) {
            snprintf(name, sizeof name, "v%u, mode %u, %s", version, mode, how[storing]);
            put_header(version, (uint8_t)mode);
            put_blocks(version, (uint8_t)mode, (enum storing)storing);
            if (is_carried)
                read_accepted(name, is_128_mode(version, (uint8_t)mode));
            else if (storing == PACKED)
                read_refused(name, SNAP_MODE_NOT_CARRIED, 0);
        }
    }
}

/* A header byte that is refused. */
static void header_bad(unsigned version, unsigned at, uint8_t value, uint32_t due)
{
    char name[80];
    snprintf(name, sizeof name, "v%u, header byte %u is %u", version, at, value);
    put_header(version, version == 2 ? 3 : 4);
    put_blocks(version, made.bytes[34], PACKED);
    made.bytes[at] = value;
    read_refused(name, due, 0);
}

static void headers_bad(void)
{
    for (unsigned version = 2; version <= 3; version++) {
        header_bad(version, 30, 22, SNAP_UNKNOWN_VERSION);
        header_bad(version, 30, 55, SNAP_UNKNOWN_VERSION);
        header_bad(version, 31, 1, SNAP_UNKNOWN_VERSION);
        header_bad(version, 29, 3, SNAP_INTERRUPT_MODE);
    }
    header_bad(3, 56, 0x46, SNAP_COUNTER_RANGE);
    header_bad(3, 57, 4, SNAP_COUNTER_RANGE);
    header_bad(3, 60, 1, SNAP_BYTE_60);
}

/* Some bytes after all blocks, or after all but the last; a bad code is the first of their data. */
static void blocks_end(const char *name, int is_whole, const uint8_t *end, size_t count, uint32_t due)
{
    put_header(3, 0);
    put_blocks(3, 0, PLAIN);
    if (!is_whole)
        made.length -= SNAP_PAGE_SIZE + 3;
    size_t head = made.length;
    put_bytes(end, count);
    read_refused(name, due, due == SNAP_MALFORMED_DATA ? head + 3 : due == SNAP_BLOCK_MISSING ? 0 : head);
}

static void blocks_bad(void)
{
    static const uint8_t head[3] = {1, 0, 4}, strange[4] = {1, 0, 3, 7}, again[4] = {1, 0, 4, 7};
    static const uint8_t zero_run[7] = {4, 0, 5, ED, ED, 0, 7}, cut_run[6] = {3, 0, 5, ED, ED, 9}, one[4] = {1, 0, 5, 7};
    static const uint8_t cut_plain[4] = {255, 255, 5, 7};
    blocks_end("one byte left over", 1, head, 1, SNAP_BLOCK_CUT);
    blocks_end("a block's head cut", 1, head, 2, SNAP_BLOCK_CUT);
    blocks_end("a block without its data", 1, head, 3, SNAP_BLOCK_CUT);
    blocks_end("a plain block cut", 0, cut_plain, 4, SNAP_BLOCK_CUT);
    blocks_end("a strange block", 0, strange, 4, SNAP_BLOCK_NUMBER);
    blocks_end("a block twice", 1, again, 4, SNAP_BLOCK_TWICE);
    blocks_end("a block malformed, a run of 0", 0, zero_run, 7, SNAP_MALFORMED_DATA);
    blocks_end("a block malformed, a code of 3 bytes", 0, cut_run, 6, SNAP_MALFORMED_DATA);
    blocks_end("a block of one byte", 0, one, 4, SNAP_UNPACKED_LENGTH);
    blocks_end("a block missing", 0, one, 0, SNAP_BLOCK_MISSING);
    put_header(3, 4);
    made.length += 3;
    for (unsigned left = 1000; left > 0; left--)
        put_run(255, 7);
    memcpy(made.bytes + SNAP_HEADER_SIZE, "\xA0\x0F\x03", 3);
    read_refused("a block of 255,000 bytes", SNAP_UNPACKED_LENGTH, SNAP_HEADER_SIZE);
}

void try_made(void)
{
    for (unsigned kind = 0; kind < KINDS; kind++) {
        make_memory(kind);
        v1_good();
        v1_bad();
        later_good(2, kind == 0);
        later_good(3, kind == 0);
    }
    headers_bad();
    blocks_bad();
}
