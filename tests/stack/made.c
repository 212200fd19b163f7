/* The parts of a file: memory of several kinds, headers, packed data, blocks. */
#include "made.h"
#include "stack.h"
#include <string.h>

uint8_t memory[SNAP_AREA_SIZE];
struct making made;
const uint8_t pages_48[3] = {5, 2, 0}, blocks_48[3] = {8, 4, 5};

/* splitmix64 */
uint64_t next(uint64_t *seed)
{
    uint64_t word = *seed += 0x9E3779B97F4A7C15u;
    word = (word ^ word >> 30) * 0xBF58476D1CE4E5B9u;
    word = (word ^ word >> 27) * 0x94D049BB133111EBu;
    return word ^ word >> 31;
}

/* Noise, short runs, long runs, one long run, mostly ED. */
void make_memory(unsigned kind)
{
    static const unsigned longest[KINDS] = {1, 6, 255, SNAP_AREA_SIZE, 3};
    uint64_t seed = kind;
    for (unsigned at = 0; at < SNAP_AREA_SIZE;) {
        uint64_t word = next(&seed);
        uint8_t byte = kind == 4 && word % 3 != 0 ? ED : (uint8_t)(word >> 8);
        for (unsigned left = 1 + (unsigned)(word >> 32) % longest[kind]; left > 0 && at < SNAP_AREA_SIZE; left--)
            memory[at++] = byte;
    }
    memory[SNAP_PAGE_SIZE - 1] = 1; /* the end of the v1 stream is no ED, so that a code may follow it */
}

void put_byte(uint8_t byte)
{
    made.bytes[made.length++] = byte;
}

void put_bytes(const uint8_t *bytes, size_t count)
{
    memcpy(made.bytes + made.length, bytes, count);
    made.length += count;
}

void put_run(uint8_t count, uint8_t byte)
{
    const uint8_t code[4] = {ED, ED, count, byte};
    put_bytes(code, 4);
}

static void put_packed(const uint8_t *from, size_t count)
{
    for (size_t at = 0; at < count;) {
        size_t run = 1;
        while (run < 255 && at + run < count && from[at + run] == from[at])
            run++;
        if (run >= 5 || (from[at] == ED && run >= 2)) {
            put_run((uint8_t)run, from[at]);
            at += run;
            continue;
        }
        put_byte(from[at]);
        if (from[at++] == ED && at < count)
            put_byte(from[at++]);
    }
}

/* LONGEST: a run of 1 for each byte but one, which leaves a packed page 65,533 bytes long. */
void put_data(const uint8_t *from, size_t count, enum storing storing)
{
    if (storing == PLAIN) {
        put_bytes(from, count);
    } else if (storing == PACKED) {
        put_packed(from, count);
    } else {
        for (size_t at = 0; at + 1 < count; at++)
            put_run(1, from[at]);
        put_byte(from[count - 1]);
    }
}

/* A file begins: a header of version 1, 2 or 3 with other registers each time. In v1 the mode is byte 12. */
void put_header(unsigned version, uint8_t mode)
{
    static const size_t lengths[4] = {0, 30, 55, 86};
    static uint64_t seed = 1;
    uint8_t *header = made.bytes;
    made.length = lengths[version];
    for (unsigned at = 0; at < made.length; at++)
        header[at] = (uint8_t)next(&seed);
    header[29] = (uint8_t)((header[29] & 0xFC) | header[28] % 3);
    header[6] = header[7] = version == 1 ? 0x80 : 0;
    if (version == 1) {
        header[12] = mode;
        return;
    }
    header[30] = version == 2 ? 23 : 54;
    header[31] = 0;
    header[34] = mode;
    header[35] &= 0xDF; /* paging is not locked */
    if (version == 2)
        return;
    header[56] &= 0x3F;
    header[57] &= 3;
    header[60] = 0;
}

void put_block(uint8_t number, const uint8_t *page, enum storing storing)
{
    size_t head = made.length;
    made.length += 3;
    put_data(page, SNAP_PAGE_SIZE, storing);
    size_t size = storing == PLAIN ? 0xFFFF : made.length - head - 3;
    made.bytes[head] = (uint8_t)size;
    made.bytes[head + 1] = (uint8_t)(size / 256);
    made.bytes[head + 2] = number;
}

int is_128_mode(unsigned version, uint8_t mode)
{
    return version == 2 ? mode >= 3 : mode >= 4;
}

/* All blocks of the machine. */
void put_blocks(unsigned version, uint8_t mode, enum storing storing)
{
    if (is_128_mode(version, mode))
        for (unsigned page = 0; page < 8; page++)
            put_block((uint8_t)(page + 3), memory + page * SNAP_PAGE_SIZE, storing);
    else
        for (unsigned at = 0; at < 3; at++)
            put_block(blocks_48[at], memory + pages_48[at] * SNAP_PAGE_SIZE, storing);
}
