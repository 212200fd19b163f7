/* promises.c: promises FILE, of a 128K machine. What the header file says of a log's bytes and of a log that was stored, of
 * pages that a machine does not own, and of the ROM's length. */
#include <assert.h>
#include <stdio.h>
#include <string.h>

#include "snapshot.h"

static uint8_t file[SNAP_READ_MOST], out[SNAP_FILE_MOST], again[SNAP_FILE_MOST];

static struct bench {
    uint8_t header[SNAP_HEADER_SIZE], area[SNAP_AREA_SIZE], log[4 * SNAP_LOG_STEP];
    uint64_t standing, total;
} start, bench, other;

#define LENT(b) \
    (b).header, sizeof (b).header, (b).area, sizeof (b).area, (b).log, sizeof (b).log, &(b).standing, &(b).total

static unsigned word_at(const uint8_t *bytes)
{
    return bytes[0] | (unsigned)bytes[1] << 8;
}

static void holds(unsigned step, unsigned tag, unsigned index, unsigned offset, unsigned old, unsigned new)
{
    const uint8_t *bytes = bench.log + step * SNAP_LOG_STEP;
    assert(bytes[SNAP_STEP_TAG] == tag && word_at(bytes + SNAP_STEP_LENGTH) == 8 && bytes[SNAP_STEP_INDEX] == index);
    assert(word_at(bytes + SNAP_STEP_OFFSET) == offset && word_at(bytes + SNAP_STEP_OLD) == old);
    assert(word_at(bytes + SNAP_STEP_NEW) == new && bytes[SNAP_STEP_END] == 0);
}

static void steps_by_name(void)
{
    bench = start;
    assert(snap_correct_out(LENT(bench), SNAP_7FFD_SCREEN + 5) == SNAP_ACCEPTED);
    assert(snap_correct_byte(LENT(bench), 0xC110, 0x7E) == SNAP_ACCEPTED);
    assert(snap_correct_pair(LENT(bench), SNAP_DE_ALT, 0x1234) == SNAP_ACCEPTED);
    holds(0, SNAP_STEP_OUT, 0, 0, start.header[SNAP_AT_OUT_7FFD], bench.header[SNAP_AT_OUT_7FFD]);
    holds(1, SNAP_STEP_BYTE, 5, 0x110, 0, 0x7E);
    holds(2, SNAP_STEP_PAIR, SNAP_DE_ALT, 0, 0, 0x1234);
    assert(word_at(bench.header + SNAP_AT_DE_ALT) == 0x1234 && bench.header[SNAP_AT_OUT_7FFD] == SNAP_7FFD_SCREEN + 5);
}

/* Handed back later: whole, with numbers that lead out of it or are wrong inside it, damaged, and to another machine. */
static void later(void)
{
    struct bench stored = bench;
    other = stored;
    for (unsigned k = 0; k < 3; k++)
        assert(snap_undo(LENT(other)) == SNAP_ACCEPTED);
    assert(memcmp(other.header, start.header, sizeof start.header) == 0);
    assert(memcmp(other.area, start.area, sizeof start.area) == 0);
    other = stored, other.total = 5;
    assert(snap_undo(LENT(other)) == SNAP_COUNTS_DISAGREE);
    other = stored, other.standing = 1;
    assert(snap_undo(LENT(other)) == SNAP_ACCEPTED && memcmp(other.log, stored.log, sizeof stored.log) == 0);
    other = stored, other.log[2 * SNAP_LOG_STEP + SNAP_STEP_NEW] ^= 1;
    assert(snap_undo(LENT(other)) == SNAP_STEP_DAMAGED);
    other = stored, other.log[SNAP_STEP_TAG] = 0;
    assert(snap_undo(LENT(other)) == SNAP_ACCEPTED);
    other = start, memcpy(other.log, stored.log, sizeof stored.log), other.standing = other.total = 3;
    assert(snap_undo(LENT(other)) == SNAP_STEP_DAMAGED);
    memcpy(other.header + SNAP_AT_DE_ALT, stored.header + SNAP_AT_DE_ALT, 2);
    assert(snap_undo(LENT(other)) == SNAP_ACCEPTED);
}

/* A 48K machine of the same memory: what stands in a page that is not its own changes nothing. */
static void pages_not_owned(void)
{
    uint64_t length, length_again, offset = 7;
    other = start;
    other.header[SNAP_AT_MODE] = SNAP_MODE_48K;
    other.header[SNAP_AT_OUT_7FFD] = 0;
    assert(snap_z80_write(other.header, sizeof other.header, other.area, sizeof other.area, out, sizeof out, &length) == 0);
    memset(other.area + SNAP_PAGE_SIZE, 0xA5, SNAP_PAGE_SIZE);
    assert(snap_z80_write(other.header, sizeof other.header, other.area, sizeof other.area, again, sizeof again,
                          &length_again) == 0);
    assert(length == length_again && memcmp(out, again, sizeof out) == 0);
    assert(snap_z80_read(again, (size_t)length, other.area, sizeof other.area, other.header, sizeof other.header, &offset) == 0
           && offset == 0);
    for (unsigned at = SNAP_PAGE_SIZE; at < 2 * SNAP_PAGE_SIZE; at++)
        assert(other.area[at] == 0);
}

static void rom_length(void)
{
    static uint8_t rom[SNAP_ROM_SIZE_128K];
    uint8_t in_rom;
    uint64_t from, length;
    assert(snap_view(start.header, sizeof start.header, rom, SNAP_ROM_SIZE_128K, start.area, sizeof start.area, 3, &in_rom,
                     &from, &length) == SNAP_ACCEPTED && in_rom == 0 && from == 3 * SNAP_PAGE_SIZE);
    assert(snap_view(start.header, sizeof start.header, NULL, 0, start.area, sizeof start.area, 3, &in_rom, &from,
                     &length) == SNAP_ROM_LENGTH && from == 0);
}

int main(int argc, char **argv)
{
    FILE *from = argc == 2 ? fopen(argv[1], "rb") : NULL;
    assert(from != NULL);
    size_t length = fread(file, 1, sizeof file, from);
    fclose(from);
    uint64_t offset = 7;
    assert(snap_z80_read(file, length, start.area, sizeof start.area, start.header, sizeof start.header, &offset)
               == SNAP_ACCEPTED && offset == 0);
    assert(snap_log_start(start.log, sizeof start.log, &start.standing, &start.total) == SNAP_ACCEPTED);
    steps_by_name();
    later();
    pages_not_owned();
    rom_length();
    return 0;
}
