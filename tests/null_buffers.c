/* Buffers of length 0 with NULL for a pointer: nothing is read or written through it. Run under the sanitizers. */
#include "snapshot.h"
#include <stdio.h>
#include <string.h>

static int passed, failed;

static void expect(const char *what, uint32_t got, uint32_t due)
{
    if (got == due) {
        printf("ok  %s gives %u\n", what, due);
        passed++;
    } else {
        printf("FAIL %s: %u, not %u\n", what, got, due);
        failed++;
    }
}

static uint8_t area[SNAP_AREA_SIZE], header[SNAP_HEADER_SIZE], file[SNAP_FILE_MOST];
static uint64_t place = UINT64_MAX;

/* A read that is refused without a place. */
static void expect_no_place(const char *what, uint32_t got, uint32_t due)
{
    expect(what, got, due);
    expect("its place", place != 0, 0);
    place = UINT64_MAX;
}

static void expect_why(void)
{
    uint64_t block = 7, found = 7, due = 7;
    expect_no_place("explain, no file", snap_z80_explain(NULL, 0, &place, &block, &found, &due), 2);
    expect("its block and what is found", block != 0 || found != 0, 0);
    expect("what is due", (uint32_t)due, 30);
}

static void expect_scs(void)
{
    uint64_t length = 7;
    expect_no_place("SCS, no file", snap_scs_read(NULL, 0, area, sizeof area, header, sizeof header, &place), 2);
    expect_no_place("SCS, no area", snap_scs_read(file, sizeof file, NULL, 0, header, sizeof header, &place), 1);
    expect_no_place("SCS, no header", snap_scs_read(file, sizeof file, area, sizeof area, NULL, 0, &place), 20);
    expect_no_place("SCS, no buffer", snap_scs_read(NULL, 0, NULL, 0, NULL, 0, &place), 20);
    expect_no_place("SCS, a blank header", snap_scs_read(NULL, 0, NULL, 0, header, sizeof header, &place), 1);
    expect("write SCS, no header", snap_scs_write(NULL, 0, area, sizeof area, file, sizeof file, &length), 20);
    expect("write SCS, no area", snap_scs_write(header, sizeof header, NULL, 0, file, sizeof file, &length), 21);
    expect("write SCS, no output", snap_scs_write(header, sizeof header, area, sizeof area, NULL, 0, &length), 22);
    expect("the length of no SCS file", (uint32_t)length, 0);
}

/* The blank header with a sound register: it is looked at before the rest is. */
static void expect_sound(void)
{
    uint64_t length = 7;
    header[SNAP_AT_SOUND] = 1;
    expect("write, a register without the chip, no area", snap_z80_write(header, sizeof header, NULL, 0, NULL, 0, &length), 20);
    header[SNAP_AT_EMULATION] = SNAP_EMULATION_SOUND;
    expect("write, a 48K with the chip, no area", snap_z80_write(header, sizeof header, NULL, 0, NULL, 0, &length), 21);
    header[SNAP_AT_MODE] = SNAP_MODE_128K;
    expect("write, a 128K with the mark, no area", snap_z80_write(header, sizeof header, NULL, 0, NULL, 0, &length), 20);
    header[SNAP_AT_SOUND] = header[SNAP_AT_EMULATION] = 0;
    header[SNAP_AT_MODE] = SNAP_MODE_48K;
}

int main(void)
{
    uint64_t length = 7, start = 7, standing = 7, total = 7;
    uint8_t in_rom = 7, model = 7, attachment = 7, page = 7;
    uint16_t value = 7, offset = 7;
    expect_no_place("no file", snap_z80_read(NULL, 0, area, sizeof area, header, sizeof header, &place), 2);
    expect_no_place("no area", snap_z80_read(file, sizeof file, NULL, 0, header, sizeof header, &place), 1);
    expect_no_place("no header", snap_z80_read(file, sizeof file, area, sizeof area, NULL, 0, &place), 20);
    expect_no_place("a blank header", snap_z80_read(NULL, 0, NULL, 0, header, sizeof header, &place), 1);
    expect_why();
    expect("write, no header", snap_z80_write(NULL, 0, area, sizeof area, file, sizeof file, &length), 20);
    expect("write, no area", snap_z80_write(header, sizeof header, NULL, 0, file, sizeof file, &length), 21);
    expect("write, no output", snap_z80_write(header, sizeof header, area, sizeof area, NULL, 0, &length), 22);
    expect_scs();
    expect_sound();
    expect("view, no ROM", snap_view(header, sizeof header, NULL, 0, area, sizeof area, 5, &in_rom, &start, &length), 31);
    expect("view, no area", snap_view(header, sizeof header, NULL, 0, NULL, 0, 5, &in_rom, &start, &length), 21);
    expect("model, no header", snap_model(NULL, 0, &model, &attachment), 20);
    expect("pair, no header", snap_pair(NULL, 0, SNAP_PC, &value), 20);
    in_rom = 7;
    expect("place, no header", snap_place(NULL, 0, 0xFFFF, &in_rom, &page, &offset), 20);
    expect("every figure of the three", model | attachment | value | in_rom | page | offset, 0);
    expect("start, no log", snap_log_start(NULL, 0, &standing, &total), 0);
    expect("byte, no log", snap_correct_byte(header, sizeof header, area, sizeof area, NULL, 0, &standing, &total, 0x4000, 1), 26);
    expect("pair, no area", snap_correct_pair(header, sizeof header, NULL, 0, NULL, 0, &standing, &total, 0, 1), 21);
    expect("out, no header", snap_correct_out(NULL, 0, NULL, 0, NULL, 0, &standing, &total, 1), 20);
    expect("undo, no log", snap_undo(header, sizeof header, area, sizeof area, NULL, 0, &standing, &total), 27);
    expect("redo, no log", snap_redo(header, sizeof header, area, sizeof area, NULL, 0, &standing, &total), 27);
    printf("%d passed, %d failed\n", passed, failed);
    return failed != 0;
}
