/* machine.c: the machine that the 86 header bytes carry, taken apart to be shown. */
#include <string.h>

#include "tool.h"

#define RAM_PAGES (SNAP_AREA_SIZE / SNAP_PAGE_SIZE)
#define ROM_PAGE 8

const char *const pair_names[SNAP_PAIRS] = {"AF", "BC", "DE", "HL", "AF'", "BC'", "DE'", "HL'", "IX", "IY", "SP", "PC"};
const char *const colour_names[8] = {"black", "blue", "red", "magenta", "green", "cyan", "yellow", "white"};
const char *const joystick_names[4] = {"Cursor", "Kempston", "Sinclair left or user defined", "Sinclair right"};

uint16_t word_at(const uint8_t *bytes, unsigned place)
{
    return (uint16_t)(bytes[place] | bytes[place + 1] << 8);
}

/* The number in the bits of a mask. */
static uint8_t field(uint8_t byte, unsigned mask)
{
    unsigned lowest = mask & (~mask + 1);
    return (uint8_t)((byte & mask) / lowest);
}

static const char *video_of(const uint8_t *header)
{
    const char *const names[] = {"normal", "high", "normal", "low"};
    return names[field(header[SNAP_AT_SETTINGS], SNAP_SETTINGS_VIDEO)];
}

static uint32_t position_of(const uint8_t *header, uint32_t quarter)
{
    uint32_t low = word_at(header, SNAP_AT_LOW_COUNTER), high = header[SNAP_AT_HIGH_COUNTER];
    return (high + 1) % 4 * quarter + (quarter - 1 - low);
}

/* The side bytes are 59, and from 61 on to the end. */
static void take_side_bytes(struct machine *m, const uint8_t *header)
{
    m->side[0] = header[SNAP_AT_MGT_ROM];
    memcpy(m->side + 1, header + SNAP_AT_ROM_LOW, SNAP_HEADER_SIZE - SNAP_AT_ROM_LOW);
}

/* What the library tells of a machine; a header that it made is never refused. */
static void ask_library(struct machine *m, const uint8_t *header)
{
    const char *const attachments[] = {[SNAP_NO_ATTACHMENT] = "none", [SNAP_INTERFACE_1] = "Interface I", [SNAP_MGT] = "M.G.T."};
    uint8_t model, attachment, in_rom;
    uint16_t offset;
    snap_model(header, SNAP_HEADER_SIZE, &model, &attachment);
    m->is_128k = model == SNAP_128K;
    m->attachment = attachments[attachment];
    for (uint8_t pair = 0; pair < SNAP_PAIRS; pair++)
        snap_pair(header, SNAP_HEADER_SIZE, pair, &m->pairs[pair]);
    for (unsigned quarter = 0; quarter < 4; quarter++)
        snap_place(header, SNAP_HEADER_SIZE, (uint16_t)(quarter * SNAP_PAGE_SIZE), &in_rom, &m->seen[quarter], &offset);
    m->seen[0] = header[SNAP_AT_OUT_7FFD] & SNAP_7FFD_ROM ? ROM_PAGE + 1 : ROM_PAGE;
}

struct machine machine_of(const uint8_t header[SNAP_HEADER_SIZE])
{
    struct machine m;
    uint8_t flags = header[SNAP_AT_FLAGS], settings = header[SNAP_AT_SETTINGS];
    ask_library(&m, header);
    m.i = header[SNAP_AT_I];
    m.r = (uint8_t)(header[SNAP_AT_R] | field(flags, SNAP_FLAGS_R7) << 7);
    m.border = field(flags, SNAP_FLAGS_BORDER);
    m.iff1 = header[SNAP_AT_IFF1] != 0;
    m.iff2 = header[SNAP_AT_IFF2] != 0;
    m.interrupt_mode = field(settings, SNAP_SETTINGS_INTERRUPT_MODE);
    m.issue_2 = field(settings, SNAP_SETTINGS_ISSUE_2);
    m.double_interrupts = field(settings, SNAP_SETTINGS_DOUBLE_INTERRUPTS);
    m.video = video_of(header);
    m.joystick = field(settings, SNAP_SETTINGS_JOYSTICK);
    m.out_7ffd = header[SNAP_AT_OUT_7FFD];
    m.byte_36 = header[SNAP_AT_INTERFACE_1_ROM];
    m.byte_37 = header[SNAP_AT_EMULATION];
    m.has_sound_chip = m.is_128k || (m.byte_37 & SNAP_EMULATION_SOUND) != 0;
    m.out_fffd = header[SNAP_AT_OUT_FFFD];
    memcpy(m.sound, header + SNAP_AT_SOUND, sizeof m.sound);
    take_side_bytes(&m, header);
    uint32_t quarter = m.is_128k ? SNAP_QUARTER_128K : SNAP_QUARTER_48K;
    m.frame = 4 * quarter;
    m.position = position_of(header, quarter);
    return m;
}

/* A 48K sees all the pages that it owns. */
bool owns_page(const struct machine *machine, unsigned page)
{
    if (machine->is_128k)
        return page < RAM_PAGES;
    return page == machine->seen[1] || page == machine->seen[2] || page == machine->seen[3];
}
