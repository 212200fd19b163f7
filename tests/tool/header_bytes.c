/* header_bytes.c: the names of the header's bytes, each printed with its place; every byte is named once, the library takes
 * in each exactly the values that the header file allows, and puts each pair where its name says. */
#include <assert.h>
#include <stdio.h>

#include "snapshot.h"

#define FIELD(name, width) {#name, name, width}

static const struct {
    const char *name;
    unsigned place, width;
} fields[] = {
    FIELD(SNAP_AT_A, 1), FIELD(SNAP_AT_F, 1), FIELD(SNAP_AT_BC, 2), FIELD(SNAP_AT_HL, 2), FIELD(SNAP_AT_PC_V1, 2),
    FIELD(SNAP_AT_SP, 2), FIELD(SNAP_AT_I, 1), FIELD(SNAP_AT_R, 1), FIELD(SNAP_AT_FLAGS, 1), FIELD(SNAP_AT_DE, 2),
    FIELD(SNAP_AT_BC_ALT, 2), FIELD(SNAP_AT_DE_ALT, 2), FIELD(SNAP_AT_HL_ALT, 2), FIELD(SNAP_AT_A_ALT, 1),
    FIELD(SNAP_AT_F_ALT, 1), FIELD(SNAP_AT_IY, 2), FIELD(SNAP_AT_IX, 2), FIELD(SNAP_AT_IFF1, 1), FIELD(SNAP_AT_IFF2, 1),
    FIELD(SNAP_AT_SETTINGS, 1), FIELD(SNAP_AT_LENGTH, 2), FIELD(SNAP_AT_PC, 2), FIELD(SNAP_AT_MODE, 1),
    FIELD(SNAP_AT_OUT_7FFD, 1), FIELD(SNAP_AT_INTERFACE_1_ROM, 1), FIELD(SNAP_AT_EMULATION, 1), FIELD(SNAP_AT_OUT_FFFD, 1),
    FIELD(SNAP_AT_SOUND, 16), FIELD(SNAP_AT_LOW_COUNTER, 2), FIELD(SNAP_AT_HIGH_COUNTER, 1), FIELD(SNAP_AT_SPECTATOR, 1),
    FIELD(SNAP_AT_MGT_ROM, 1), FIELD(SNAP_AT_MULTIFACE_ROM, 1), FIELD(SNAP_AT_ROM_LOW, 1), FIELD(SNAP_AT_ROM_HIGH, 1),
    FIELD(SNAP_AT_KEYS, 10), FIELD(SNAP_AT_KEY_LETTERS, 10), FIELD(SNAP_AT_MGT_TYPE, 1), FIELD(SNAP_AT_INHIBIT_BUTTON, 1),
    FIELD(SNAP_AT_INHIBIT_FLAG, 1),
};

static void every_byte_once(void)
{
    unsigned named[SNAP_HEADER_SIZE] = {0};
    for (unsigned k = 0; k < sizeof fields / sizeof fields[0]; k++) {
        printf("%s %u\n", fields[k].name, fields[k].place);
        for (unsigned at = fields[k].place; at < fields[k].place + fields[k].width; at++) {
            assert(at < SNAP_HEADER_SIZE);
            named[at]++;
        }
    }
    for (unsigned at = 0; at < SNAP_HEADER_SIZE; at++)
        assert(named[at] == 1);
}

static int is_mode(unsigned value)
{
    return value == SNAP_MODE_48K || value == SNAP_MODE_48K_INTERFACE_1 || value == SNAP_MODE_48K_MGT
        || value == SNAP_MODE_128K || value == SNAP_MODE_128K_INTERFACE_1 || value == SNAP_MODE_128K_MGT;
}

static int is_128_header(const uint8_t *header)
{
    return header[SNAP_AT_MODE] >= SNAP_MODE_128K;
}

/* Whether the last OUTs, the sound registers and the mark of the sound chip go with the model. */
static int ports_fit(const uint8_t *header)
{
    int is_marked = (header[SNAP_AT_EMULATION] & SNAP_EMULATION_SOUND) != 0, is_silent = 1;
    for (unsigned at = SNAP_AT_OUT_FFFD; at < SNAP_AT_LOW_COUNTER; at++)
        is_silent = is_silent && header[at] == 0;
    if (is_128_header(header))
        return !is_marked;
    return header[SNAP_AT_OUT_7FFD] == 0 && (is_marked || is_silent);
}

/* Whether a byte may have the value that it has; the others are a machine's. */
static int allowed(const uint8_t *header, unsigned place)
{
    unsigned value = header[place], quarter = is_128_header(header) ? SNAP_QUARTER_128K : SNAP_QUARTER_48K;
    if (!ports_fit(header))
        return 0;
    switch (place) {
    case SNAP_AT_PC_V1:
    case SNAP_AT_PC_V1 + 1:
    case SNAP_AT_LENGTH + 1:
    case SNAP_AT_SPECTATOR:
    case SNAP_AT_MULTIFACE_ROM: return value == 0;
    case SNAP_AT_LENGTH: return value == 54;
    case SNAP_AT_R: return value < 128;
    case SNAP_AT_FLAGS: return (value & ~(SNAP_FLAGS_R7 | SNAP_FLAGS_BORDER)) == 0;
    case SNAP_AT_IFF1:
    case SNAP_AT_IFF2: return value < 2;
    case SNAP_AT_SETTINGS: return (value & SNAP_SETTINGS_INTERRUPT_MODE) != 3 && (value & SNAP_SETTINGS_VIDEO) != 0x20;
    case SNAP_AT_MODE: return is_mode(value);
    case SNAP_AT_EMULATION: return (value & ~(SNAP_EMULATION_R | SNAP_EMULATION_LDIR | SNAP_EMULATION_SOUND)) == 0;
    case SNAP_AT_LOW_COUNTER: return value < quarter;
    case SNAP_AT_LOW_COUNTER + 1: return 256 * value < quarter;
    case SNAP_AT_HIGH_COUNTER: return value < 4;
    default: return 1;
    }
}

/* Each byte with every value, in a machine that is 0 but for its mode, its byte 37 and its last sound register. One that is not
   valid is refused before the missing area is. */
static void every_value(uint8_t mode, uint8_t emulation, uint8_t sound)
{
    uint8_t header[SNAP_HEADER_SIZE] = {0}, in_rom;
    uint64_t start, length;
    header[SNAP_AT_LENGTH] = 54;
    header[SNAP_AT_MODE] = mode;
    header[SNAP_AT_EMULATION] = emulation;
    header[SNAP_AT_LOW_COUNTER - 1] = sound;
    for (unsigned place = 0; place < SNAP_HEADER_SIZE; place++) {
        uint8_t kept = header[place];
        for (unsigned value = 0; value < 256; value++) {
            header[place] = (uint8_t)value;
            uint32_t number = snap_view(header, sizeof header, NULL, 0, NULL, 0, 0, &in_rom, &start, &length);
            assert(number == (allowed(header, place) ? SNAP_MEMORY_LENGTH : SNAP_INVALID_MACHINE));
        }
        header[place] = kept;
    }
}

#define PAIR(name) {SNAP_##name, SNAP_AT_##name, SNAP_AT_##name + 1}

static void every_pair(void)
{
    static const struct {
        uint8_t pair, low, high;
    } pairs[SNAP_PAIRS] = {
        {SNAP_AF, SNAP_AT_F, SNAP_AT_A}, {SNAP_AF_ALT, SNAP_AT_F_ALT, SNAP_AT_A_ALT},
        PAIR(BC), PAIR(DE), PAIR(HL), PAIR(BC_ALT), PAIR(DE_ALT), PAIR(HL_ALT), PAIR(IX), PAIR(IY), PAIR(SP), PAIR(PC),
    };
    static uint8_t area[SNAP_AREA_SIZE];
    for (unsigned k = 0; k < SNAP_PAIRS; k++) {
        uint8_t header[SNAP_HEADER_SIZE] = {[SNAP_AT_LENGTH] = 54}, log[SNAP_LOG_STEP];
        uint64_t standing = 0, total = 0;
        assert(snap_correct_pair(header, sizeof header, area, sizeof area, log, sizeof log, &standing, &total, pairs[k].pair,
                                 0x1234) == SNAP_ACCEPTED);
        assert(header[pairs[k].low] == 0x34 && header[pairs[k].high] == 0x12);
    }
}

int main(void)
{
    every_byte_once();
    every_pair();
    every_value(SNAP_MODE_48K, 0, 0);
    every_value(SNAP_MODE_48K, SNAP_EMULATION_SOUND, 0);
    every_value(SNAP_MODE_48K, SNAP_EMULATION_SOUND, 1);
    every_value(SNAP_MODE_128K, 0, 0);
    every_value(SNAP_MODE_128K, 0, 1);
    return 0;
}
