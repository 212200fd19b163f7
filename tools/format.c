/* format.c: what the bytes of a .Z80 file say of themselves, beside what the library reads. */
#include "tool.h"

/* The bit of byte 37 by which later emulators make a 16K of a 48K. */
#define OTHER_HARDWARE 0x80

/* The word at 30; 0 in a version 1 file and where the file ends before it. */
static unsigned word_at_30(const uint8_t *file, size_t length)
{
    bool version_1 = length < SNAP_AT_PC || word_at(file, SNAP_AT_PC_V1) != 0;
    return version_1 ? 0 : word_at(file, SNAP_AT_LENGTH);
}

unsigned version_of(const uint8_t *file, size_t length)
{
    switch (word_at_30(file, length)) {
    case 23: return 2;
    case 54: return 3;
    default: return 1;
    }
}

bool says_16k(const uint8_t *file, size_t length)
{
    unsigned version = version_of(file, length);
    if (version == 1 || length <= SNAP_AT_EMULATION)
        return false;
    uint8_t mode = file[SNAP_AT_MODE];
    bool mode_48k = mode <= SNAP_MODE_48K_INTERFACE_1 || (version == 3 && mode == SNAP_MODE_48K_MGT);
    return mode_48k && (file[SNAP_AT_EMULATION] & OTHER_HARDWARE) != 0;
}

/* The machine that a mode beyond 48K and 128K stands for, where the description names it. */
static const char *mode_name(unsigned mode)
{
    switch (mode) {
    case 2: return ", SamRam";
    case 7: case 8: return ", +3";
    case 9: return ", Pentagon";
    case 10: return ", Scorpion";
    case 128: return ", Timex 2068";
    default: return "";
    }
}

void hint_for(const struct taking *taken, char hint[HINT_SIZE])
{
    uint32_t number = taken->number;
    const uint8_t *file = taken->bytes;
    size_t length = taken->length;
    unsigned word = word_at_30(file, length);
    char mode[32] = "";
    if (is_scs(file, length)) {
        hint_for_scs(taken, hint);
        return;
    }
    if (length > SNAP_AT_MODE)
        snprintf(mode, sizeof mode, "mode %u%s", file[SNAP_AT_MODE], mode_name(file[SNAP_AT_MODE]));
    hint[0] = 0;
    if (number == SNAP_UNKNOWN_VERSION && word == 55)
        snprintf(hint, HINT_SIZE,
                 "a version 3 file with the 55-byte header, saved with the last OUT to 1FFD, as of a +3 or +2A, "
                 "which is not read%s%s", mode[0] != 0 ? "; " : "", mode);
    else if (number == SNAP_UNKNOWN_VERSION)
        snprintf(hint, HINT_SIZE, "the word at 30 is %u; it is 23 in version 2 and 54 in version 3", word);
    else if (number == SNAP_MODE_NOT_CARRIED && word == 0)
        snprintf(hint, HINT_SIZE, "SamRom is switched in: a SamRam");
    else if (number == SNAP_MODE_NOT_CARRIED)
        snprintf(hint, HINT_SIZE, "%s", mode);
    else if (number == SNAP_BLOCK_MISSING && says_16k(file, length))
        snprintf(hint, HINT_SIZE, "the file says 16K, which has no memory from 8000 upwards; it is read as a 48K");
}
