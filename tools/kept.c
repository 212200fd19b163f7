/* kept.c: what a file gives back of the machine that is written into it. An SCS file does not hold all of it, and one of a 48K
 * gives it the sound chip. */
#include "tool.h"

void kept_in(enum file_kind kind, const struct snapshot *opened, struct snapshot *kept)
{
    static uint8_t file[SNAP_FILE_MOST];
    uint64_t length, offset;
    *kept = *opened;
    if (kind != SCS_FILE)
        return;
    /* neither is refused: the machine is valid, and there is room for it */
    snap_scs_write(opened->header, sizeof opened->header, opened->area, sizeof opened->area, file, sizeof file, &length);
    snap_scs_read(file, (size_t)length, kept->area, sizeof kept->area, kept->header, sizeof kept->header, &offset);
}

#define WHOLE 0xFF

/* The parts of a header that may be lost, each with its last byte and the bits that are looked at, in info's words. */
static const struct header_part {
    unsigned first, last, bits;
    const char *name;
} header_parts[] = {
    {SNAP_AT_MODE, SNAP_AT_MODE, WHOLE, "attachment"},
    {SNAP_AT_LOW_COUNTER, SNAP_AT_HIGH_COUNTER, WHOLE, "clock"},
    {SNAP_AT_SETTINGS, SNAP_AT_SETTINGS, WHOLE, "settings"},
    {SNAP_AT_INTERFACE_1_ROM, SNAP_AT_INTERFACE_1_ROM, WHOLE, "byte 36"},
    {SNAP_AT_EMULATION, SNAP_AT_EMULATION, SNAP_EMULATION_R | SNAP_EMULATION_LDIR, "byte 37"},
    {SNAP_AT_MGT_ROM, SNAP_AT_MGT_ROM, WHOLE, "byte 59"},
    {SNAP_AT_ROM_LOW, SNAP_AT_INHIBIT_FLAG, WHOLE, "bytes 61 to 85"},
    {SNAP_AT_OUT_FFFD, SNAP_AT_OUT_FFFD, WHOLE, "upper four bits of the last OUT to FFFD"},
};

static bool is_lost(const struct header_part *part, const struct snapshot *opened, const struct snapshot *kept)
{
    for (unsigned at = part->first; at <= part->last; at++)
        if (((opened->header[at] ^ kept->header[at]) & part->bits) != 0)
            return true;
    return false;
}

static void tell_lost(const char *file, const struct snapshot *opened, const struct snapshot *kept)
{
    char lost[200] = "";
    size_t length = 0;
    for (size_t k = 0; k < sizeof header_parts / sizeof header_parts[0]; k++) {
        const struct header_part *part = &header_parts[k];
        if (is_lost(part, opened, kept))
            length += (size_t)snprintf(lost + length, sizeof lost - length, "%s%s", length == 0 ? "" : ", ", part->name);
    }
    if (length > 0)
        warn(file, "an SCS file does not hold all of it; lost: %s", lost);
}

void tell_changes(const char *file, const struct snapshot *opened, const struct snapshot *kept)
{
    tell_lost(file, opened, kept);
    if (machine_of(kept->header).has_sound_chip && !machine_of(opened->header).has_sound_chip)
        warn(file, "an SCS file gives every 48K the sound chip; this one had none");
}
