/* scs_kept.h: what soak and stack expect back from an SCS file. */
#ifndef SCS_KEPT_H
#define SCS_KEPT_H

#include <string.h>

#include "snapshot.h"

/* What an SCS file keeps of a machine: the rest is as from a v1 file, the clock's place 0; but a 48K has the sound chip. */
static inline void scs_kept(uint8_t header[SNAP_HEADER_SIZE])
{
    int has_128k = header[SNAP_AT_MODE] >= SNAP_MODE_128K;
    unsigned low = (has_128k ? SNAP_QUARTER_128K : SNAP_QUARTER_48K) - 1;
    header[SNAP_AT_SETTINGS] &= SNAP_SETTINGS_INTERRUPT_MODE;
    header[SNAP_AT_MODE] = has_128k ? SNAP_MODE_128K : SNAP_MODE_48K;
    header[SNAP_AT_INTERFACE_1_ROM] = 0;
    header[SNAP_AT_EMULATION] = has_128k ? 0 : SNAP_EMULATION_SOUND;
    header[SNAP_AT_OUT_FFFD] &= 15;
    header[SNAP_AT_LOW_COUNTER] = (uint8_t)low;
    header[SNAP_AT_LOW_COUNTER + 1] = (uint8_t)(low / 256);
    header[SNAP_AT_HIGH_COUNTER] = 3;
    memset(header + SNAP_AT_MGT_ROM, 0, SNAP_HEADER_SIZE - SNAP_AT_MGT_ROM);
    header[SNAP_AT_ROM_LOW] = header[SNAP_AT_ROM_HIGH] = 255;
}

#endif
