/* pages.c: a page's bytes, and where it is seen as paging is now. */
#include "tool.h"

unsigned page_places(const struct machine *m, unsigned page, unsigned places[2])
{
    unsigned count = 0;
    for (unsigned quarter = 0; quarter < 4; quarter++)
        if (m->seen[quarter] == page)
            places[count++] = quarter * SNAP_PAGE_SIZE;
    return count;
}

enum status page_bytes(const char *file, const struct snapshot *opened, unsigned long page, const char *rom_file,
                       const uint8_t **bytes)
{
    static uint8_t rom[SNAP_ROM_SIZE_128K + 1];
    /* without a ROM, zeros stand in for it: they are never shown */
    size_t rom_length = machine_of(opened->header).is_128k ? SNAP_ROM_SIZE_128K : SNAP_ROM_SIZE_48K;
    if (rom_file != NULL) {
        enum status status = read_bounded(rom_file, rom, SNAP_ROM_SIZE_128K, &rom_length);
        if (status != ACCEPTED)
            return status;
    }
    uint8_t in_rom, number = (uint8_t)(page < 255 ? page : 255);
    uint64_t start, length;
    uint32_t answer = snap_view(opened->header, sizeof opened->header, rom, rom_length, opened->area,
                                sizeof opened->area, number, &in_rom, &start, &length);
    if (answer == SNAP_PAGE_NOT_OWNED && page > 9)
        return refused_with_hint(file, answer, "pages are 0 to 9; addresses are a range, as in 4000..40FF");
    if (answer != SNAP_ACCEPTED)
        return refused(answer == SNAP_ROM_LENGTH && rom_file != NULL ? rom_file : file, answer);
    if (in_rom && rom_file == NULL)
        return misused("%s: page %u is in ROM, which a snapshot does not hold; 'snapshot view --rom' shows it", file, number);
    *bytes = (in_rom ? rom : opened->area) + start;
    return ACCEPTED;
}
