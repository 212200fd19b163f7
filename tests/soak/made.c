/* Machines and memory from a seed, and their files. */
#include "soak.h"
#include <string.h>

/* splitmix64 */
uint64_t next(uint64_t *seed)
{
    uint64_t word = *seed += 0x9E3779B97F4A7C15u;
    word = (word ^ word >> 30) * 0xBF58476D1CE4E5B9u;
    word = (word ^ word >> 27) * 0x94D049BB133111EBu;
    return word ^ word >> 31;
}

int is_128(const uint8_t *header)
{
    return header[34] >= 4;
}

static int has_sound_chip(const uint8_t *header)
{
    return is_128(header) || (header[37] & SNAP_EMULATION_SOUND) != 0;
}

static int owns(const uint8_t *header, unsigned page)
{
    return is_128(header) || page == 0 || page == 2 || page == 5;
}

/* A header that snap_z80_write makes: what it carries from the seed, the rest as it is written. */
static void make_header(uint8_t *header, uint64_t *seed)
{
    static const uint8_t modes[6] = {0, 1, 3, 4, 5, 6};
    for (unsigned at = 0; at < SNAP_HEADER_SIZE; at++)
        header[at] = (uint8_t)next(seed);
    header[6] = header[7] = header[31] = header[58] = header[60] = 0;
    header[11] &= 0x7F;
    header[12] &= 0x0F;
    header[27] &= 1;
    header[28] &= 1;
    header[29] = (uint8_t)((header[29] & 0xDC) | next(seed) % 3);
    header[30] = 54;
    header[34] = modes[next(seed) % 6];
    header[37] &= is_128(header) ? 3 : 7;
    header[56] %= 0x44;
    header[57] &= 3;
    if (!is_128(header))
        header[LAST_OUT] = 0;
    if (!has_sound_chip(header))
        memset(header + 38, 0, 17);
}

/* Runs, from noise to long ones. */
static void make_page(uint8_t *page, uint64_t *seed)
{
    static const uint8_t longest[4] = {1, 6, 40, 255};
    unsigned most = longest[next(seed) % 4];
    for (unsigned at = 0; at < SNAP_PAGE_SIZE;) {
        uint64_t word = next(seed);
        for (unsigned left = 1 + (unsigned)(word >> 32) % most; left > 0 && at < SNAP_PAGE_SIZE; left--)
            page[at++] = (uint8_t)word;
    }
}

void make_file(struct made *made)
{
    uint32_t number = snap_z80_write(made->header, sizeof made->header, made->area, sizeof made->area, made->file,
                                     sizeof made->file, &made->length);
    expect("writing the request's file", number, 0);
    expect_bytes("the file's header", made->file, made->header, sizeof made->header);
}

void make_scs_file(struct made *made)
{
    uint32_t number = snap_scs_write(made->header, sizeof made->header, made->area, sizeof made->area, made->file,
                                     sizeof made->file, &made->length);
    expect("writing the request's SCS file", number, 0);
}

void make(struct made *made, uint64_t *seed)
{
    make_header(made->header, seed);
    for (unsigned page = 0; page < 8; page++) {
        uint8_t *part = made->area + page * SNAP_PAGE_SIZE;
        if (owns(made->header, page))
            make_page(part, seed);
        else
            memset(part, 0, SNAP_PAGE_SIZE);
    }
    make_file(made);
}
