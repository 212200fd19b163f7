/* Writing, viewing, looking at and correcting the machine that stands in `ordinary`. */
#include "stack.h"
#include <string.h>

static int owns(unsigned page)
{
    if (is_128(ordinary.header))
        return page < 10;
    return page == 0 || page == 2 || page == 5 || page == 8;
}

/* A header that the writer does not make; four ways for a 128K, six for a 48K. */
static void spoil_machine(uint8_t *header, unsigned way)
{
    static const uint8_t bytes[3] = {29, 60, 37}, bits[3] = {3, 3, 8}; /* interrupt mode 3, a Multiface paged in, a bit too high */
    if (way < 3) {
        header[bytes[way]] |= bits[way];
    } else if (is_128(header)) {
        header[37] |= SNAP_EMULATION_SOUND;
    } else if (way == 3) {
        header[35] = 1;
    } else { /* a register without the sound chip, the first or the last */
        header[37] &= (uint8_t)~SNAP_EMULATION_SOUND;
        header[way == 4 ? 38 : 54] |= 1;
    }
}

/* 20: header buffers of other lengths, and a header that the writer does not make. */
void try_headers(const char *name, struct tried_call call)
{
    uint8_t kept[SNAP_HEADER_SIZE];
    static const size_t lengths[3] = {0, SNAP_HEADER_SIZE - 1, SNAP_HEADER_SIZE + 1};
    for (unsigned at = 0; at < 3; at++) {
        struct tried_call other = call;
        other.header_len = lengths[at];
        try_call(name, &other, SNAP_INVALID_MACHINE);
    }
    memcpy(kept, ordinary.header, sizeof kept);
    for (unsigned way = 0; way < (is_128(kept) ? 4 : 6); way++) {
        spoil_machine(ordinary.header, way);
        level();
        try_call(name, &call, SNAP_INVALID_MACHINE);
        memcpy(ordinary.header, kept, sizeof kept);
        level();
    }
}

/* The same, and 21: areas of other lengths. */
void try_lengths(const char *name, struct tried_call call)
{
    static const size_t areas[3] = {0, SNAP_AREA_SIZE - 1, SNAP_AREA_SIZE + 1};
    try_headers(name, call);
    for (unsigned at = 0; at < 3; at++) {
        call.area_len = areas[at];
        try_call(name, &call, SNAP_MEMORY_LENGTH);
    }
}

/* Outputs of many lengths; the file that is written reads back as it was. */
static void try_writes(const char *name)
{
    static uint8_t file[SNAP_FILE_MOST], header[SNAP_HEADER_SIZE], area[SNAP_AREA_SIZE];
    struct tried_call call = usual(WRITE, &ordinary);
    try_call(name, &call, 0);
    size_t length = (size_t)ordinary.length;
    const size_t rooms[7] = {0, 1, SNAP_HEADER_SIZE, SNAP_HEADER_SIZE + 100, length / 2, length - 1, length};
    memcpy(file, ordinary.out, length);
    memcpy(header, ordinary.header, sizeof header);
    memcpy(area, ordinary.area, sizeof area);
    for (unsigned at = 0; at < 7; at++) {
        call.out_len = rooms[at];
        try_call(name, &call, rooms[at] < length ? SNAP_OUTPUT_SHORT : 0);
    }
    expect_holds(name, "the file is another in an output of its length", memcmp(file, ordinary.out, length) == 0);
    expect_holds(name, "the file begins with another header", memcmp(file, header, sizeof header) == 0);
    try_lengths(name, usual(WRITE, &ordinary));
    call = usual(READ, &ordinary);
    call.file = file;
    call.file_len = length;
    try_read(name, &call, (struct refused_at){0});
    expect_holds(name, "the header does not read back", memcmp(header, ordinary.header, sizeof header) == 0);
    expect_holds(name, "the area does not read back", memcmp(area, ordinary.area, sizeof area) == 0);
}

/* Every page, and ROMs of other lengths. */
static void try_views(const char *name)
{
    static const size_t roms[5] = {0, SNAP_ROM_SIZE_48K - 1, SNAP_ROM_SIZE_48K, SNAP_ROM_SIZE_128K, SNAP_ROM_SIZE_128K + 1};
    struct tried_call call = usual(VIEW, &ordinary);
    const size_t rom_len = call.rom_len;
    for (unsigned page = 0; page < 256; page++) {
        call.place = (uint16_t)page;
        try_call(name, &call, owns(page) ? 0 : SNAP_PAGE_NOT_OWNED);
        expect_holds(name, "the page lies elsewhere", ordinary.start == (owns(page) ? page % 8 * SNAP_PAGE_SIZE : 0));
    }
    call.place = 5;
    for (unsigned at = 0; at < 5; at++) {
        call.rom_len = roms[at];
        try_call(name, &call, roms[at] == rom_len ? 0 : SNAP_ROM_LENGTH);
    }
    try_lengths(name, usual(VIEW, &ordinary));
}

void use_machine(const char *name)
{
    static const size_t logs[5] = {0, SNAP_LOG_STEP - 1, SNAP_LOG_STEP, 100, 1000};
    try_writes(name);
    try_scs_writes(name);
    try_views(name);
    try_looks(name);
    for (unsigned at = 0; at < 5; at++)
        try_log(name, logs[at]);
}
