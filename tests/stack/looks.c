/* Looking at the machine that stands in `ordinary`: its model, its pairs, the places of addresses; and the version. */
#include "stack.h"
#include <string.h>

/* Figures that no look tells. */
static struct figures dirty(void)
{
    struct figures figures;
    memset(&figures, 0xA5, sizeof figures);
    return figures;
}

/* A call over dirty figures, which must leave these. */
static void try_look(const char *name, const struct tried_call *call, uint32_t due, struct figures left)
{
    ordinary.figures = dirty();
    level();
    try_call(name, call, due);
    expect_holds(name, "a look tells other figures", memcmp(&left, &ordinary.figures, sizeof left) == 0);
}

/* Refused for the header: these figures are left. */
static void try_refused(const char *name, struct tried_call call, struct figures left)
{
    try_headers(name, call);
    call.header_len = 0;
    try_look(name, &call, SNAP_INVALID_MACHINE, left);
}

static void try_model(const char *name)
{
    static const uint8_t attachments[7] = {0, 1, 0, 2, 0, 1, 2}; /* by the mode */
    struct tried_call call = usual(MODEL, &ordinary);
    struct figures left = dirty();
    left.model = (uint8_t)is_128(ordinary.header);
    left.attachment = attachments[ordinary.header[SNAP_AT_MODE]];
    try_look(name, &call, 0, left);
    left.model = left.attachment = 0;
    try_refused(name, call, left);
}

static void try_pairs(const char *name)
{
    static const uint8_t lows[SNAP_PAIRS] = {1, 2, 13, 4, 22, 15, 17, 19, 25, 23, 8, 32};
    struct tried_call call = usual(PAIR_VALUE, &ordinary);
    struct figures left = dirty();
    for (unsigned pair = 0; pair < SNAP_PAIRS; pair++) {
        int is_af = pair == SNAP_AF || pair == SNAP_AF_ALT; /* A stands before F */
        const uint8_t *low = ordinary.header + lows[pair], *high = is_af ? low - 1 : low + 1;
        call.place = (uint16_t)pair;
        left.pair = (uint16_t)(*low + 256 * *high);
        try_look(name, &call, 0, left);
    }
    left.pair = 0;
    for (unsigned pair = SNAP_PAIRS; pair < 256; pair += 27) {
        call.place = (uint16_t)pair;
        try_look(name, &call, SNAP_PAIR_NUMBER, left);
    }
    try_refused(name, call, left);
}

static void try_places(const char *name)
{
    static const uint16_t addresses[8] = {0, 0x3FFF, 0x4000, 0x7FFF, 0x8000, 0xBFFF, 0xC000, 0xFFFF};
    const uint8_t pages[4] = {0, 5, 2, ordinary.header[SNAP_AT_OUT_7FFD] & SNAP_7FFD_PAGE};
    struct tried_call call = usual(PLACE, &ordinary);
    struct figures left = dirty();
    for (unsigned at = 0; at < 8; at++) {
        call.place = addresses[at];
        left.in_rom = at < 2;
        left.page = pages[at / 2];
        left.offset = at < 2 ? 0 : addresses[at] % SNAP_PAGE_SIZE;
        try_look(name, &call, 0, left);
    }
    left.in_rom = left.page = 0;
    left.offset = 0;
    try_refused(name, call, left);
}

void try_looks(const char *name)
{
    struct tried_call call = usual(VERSION, &ordinary);
    try_look(name, &call, 0, dirty());
    try_model(name);
    try_pairs(name);
    try_places(name);
}
