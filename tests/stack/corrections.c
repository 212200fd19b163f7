/* A log filled with corrections, undone, redone, damaged, and undone to the machine that it began with. */
#include "stack.h"
#include <string.h>

static size_t capacity(const struct tried_call *call)
{
    size_t steps = call->log_len / SNAP_LOG_STEP;
    return steps < SNAP_LOG_STEPS ? steps : SNAP_LOG_STEPS;
}

/* The number that a correction gives where header, area and counts are good. */
static uint32_t due_of_correction(const struct tried_call *call)
{
    if (call->function == BYTE && call->place < 0x4000)
        return SNAP_ROM_ADDRESS;
    if (call->function == PAIR && call->place >= SNAP_PAIRS)
        return SNAP_PAIR_NUMBER;
    if (call->function == OUT && !is_128(ordinary.header))
        return SNAP_OUT_ON_48K;
    if (call->function == OUT && (ordinary.header[35] & 0x20) != 0)
        return SNAP_PAGING_LOCKED;
    return ordinary.standing == capacity(call) ? SNAP_LOG_FULL : SNAP_ACCEPTED;
}

static void try_correction(const char *name, struct tried_call call, enum function function, unsigned place, unsigned value)
{
    uint64_t standing = ordinary.standing;
    call.function = function;
    call.place = (uint16_t)place;
    call.value = (uint16_t)value;
    uint32_t due = due_of_correction(&call);
    try_call(name, &call, due);
    expect_holds(name, "not as many corrections stand as must", ordinary.standing == standing + (due == 0));
}

/* Bytes at the ends of each page and in ROM, every pair and more, and OUTs up to one that locks paging. */
static void fill(const char *name, struct tried_call call)
{
    static const uint16_t addresses[10] = {0, 0x3FFF, 0x4000, 0x7FFF, 0x8000, 0xBFFF, 0xC000, 0xC010, 0xFFFE, 0xFFFF};
    try_correction(name, call, OUT, 0, 5);
    try_correction(name, call, BYTE, 0xC010, 0x7E);
    try_correction(name, call, OUT, 0, 0);
    for (unsigned at = 0; at < 10; at++)
        try_correction(name, call, BYTE, addresses[at], at * 27);
    for (unsigned pair = 0; pair <= SNAP_PAIRS; pair++)
        try_correction(name, call, PAIR, pair, pair * 5021);
    try_correction(name, call, PAIR, 255, 0);
    try_correction(name, call, OUT, 0, 0x27);
    try_correction(name, call, OUT, 0, 0);
}

/* Undo or redo until nothing is left to move. */
static void move_all(const char *name, struct tried_call call, enum function function)
{
    uint64_t left = function == UNDO ? ordinary.standing : ordinary.total - ordinary.standing;
    call.function = function;
    for (; left > 0; left--)
        try_call(name, &call, 0);
    try_call(name, &call, SNAP_NOTHING_TO_MOVE);
}

/* Each byte of a step changed in several ways, and moved over; a tag, length or last byte that no step has is 28. */
static void damage(const char *name, struct tried_call call, enum function function)
{
    static const uint8_t masks[4] = {1, 3, 0x40, 0xFF};
    uint64_t standing = ordinary.standing;
    uint8_t *step = ordinary.log + (standing - (function == UNDO)) * SNAP_LOG_STEP;
    call.function = function;
    for (unsigned at = 0; at < SNAP_LOG_STEP; at++)
        for (unsigned mask = 0; mask < 4; mask++) {
            static struct lent_buffers kept;
            int is_bad = at == 1 || at == 2 || at == 10 || (at == 0 && mask >= 2);
            memcpy(&kept, &ordinary, sizeof kept);
            step[at] ^= masks[mask];
            level();
            try_call(name, &call, is_bad ? SNAP_STEP_DAMAGED : ANY);
            memcpy(&ordinary, &kept, sizeof kept);
            level();
        }
}

/* Counts that no log of this length has. */
static void try_counts(const char *name, struct tried_call call)
{
    const uint64_t standing = ordinary.standing, total = ordinary.total;
    const uint64_t wrong[4][2] = {{1, 0}, {0, capacity(&call) + 1}, {UINT64_MAX, UINT64_MAX}, {total + 1, total}};
    for (unsigned at = 0; at < 4; at++) {
        ordinary.standing = wrong[at][0];
        ordinary.total = wrong[at][1];
        level();
        try_call(name, &call, SNAP_COUNTS_DISAGREE);
    }
    ordinary.standing = standing;
    ordinary.total = total;
    level();
}

/* What every call on a log refuses first. */
static void try_refusals(const char *name, struct tried_call call)
{
    for (unsigned function = BYTE; function <= REDO; function++) {
        call.function = (enum function)function;
        call.place = function == BYTE ? 0x4000 : 0;
        try_lengths(name, call);
        try_counts(name, call);
    }
}

void try_log(const char *name, size_t log_len)
{
    static uint8_t header[SNAP_HEADER_SIZE], area[SNAP_AREA_SIZE];
    struct tried_call call = usual(START, &ordinary);
    call.log_len = log_len;
    memcpy(header, ordinary.header, sizeof header);
    memcpy(area, ordinary.area, sizeof area);
    try_call(name, &call, 0);
    move_all(name, call, UNDO);
    move_all(name, call, REDO);
    fill(name, call);
    while (log_len == SNAP_LOG_MOST && ordinary.standing < SNAP_LOG_STEPS)
        try_correction(name, call, BYTE, 0x4000 + (unsigned)ordinary.standing * 11 % 0xC000, (unsigned)ordinary.standing);
    try_correction(name, call, PAIR, SNAP_PC, 0x8000);
    if (ordinary.standing > 0) {
        damage(name, call, UNDO);
        move_all(name, call, UNDO);
        damage(name, call, REDO);
        move_all(name, call, REDO);
    }
    try_refusals(name, call);
    move_all(name, call, UNDO);
    expect_holds(name, "undone, the header is another", memcmp(header, ordinary.header, sizeof header) == 0);
    expect_holds(name, "undone, the area is another", memcmp(area, ordinary.area, sizeof area) == 0);
}
