/* Corrections from a seed, and what they do to the machine and memory of a request. */
#include "soak.h"
#include <string.h>

#define LOCK 0x20

/* The header bytes of the low and the high half of each register pair. */
static const uint8_t pair_bytes[SNAP_PAIRS][2] = {{1, 0},   {2, 3},   {13, 14}, {4, 5},   {22, 21}, {15, 16},
                                             {17, 18}, {19, 20}, {25, 26}, {23, 24}, {8, 9},   {32, 33}};

static unsigned page_at(const uint8_t *header, uint16_t address)
{
    if (address < 0xC000)
        return address < 0x8000 ? 5 : 2;
    return is_128(header) ? header[LAST_OUT] % 8 : 0;
}

static uint32_t number_of(const struct asked_correction *asked, const uint8_t *header, int is_full)
{
    if (asked->kind == BYTE && asked->place < 0x4000)
        return 23;
    if (asked->kind == PAIR && asked->place >= SNAP_PAIRS)
        return 32;
    if (asked->kind == OUT && !is_128(header))
        return 24;
    if (asked->kind == OUT && header[LAST_OUT] & LOCK)
        return 25;
    return is_full ? 26 : 0;
}

/* The byte of the area that a step is about. */
static unsigned byte_of(const uint8_t *step)
{
    return step[3] * SNAP_PAGE_SIZE + step[5] * 256u + step[4];
}

static void put(struct made *made, const uint8_t *step, const uint8_t *value)
{
    if (step[0] == BYTE) {
        made->area[byte_of(step)] = value[0];
    } else if (step[0] == PAIR) {
        made->header[pair_bytes[step[3]][0]] = value[0];
        made->header[pair_bytes[step[3]][1]] = value[1];
    } else {
        made->header[LAST_OUT] = value[0];
    }
}

void put_old(struct made *made, const uint8_t *step)
{
    put(made, step, step + 6);
}

void put_new(struct made *made, const uint8_t *step)
{
    put(made, step, step + 8);
}

/* The step that an accepted correction writes: tag, length 8, index, offset, old, new, 0. */
static void make_step(struct asked_correction *asked, const struct made *made)
{
    uint8_t *step = asked->step;
    step[0] = (uint8_t)asked->kind;
    step[1] = 8;
    if (asked->kind == BYTE) {
        step[3] = (uint8_t)page_at(made->header, asked->place);
        step[4] = (uint8_t)asked->place;
        step[5] = (uint8_t)(asked->place / 256 % 64);
        step[6] = made->area[byte_of(step)];
    } else if (asked->kind == PAIR) {
        step[3] = (uint8_t)asked->place;
        step[6] = made->header[pair_bytes[asked->place][0]];
        step[7] = made->header[pair_bytes[asked->place][1]];
    } else {
        step[6] = made->header[LAST_OUT];
    }
    step[8] = (uint8_t)asked->value;
    step[9] = (uint8_t)(asked->value / 256);
}

struct asked_correction ask(const struct made *made, int is_full, uint64_t *seed)
{
    uint64_t word = next(seed);
    struct asked_correction asked = {.kind = (enum correction_kind)(BYTE + word % 3), .place = (uint16_t)(word >> 16)};
    asked.value = (uint16_t)(word >> 32);
    if (asked.kind == PAIR)
        asked.place %= SNAP_PAIRS + 1;
    else
        asked.value %= 256;
    asked.number = number_of(&asked, made->header, is_full);
    if (asked.number == 0)
        make_step(&asked, made);
    return asked;
}
