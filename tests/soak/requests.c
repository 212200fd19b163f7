/* The kinds of requests. Each reads its own file into a slot that still holds an earlier request's bytes. */
#include "soak.h"
#include <string.h>

static struct made made;

static uint32_t read_file(struct server_slot *slot)
{
    slot->offset = OFFSET_DIRT;
    return snap_z80_read(made.file, made.length, slot->area, sizeof slot->area, slot->header, sizeof slot->header,
                         &slot->offset);
}

static void expect_made(const struct server_slot *slot)
{
    expect_bytes("area", slot->area, made.area, sizeof made.area);
    expect_bytes("header", slot->header, made.header, sizeof made.header);
}

static void read_request(struct server_slot *slot, uint64_t *seed)
{
    make(&made, seed);
    expect_read(slot, read_file(slot), (struct refused_at){0});
    expect_explained(made.file, made.length, (struct refused_at){0});
    expect_made(slot);
}

/* A file that is damaged in one place. */
static void damaged_request(struct server_slot *slot, uint64_t *seed)
{
    make(&made, seed);
    struct refused_at due = damage_file(&made, seed);
    expect_read(slot, read_file(slot), due);
    expect_explained(made.file, made.length, due);
    expect_refused(slot);
}

/* Writes into an output of this length, every byte of which is looked at. */
static void write_into(struct server_slot *slot, size_t room)
{
    uint64_t length = room < made.length ? 0 : made.length;
    uint32_t number = snap_z80_write(slot->header, sizeof slot->header, slot->area, sizeof slot->area, slot->out, room,
                                     &slot->length);
    expect("write", number, room < made.length ? 22 : 0);
    expect("the length", slot->length, length);
    expect_bytes("output", slot->out, made.file, length);
    expect_zero("output past the file", slot->out + length, room - length);
}

static void write_request(struct server_slot *slot, uint64_t *seed)
{
    read_request(slot, seed);
    write_into(slot, sizeof slot->out);
}

static void short_write_request(struct server_slot *slot, uint64_t *seed)
{
    read_request(slot, seed);
    write_into(slot, made.length - 1 - next(seed) % 100);
}

/* A header that no machine has: a 128K with the mark of the sound chip; a 48K with a last OUT to 7FFD, or with a sound register and
   without the chip. */
static void spoil_header(uint8_t *header, uint64_t pick)
{
    if (is_128(header)) {
        header[37] |= SNAP_EMULATION_SOUND;
    } else if (pick % 4 == 0) {
        header[LAST_OUT] = 1;
    } else {
        header[37] &= 3;
        header[38 + pick / 4 % 17] |= 1;
    }
}

/* The slot's machine is not valid: nothing is written, and nothing told of it. */
static void not_valid_request(struct server_slot *slot, uint64_t *seed)
{
    uint8_t model = 7, attachment = 7;
    read_request(slot, seed);
    spoil_header(made.header, next(seed));
    memcpy(slot->header, made.header, sizeof slot->header);
    uint32_t number = snap_z80_write(slot->header, sizeof slot->header, slot->area, sizeof slot->area, slot->out,
                                     sizeof slot->out, &slot->length);
    expect("write", number, SNAP_INVALID_MACHINE);
    expect("the length", slot->length, 0);
    expect_zero("output", slot->out, sizeof slot->out);
    expect("model", snap_model(slot->header, sizeof slot->header, &model, &attachment), SNAP_INVALID_MACHINE);
    expect("what is told of the model", (uint64_t)(model | attachment), 0);
    expect_made(slot);
}

/* A view of a page, and all that is seen through it. */
static void view_page(const struct server_slot *slot, uint8_t page, uint32_t due)
{
    static const uint8_t rom[2 * SNAP_PAGE_SIZE];
    uint8_t in_rom = 7;
    uint64_t start = 7, length = 7;
    size_t rom_length = is_128(slot->header) ? 2 * SNAP_PAGE_SIZE : SNAP_PAGE_SIZE;
    uint32_t number = snap_view(slot->header, sizeof slot->header, rom, rom_length, slot->area, sizeof slot->area, page,
                                &in_rom, &start, &length);
    expect("view", number, due);
    expect("in_rom", in_rom, due == 0 && page >= 8);
    expect("the start", start, due == 0 ? page % 8 * SNAP_PAGE_SIZE : 0);
    expect("the length", length, due == 0 ? SNAP_PAGE_SIZE : 0);
    if (in_rom == 0)
        expect_bytes("the page", slot->area + start, made.area + start, length);
}

static void view_request(struct server_slot *slot, uint64_t *seed)
{
    static const uint8_t pages_48[4] = {0, 2, 5, 8};
    read_request(slot, seed);
    uint8_t pick = (uint8_t)next(seed);
    view_page(slot, is_128(slot->header) ? pick % 10 : pages_48[pick % 4], 0);
    expect_made(slot);
}

/* A page that a 48K machine lacks, or that no machine has. */
static void absent_view_request(struct server_slot *slot, uint64_t *seed)
{
    static const uint8_t pages_48[6] = {1, 3, 4, 6, 7, 9};
    read_request(slot, seed);
    uint8_t pick = (uint8_t)next(seed);
    view_page(slot, is_128(slot->header) ? 10 + pick % 246 : pages_48[pick % 6], 30);
    expect_made(slot);
}

/* What every call on a log is lent. */
#define LENT(slot)                                                                                                     \
    (slot)->header, sizeof(slot)->header, (slot)->area, sizeof(slot)->area, (slot)->log, sizeof(slot)->log,            \
        &(slot)->standing, &(slot)->total

static uint32_t correct(struct server_slot *slot, const struct asked_correction *asked)
{
    if (asked->kind == BYTE)
        return snap_correct_byte(LENT(slot), asked->place, (uint8_t)asked->value);
    if (asked->kind == PAIR)
        return snap_correct_pair(LENT(slot), (uint8_t)asked->place, asked->value);
    return snap_correct_out(LENT(slot), (uint8_t)asked->value);
}

/* Corrections until some are refused as the log is full; the steps go to log. How many stand. */
static unsigned make_corrections(struct server_slot *slot, uint8_t *log, uint64_t *seed)
{
    unsigned standing = 0;
    for (unsigned left = 4 + next(seed) % 16; left > 0; left--) {
        struct asked_correction asked = ask(&made, standing == LOG_STEPS, seed);
        expect("correction", correct(slot, &asked), asked.number);
        if (asked.number != 0)
            continue;
        memcpy(log + standing * SNAP_LOG_STEP, asked.step, SNAP_LOG_STEP);
        put_new(&made, asked.step);
        standing++;
    }
    return standing;
}

/* Corrections, undos and redos; then the machine is written. */
static void edit_request(struct server_slot *slot, uint64_t *seed)
{
    uint8_t log[LOG_SIZE] = {0};
    read_request(slot, seed);
    expect("start", snap_log_start(slot->log, sizeof slot->log, &slot->standing, &slot->total), 0);
    expect_zero("log", slot->log, sizeof slot->log);
    unsigned total = make_corrections(slot, log, seed), standing = total;
    for (unsigned left = next(seed) % 8; left > 0; left--) {
        expect("undo", snap_undo(LENT(slot)), standing == 0 ? 27 : 0);
        if (standing > 0)
            put_old(&made, log + --standing * SNAP_LOG_STEP);
    }
    for (unsigned left = next(seed) % 5; left > 0; left--) {
        expect("redo", snap_redo(LENT(slot)), standing == total ? 27 : 0);
        if (standing < total)
            put_new(&made, log + standing++ * SNAP_LOG_STEP);
    }
    expect("how many stand", slot->standing, standing);
    expect("how many stand or wait", slot->total, total);
    expect_bytes("log", slot->log, log, sizeof log);
    expect_made(slot);
    make_file(&made);
    write_into(slot, sizeof slot->out);
}

const struct request_kind kinds[REQUEST_KINDS] = {
    {"read", read_request},
    {"damaged file", damaged_request},
    {"write", write_request},
    {"short output", short_write_request},
    {"not valid", not_valid_request},
    {"view", view_request},
    {"absent page", absent_view_request},
    {"edit", edit_request},
    {"stored file", stored_request},
    {"SCS read", scs_read_request},
    {"SCS damaged", scs_damaged_request},
    {"SCS write", scs_write_request},
};
