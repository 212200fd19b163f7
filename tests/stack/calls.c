/* One call of any exported function, from a description of it. */
#include "stack.h"

const char *const function_names[FUNCTIONS] = {
    "snap_z80_read",  "snap_z80_explain",  "snap_z80_write",    "snap_scs_read",    "snap_scs_write", "snap_view",
    "snap_log_start", "snap_correct_byte", "snap_correct_pair", "snap_correct_out", "snap_undo",      "snap_redo",
    "snap_version",   "snap_model",        "snap_pair",         "snap_place",
};

int is_128(const uint8_t *header)
{
    return header[34] >= 4;
}

/* A call with all buffers at their proper lengths, and a log of 9 steps. */
struct tried_call usual(enum function function, const struct lent_buffers *lent)
{
    struct tried_call call = {.function = function, .header_len = SNAP_HEADER_SIZE, .area_len = SNAP_AREA_SIZE};
    call.log_len = 100;
    call.out_len = SNAP_FILE_MOST;
    call.rom_len = is_128(lent->header) ? SNAP_ROM_SIZE_128K : SNAP_ROM_SIZE_48K;
    return call;
}

/* What every call on a log is lent. */
#define LOGGED                                                                                                         \
    lent->header, call->header_len, lent->area, call->area_len, lent->log, call->log_len, &lent->standing, &lent->total

/* One of the last four functions. */
static uint32_t make_look(struct lent_buffers *lent, const struct tried_call *call)
{
    struct figures *figures = &lent->figures;
    switch (call->function) {
    case VERSION:
        return snap_version() != SNAP_VERSION; /* it answers no number: 0 where it is the header file's */
    case MODEL:
        return snap_model(lent->header, call->header_len, &figures->model, &figures->attachment);
    case PAIR_VALUE:
        return snap_pair(lent->header, call->header_len, (uint8_t)call->place, &figures->pair);
    case PLACE:
        return snap_place(lent->header, call->header_len, call->place, &figures->in_rom, &figures->page,
                          &figures->offset);
    default:
        return ANY; /* no call: what the way there takes */
    }
}

uint32_t make_call(struct lent_buffers *lent, const struct tried_call *call)
{
    static const uint8_t rom[SNAP_ROM_SIZE_128K + 1];
    switch (call->function) {
    case READ:
        lent->place = OFFSET_DIRT;
        return snap_z80_read(call->file, call->file_len, lent->area, call->area_len, lent->header, call->header_len,
                             &lent->place);
    case EXPLAIN:
        lent->explained = figures_dirt;
        return snap_z80_explain(call->file, call->file_len, &lent->explained.offset, &lent->explained.block,
                                &lent->explained.found, &lent->explained.due);
    case WRITE:
        return snap_z80_write(lent->header, call->header_len, lent->area, call->area_len, lent->out, call->out_len,
                              &lent->length);
    case SCS_READ:
        lent->place = OFFSET_DIRT;
        return snap_scs_read(call->file, call->file_len, lent->area, call->area_len, lent->header, call->header_len,
                             &lent->place);
    case SCS_WRITE:
        return snap_scs_write(lent->header, call->header_len, lent->area, call->area_len, lent->out, call->out_len,
                              &lent->length);
    case VIEW:
        return snap_view(lent->header, call->header_len, rom, call->rom_len, lent->area, call->area_len,
                         (uint8_t)call->place, &lent->figures.in_rom, &lent->start, &lent->length);
    case START:
        return snap_log_start(lent->log, call->log_len, &lent->standing, &lent->total);
    case BYTE:
        return snap_correct_byte(LOGGED, call->place, (uint8_t)call->value);
    case PAIR:
        return snap_correct_pair(LOGGED, (uint8_t)call->place, call->value);
    case OUT:
        return snap_correct_out(LOGGED, (uint8_t)call->value);
    case UNDO:
        return snap_undo(LOGGED);
    case REDO:
        return snap_redo(LOGGED);
    default:
        return make_look(lent, call);
    }
}
