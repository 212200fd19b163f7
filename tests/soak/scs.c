/* Requests with SCS files. */
#include "soak.h"
#include "../scs_kept.h"
#include <string.h>

static struct made made;

static uint32_t read_file_as_scs(struct server_slot *slot, size_t length)
{
    slot->offset = OFFSET_DIRT;
    return snap_scs_read(made.file, length, slot->area, sizeof slot->area, slot->header, sizeof slot->header,
                         &slot->offset);
}

/* A machine's SCS file is read into a slot that held another's. */
void scs_read_request(struct server_slot *slot, uint64_t *seed)
{
    make(&made, seed);
    make_scs_file(&made);
    expect_read(slot, read_file_as_scs(slot, made.length), (struct refused_at){0});
    scs_kept(made.header);
    expect_bytes("area", slot->area, made.area, sizeof made.area);
    expect_bytes("header", slot->header, made.header, sizeof made.header);
}

/* A file that is cut before its last block ends, a byte of its start or of its first block's head is another, or one of the
   other two blocks has the number of the block before it. */
void scs_damaged_request(struct server_slot *slot, uint64_t *seed)
{
    static const uint8_t places[6] = {0, 7, 14, 15, 18, 19};
    static const struct refused_at due_there[6] = {{SNAP_SCS_HEADER, 0}, {SNAP_SCS_HEADER, 0}, {SNAP_SCS_HEADER, 0},
                                                   {SNAP_SCS_MEMORY_NOT_FIRST, 0}, {SNAP_BLOCK_CUT, 15}, {SNAP_BLOCK_CUT, 15}};
    make(&made, seed);
    make_scs_file(&made);
    /* the Ports block is the last, and 19 bytes long; the CPU block before it has 34 */
    size_t length = made.length, ports = length - 5 - 24, cpu = ports - 39;
    uint64_t pick = next(seed);
    struct refused_at due;
    if (pick % 4 == 0) {
        made.file[places[pick / 4 % 6]] ^= 0x80;
        due = due_there[pick / 4 % 6];
    } else if (pick % 4 == 1) {
        due = (struct refused_at){SNAP_SCS_BLOCK_TWICE, pick / 4 % 2 ? ports : cpu};
        made.file[due.offset] = pick / 4 % 2 ? 1 : 3;
    } else {
        length = pick / 4 % (length - 5);
        due = scs_cut(made.file, length);
    }
    expect_read(slot, read_file_as_scs(slot, length), due);
    expect_refused(slot);
}

/* The slot's machine as an SCS file, in an output that is long enough or a little too short. */
void scs_write_request(struct server_slot *slot, uint64_t *seed)
{
    scs_read_request(slot, seed);
    make_scs_file(&made);
    size_t room = next(seed) % 3 == 0 ? made.length - 1 - next(seed) % 100 : sizeof slot->out - next(seed) % 20;
    uint64_t length = room < made.length ? 0 : made.length;
    uint32_t number = snap_scs_write(slot->header, sizeof slot->header, slot->area, sizeof slot->area, slot->out, room,
                                     &slot->length);
    expect("SCS write", number, room < made.length ? SNAP_OUTPUT_SHORT : 0);
    expect("the length", slot->length, length);
    expect_bytes("output", slot->out, made.file, length);
    expect_zero("output past the file", slot->out + length, room - length);
}
