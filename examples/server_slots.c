/*
 * server_slots.c: server_slots [FOLDER]. A server's loop over the files of a folder, by default `samples`. Four slots are
 * lent to requests in turn, and nobody clears them: each still holds the last visitor's machine when the next request gets
 * it. Nothing of it can come out.
 */
#include <string.h>

#include "load.h"

#define SLOTS 4

static struct server_slot {
    uint8_t header[SNAP_HEADER_SIZE], area[SNAP_AREA_SIZE];
} slots[SLOTS];

/* A line may break: then only so many bytes have arrived. */
static const struct request {
    const char *file;
    uint8_t page;
    size_t arrived;
} requests[] = {
    {"museum-128k.z80", 0, SIZE_MAX}, {"museum-128k.z80", 1, SIZE_MAX}, {"museum-128k.z80", 3, SIZE_MAX},
    {"museum-128k.z80", 4, SIZE_MAX}, {"museum-48k.z80", 2, SIZE_MAX},  {"museum-48k.z80", 1, SIZE_MAX},
    {"picture.txt", 5, SIZE_MAX},     {"museum-128k.z80", 6, SIZE_MAX}, {"museum-48k.z80", 5, 70},
};

static uint8_t file[SNAP_READ_MOST + 1];

/* What the visitor gets: a page, or a number. */
struct served {
    uint32_t number;
    uint64_t length;
    const uint8_t *page;
};

/* Reads the file into the slot and finds the page in it. */
static struct served serve(size_t file_length, uint8_t asked, struct server_slot *slot)
{
    static uint8_t rom[SNAP_ROM_SIZE_128K];
    struct served served = {0};
    uint64_t offset;
    served.number = snap_z80_read(file, file_length, slot->area, sizeof slot->area, slot->header, sizeof slot->header, &offset);
    if (served.number != SNAP_ACCEPTED)
        return served;
    uint8_t model, attachment, in_rom;
    snap_model(slot->header, sizeof slot->header, &model, &attachment);
    size_t rom_length = model == SNAP_128K ? SNAP_ROM_SIZE_128K : SNAP_ROM_SIZE_48K;
    uint64_t start;
    served.number = snap_view(slot->header, sizeof slot->header, rom, rom_length, slot->area, sizeof slot->area, asked,
                              &in_rom, &start, &served.length);
    served.page = (in_rom ? rom : slot->area) + start;
    return served;
}

/* How much of the place of a page is not zero: what the last visitor could have left there. */
static unsigned left_over(const struct server_slot *slot, unsigned page)
{
    unsigned count = 0;
    for (unsigned at = 0; at < SNAP_PAGE_SIZE; at++)
        count += slot->area[page * SNAP_PAGE_SIZE + at] != 0;
    return count;
}

/* Why the visitor's file is refused. Where only its page is, the file is good and every figure 0. */
static void print_refusal(size_t file_length, uint32_t number)
{
    uint64_t offset, block, found, due;
    snap_z80_explain(file, file_length, &offset, &block, &found, &due);
    printf("refused, %u", (unsigned)number);
    if (block != 0)
        printf(" in block %u, at byte %u", (unsigned)block, (unsigned)offset);
    printf(": %s", snap_sentence(number));
    if (due != 0)
        printf(", %u found, %u due", (unsigned)found, (unsigned)due);
}

static void answer(size_t file_length, uint8_t asked, struct server_slot *slot)
{
    struct served served = serve(file_length, asked, slot);
    const uint8_t *page = served.page;
    if (served.number == SNAP_ACCEPTED) {
        printf("%u bytes, from %02X %02X %02X %02X on\n", (unsigned)served.length, page[0], page[1], page[2], page[3]);
        return;
    }
    print_refusal(file_length, served.number);
    printf("; bytes left in its place: %u\n", left_over(slot, asked));
}

int main(int argc, char **argv)
{
    const char *folder = argc > 1 ? argv[1] : "samples";
    int status = 0;
    for (unsigned k = 0; k < sizeof requests / sizeof requests[0]; k++) {
        size_t file_length;
        int error = load(folder, requests[k].file, file, sizeof file, &file_length);
        if (file_length > requests[k].arrived)
            file_length = requests[k].arrived;
        printf("slot %u  %s page %u: ", k % SLOTS, requests[k].file, requests[k].page);
        if (error == 0) {
            answer(file_length, requests[k].page, &slots[k % SLOTS]);
        } else {
            printf("cannot be read: %s\n", strerror(error));
            status = 1;
        }
    }
    return status;
}
