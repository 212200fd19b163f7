/*
 * corrections.c: corrections [FOLDER]. Two curators work on one machine, the 128K sample of a folder, by default `samples`,
 * each with a log. One corrects a byte at C00D; the other pages another page in there; then the first takes the byte back.
 * It goes into the page that it came from.
 */
#include <stdlib.h>
#include <string.h>

#include "load.h"

#define OTHER_PAGE 3u

static uint8_t file[SNAP_READ_MOST + 1], out[SNAP_FILE_MOST], header[SNAP_HEADER_SIZE], area[SNAP_AREA_SIZE];

static struct log {
    uint8_t steps[16 * SNAP_LOG_STEP];
    uint64_t standing, total;
} one, two;

#define LENT(log) \
    header, sizeof header, area, sizeof area, (log).steps, sizeof (log).steps, &(log).standing, &(log).total

/* Every call can refuse; here none does. */
static void must(uint32_t number, const char *what)
{
    if (number == SNAP_ACCEPTED)
        return;
    fprintf(stderr, "%s: refused, %u: %s\n", what, (unsigned)number, snap_sentence(number));
    exit(1);
}

static void print_state(const char *done)
{
    unsigned paged = header[SNAP_AT_OUT_7FFD] & SNAP_7FFD_PAGE;
    printf("%-28s page %u is at C000; 0 says \"%.14s\", 3 says \"%.14s\"\n", done, paged, (const char *)area,
           (const char *)area + OTHER_PAGE * SNAP_PAGE_SIZE);
}

static size_t open_file(const char *folder, const char *name)
{
    size_t length;
    uint64_t offset;
    int error = load(folder, name, file, sizeof file, &length);
    if (error != 0) {
        fprintf(stderr, "%s/%s: cannot be read: %s\n", folder, name, strerror(error));
        exit(1);
    }
    uint32_t number = snap_z80_read(file, length, area, sizeof area, header, sizeof header, &offset);
    if (offset != 0)
        fprintf(stderr, "%s: at byte %llu\n", name, (unsigned long long)offset);
    must(number, name);
    return length;
}

int main(int argc, char **argv)
{
    size_t file_length = open_file(argc > 1 ? argv[1] : "samples", "museum-128k.z80");
    must(snap_log_start(one.steps, sizeof one.steps, &one.standing, &one.total), "log one");
    must(snap_log_start(two.steps, sizeof two.steps, &two.standing, &two.total), "log two");
    print_state("opened");

    must(snap_correct_byte(LENT(one), 0xC00D, 'X'), "byte");
    print_state("one: byte C00D 58");
    printf("    its step keeps page %u, offset %02X%02X, old %02X, new %02X\n", one.steps[SNAP_STEP_INDEX],
           one.steps[SNAP_STEP_OFFSET + 1], one.steps[SNAP_STEP_OFFSET], one.steps[SNAP_STEP_OLD], one.steps[SNAP_STEP_NEW]);
    uint8_t paging = (uint8_t)((header[SNAP_AT_OUT_7FFD] & ~SNAP_7FFD_PAGE) | OTHER_PAGE);
    must(snap_correct_out(LENT(two), paging), "OUT");
    print_state("two: OUT 1B");
    must(snap_undo(LENT(one)), "undo");
    print_state("one: undo");
    must(snap_undo(LENT(two)), "undo");
    print_state("two: undo");

    uint64_t length;
    must(snap_z80_write(header, sizeof header, area, sizeof area, out, sizeof out, &length), "writing");
    printf("written: %u bytes, %s\n", (unsigned)length,
           length == file_length && memcmp(out, file, file_length) == 0 ? "the file that was opened" : "another file");
    return 0;
}
