/* scs.c: what the bytes of an SCS file say of themselves, beside what the library reads. */
#include <string.h>

#include "tool.h"

#define SCS_HARDWARE 14u
#define SCS_HEADER 15u
#define SCS_BLOCK_HEAD 5u

enum scs_block { SCS_END, SCS_CPU, SCS_PORTS, SCS_MEMORY };

bool is_scs(const uint8_t *file, size_t length)
{
    static const char scs_mark[] = "SamSnap!";
    return length >= strlen(scs_mark) && memcmp(file, scs_mark, strlen(scs_mark)) == 0;
}

static uint32_t block_size(const uint8_t *head)
{
    return word_at(head, 1) | (uint32_t)word_at(head, 3) << 16;
}

/* Where the block after the one at a place begins; the file's length where that one is cut. */
static size_t block_after(const uint8_t *file, size_t length, size_t at)
{
    size_t left = length - at;
    if (left < SCS_BLOCK_HEAD || left - SCS_BLOCK_HEAD < block_size(file + at))
        return length;
    return at + SCS_BLOCK_HEAD + block_size(file + at);
}

uint64_t scs_block_with(const uint8_t *file, size_t length, uint64_t place)
{
    uint64_t ordinal = 0;
    for (size_t at = SCS_HEADER; at < length && at <= place; at = block_after(file, length, at))
        ordinal++;
    return ordinal;
}

static const char *block_name(unsigned number)
{
    static const char *const names[] = {", the end", ", CPU", ", Ports", ", Memory"};
    return number <= SCS_MEMORY ? names[number] : "";
}

static void hint_for_hardware(unsigned hardware, char hint[HINT_SIZE])
{
    snprintf(hint, HINT_SIZE, hardware == 0 ? "hardware number 0, the Sam itself"
                                            : "hardware number %u; it is 1 for a 48K and 2 for a 128K", hardware);
}

static void hint_for_first(const uint8_t *file, size_t length, char hint[HINT_SIZE])
{
    if (length <= SCS_HEADER)
        snprintf(hint, HINT_SIZE, "the file ends after its header");
    else
        snprintf(hint, HINT_SIZE, "the first block has number %u%s; it is 3 for Memory", file[SCS_HEADER],
                 block_name(file[SCS_HEADER]));
}

/* The block that is cut, by what it says of its length. */
static void hint_for_cut(const uint8_t *head, size_t left, char hint[HINT_SIZE])
{
    if (left < SCS_BLOCK_HEAD)
        snprintf(hint, HINT_SIZE, "its number is %u%s, and its head is cut", head[0], block_name(head[0]));
    else
        snprintf(hint, HINT_SIZE, "its number is %u%s; it says %u bytes and has %u", head[0], block_name(head[0]),
                 (unsigned)block_size(head), (unsigned)(left - SCS_BLOCK_HEAD));
}

static void hint_for_missing(const uint8_t *file, size_t length, char hint[HINT_SIZE])
{
    bool there[256] = {false};
    for (size_t at = SCS_HEADER; at < length && file[at] != SCS_END; at = block_after(file, length, at))
        there[file[at]] = true;
    snprintf(hint, HINT_SIZE, "there is %s",
             there[SCS_CPU] ? "no Ports block" : there[SCS_PORTS] ? "no CPU block" : "neither");
}

void hint_for_scs(const struct taking *taken, char hint[HINT_SIZE])
{
    const uint8_t *file = taken->bytes, *head = file + taken->offset;
    size_t length = taken->length;
    switch (taken->number) {
    case SNAP_SCS_HEADER: hint_for_hardware(file[SCS_HARDWARE], hint); break;
    case SNAP_SCS_MEMORY_NOT_FIRST: hint_for_first(file, length, hint); break;
    case SNAP_BLOCK_CUT: hint_for_cut(head, length - (size_t)taken->offset, hint); break;
    case SNAP_SCS_BLOCK_TWICE: snprintf(hint, HINT_SIZE, "its number is %u%s", head[0], block_name(head[0])); break;
    case SNAP_SCS_BLOCK_MISSING: hint_for_missing(file, length, hint); break;
    default: hint[0] = 0;
    }
}
