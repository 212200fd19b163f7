/* Comparing all that a request can read out with what its seed says. */
#include "soak.h"
#include <stdio.h>
#include <stdlib.h>
#include <string.h>

struct running_request request;
uint64_t bytes_checked;

static void where(void)
{
    printf("FAIL request %lu (%s) in slot %u: ", request.number, request.kind, request.slot);
}

void expect(const char *call, uint64_t given, uint64_t due)
{
    if (given == due)
        return;
    where();
    printf("%s gives %llu, not %llu\n", call, (unsigned long long)given, (unsigned long long)due);
    exit(1);
}

void expect_bytes(const char *what, const uint8_t *given, const uint8_t *due, size_t length)
{
    bytes_checked += length;
    if (length == 0 || memcmp(given, due, length) == 0)
        return;
    size_t at = 0;
    while (given[at] == due[at])
        at++;
    where();
    printf("%s byte %zu is %02X, not %02X\n", what, at, given[at], due[at]);
    exit(1);
}

void expect_zero(const char *what, const uint8_t *given, size_t length)
{
    static const uint8_t zero[SNAP_FILE_MOST];
    expect_bytes(what, given, zero, length);
}

/* A read's number and its offset. */
void expect_read(const struct server_slot *slot, uint32_t number, struct refused_at due)
{
    expect("read", number, due.number);
    expect("the offset", slot->offset, due.offset);
}

/* The file explained: number and offset as they are read, and figures that go with them. */
void expect_explained(const uint8_t *file, size_t length, struct refused_at due)
{
    struct figures_told given = figures_dirt;
    expect("explain", snap_z80_explain(file, length, &given.offset, &given.block, &given.found, &given.due), due.number);
    expect("whether what is explained fits", (uint64_t)is_explained(due, given, file, length), 1);
    bytes_checked += sizeof given;
}

/* After a refused read: no memory, and the blank machine, whose counters are 443F and 3. */
void expect_refused(const struct server_slot *slot)
{
    static const uint8_t blank[SNAP_HEADER_SIZE] = {[30] = 54, [55] = 0x3F, [56] = 0x44, [57] = 3};
    expect_zero("area", slot->area, sizeof slot->area);
    expect_bytes("header", slot->header, blank, sizeof blank);
}
