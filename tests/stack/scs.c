/* SCS files made here and read, and machines written as SCS files. */
#include "made.h"
#include "stack.h"
#include "../scs_kept.h"
#include <string.h>

#define CPU_BYTES 34u
#define PORTS_BYTES 19u

/* Outputs of many lengths; what is written reads back as SCS keeps it, and the machine then stands as before. */
void try_scs_writes(const char *name)
{
    static uint8_t file[SNAP_SCS_FILE_128K], header[SNAP_HEADER_SIZE], kept[SNAP_HEADER_SIZE], area[SNAP_AREA_SIZE];
    struct tried_call call = usual(SCS_WRITE, &ordinary);
    try_call(name, &call, 0);
    size_t length = (size_t)ordinary.length;
    const size_t rooms[6] = {0, 1, 88, length / 2, length - 1, length};
    expect_holds(name, "an SCS file of another length",
                 length == (is_128(ordinary.header) ? SNAP_SCS_FILE_128K : SNAP_SCS_FILE_48K));
    memcpy(file, ordinary.out, length);
    memcpy(header, ordinary.header, sizeof header);
    memcpy(kept, ordinary.header, sizeof kept);
    memcpy(area, ordinary.area, sizeof area);
    scs_kept(kept);
    for (unsigned at = 0; at < 6; at++) {
        call.out_len = rooms[at];
        try_call(name, &call, rooms[at] < length ? SNAP_OUTPUT_SHORT : 0);
    }
    expect_holds(name, "the SCS file is another in an output of its length", memcmp(file, ordinary.out, length) == 0);
    try_lengths(name, usual(SCS_WRITE, &ordinary));
    call = usual(SCS_READ, &ordinary);
    call.file = file;
    call.file_len = length;
    try_read(name, &call, (struct refused_at){0});
    expect_holds(name, "another header comes back from SCS", memcmp(kept, ordinary.header, sizeof kept) == 0);
    expect_holds(name, "another area comes back from SCS", memcmp(area, ordinary.area, sizeof area) == 0);
    memcpy(ordinary.header, header, sizeof header);
    level();
}

static void put_start(uint8_t hardware)
{
    made.length = 0;
    put_bytes((const uint8_t *)"SamSnap!ASCD\0\142", 14);
    put_byte(hardware);
}

static void put_size(uint8_t number, size_t size)
{
    put_byte(number);
    for (unsigned shift = 0; shift < 32; shift += 8)
        put_byte((uint8_t)(size >> shift));
}

/* A block of random bytes, its interrupt mode, if it has one, 1. */
static void put_random(uint8_t number, size_t size)
{
    static uint64_t seed = 13;
    put_size(number, size);
    for (size_t at = 0; at < size; at++)
        put_byte(at == 26 ? 1 : (uint8_t)next(&seed));
}

/* The start and the Memory block, of so many bytes of what `memory` holds. */
static void put_memory(int is_128k, size_t size)
{
    put_start(is_128k ? 2 : 1);
    put_size(3, size);
    for (unsigned at = 0; at < (is_128k ? 8u : 3u) && size > 0; at++) {
        size_t part = size < SNAP_PAGE_SIZE ? size : SNAP_PAGE_SIZE;
        put_bytes(memory + (is_128k ? at : pages_48[at]) * SNAP_PAGE_SIZE, part);
        size -= part;
    }
    for (; size > 0; size--)
        put_byte(0xA5);
}

/* The next length to cut a file to: every one near its start and its last block, some between. */
static size_t next_cut(size_t length, size_t last)
{
    size_t step = last / 40 + 1, near = last - 90;
    if (length < 60 || length >= near)
        return length + 1;
    return length + step < near ? length + step : near;
}

/* No beginning that lacks a byte of the last block is accepted; five zeros stand behind it. */
static void try_scs_cuts(const struct file *file)
{
    size_t last = file->length - 5;
    struct tried_call call = read_call(file);
    for (call.file_len = 0; call.file_len < last; call.file_len = next_cut(call.file_len, last)) {
        struct refused_at due = scs_cut(file->bytes, call.file_len);
        expect_holds(file->name, "a cut file would be good", due.number != 0);
        try_read(file->name, &call, due);
    }
    for (; call.file_len < file->length; call.file_len++)
        try_read(file->name, &call, (struct refused_at){0});
}

/* Whether the ports are as the Ports block of the file that is made has them; a 48K has the sound chip. */
static int are_scs_ports_read(int is_128k)
{
    uint8_t ports[PORTS_BYTES] = {0};
    const uint8_t *header = ordinary.header, *block = made.bytes + 15;
    size_t size = 0;
    for (;; block += 5 + size) {
        size = block[1] + block[2] * 256u + block[3] * 65536u;
        if (block[0] == 2)
            break;
    }
    memcpy(ports, block + 5, size < sizeof ports ? size : sizeof ports);
    return header[35] == (is_128k ? ports[1] : 0) && header[37] == (is_128k ? 0 : SNAP_EMULATION_SOUND)
        && header[38] == ports[2] % 16 && memcmp(header + 39, ports + 3, 16) == 0;
}

/* The file that is made: its area as `memory` has it, less pages that a 48K does not own. */
static void read_scs(const char *name, int is_128k)
{
    static uint8_t due[SNAP_AREA_SIZE];
    const struct file *file = keep(SCS_READ, name, made.bytes, made.length);
    struct tried_call call = read_call(file);
    memcpy(due, memory, sizeof due);
    for (unsigned page = 0; !is_128k && page < 8; page++)
        if (page != 0 && page != 2 && page != 5)
            memset(due + page * SNAP_PAGE_SIZE, 0, SNAP_PAGE_SIZE);
    try_read_lengths(file);
    try_scs_cuts(file);
    try_read(name, &call, (struct refused_at){0});
    expect_holds(name, "the area is not what it must be", memcmp(ordinary.area, due, sizeof due) == 0);
    expect_holds(name, "the ports are not what they must be", are_scs_ports_read(is_128k));
    use_machine(name);
}

static void refuse_scs(const char *name, uint32_t due, size_t place)
{
    static const uint8_t zeros[SNAP_AREA_SIZE];
    const struct file *file = keep(SCS_READ, name, made.bytes, made.length);
    struct tried_call call = read_call(file);
    try_read_lengths(file);
    try_read(name, &call, (struct refused_at){due, place});
    expect_holds(name, "the area is not zero", memcmp(ordinary.area, zeros, sizeof zeros) == 0);
}

static void put_end(void)
{
    put_bytes((const uint8_t *)"\0\0\0\0", 5); /* with the closing zero */
}

static void scs_good(int is_128k)
{
    size_t full = (is_128k ? 8 : 3) * SNAP_PAGE_SIZE;
    put_memory(is_128k, full);
    put_random(1, CPU_BYTES);
    put_random(2, PORTS_BYTES);
    put_end();
    read_scs("SCS as it is written", is_128k);
    put_memory(is_128k, full + 1000);
    put_random(77, 3000);
    put_random(2, PORTS_BYTES + 100);
    put_random(4, 0);
    put_random(1, CPU_BYTES + 100);
    put_end();
    read_scs("SCS, long and skipped blocks", is_128k);
    put_memory(is_128k, full);
    put_random(2, 1);
    put_random(1, 20);
    put_end();
    read_scs("SCS, short blocks", is_128k);
}

/* Memory of one byte, a CPU block, and then these bytes. */
static void scs_ends(const char *name, const char *end, size_t count, uint32_t due)
{
    put_memory(0, 1);
    put_random(1, CPU_BYTES);
    size_t head = made.length;
    put_bytes((const uint8_t *)end, count);
    refuse_scs(name, due, due == SNAP_SCS_BLOCK_MISSING ? 0 : head);
}

static void scs_bad(void)
{
    scs_ends("SCS without Ports", "", 0, SNAP_SCS_BLOCK_MISSING);
    scs_ends("SCS, an end before Ports", "\0\2\0\0\0\0", 6, SNAP_SCS_BLOCK_MISSING);
    scs_ends("SCS, one byte left over", "\2", 1, SNAP_BLOCK_CUT);
    scs_ends("SCS, a block's head cut", "\2\0\0\0", 4, SNAP_BLOCK_CUT);
    scs_ends("SCS, a block without its data", "\2\1\0\0\0", 5, SNAP_BLOCK_CUT);
    scs_ends("SCS, a block of 4,294,967,295 bytes", "\t\377\377\377\377", 5, SNAP_BLOCK_CUT);
    scs_ends("SCS, CPU twice", "\1\0\0\0\0", 5, SNAP_SCS_BLOCK_TWICE);
    scs_ends("SCS, Memory twice", "\3\0\0\0\0", 5, SNAP_SCS_BLOCK_TWICE);
    put_start(1);
    refuse_scs("SCS of its start alone", SNAP_SCS_MEMORY_NOT_FIRST, 0);
    put_random(1, CPU_BYTES);
    refuse_scs("SCS, CPU first", SNAP_SCS_MEMORY_NOT_FIRST, 0);
    put_start(0);
    refuse_scs("SCS of a Sam", SNAP_SCS_HEADER, 0);
    put_memory(1, 0);
    put_random(2, 0);
    put_random(1, CPU_BYTES);
    made.bytes[made.length - CPU_BYTES + 26] = 3;
    refuse_scs("SCS, interrupt mode 3", SNAP_INTERRUPT_MODE, 0);
    made.length = 14;
    refuse_scs("SCS of 14 bytes", SNAP_FILE_SHORT, 0);
}

void try_scs(void)
{
    make_memory(0);
    scs_good(0);
    scs_good(1);
    scs_bad();
}
