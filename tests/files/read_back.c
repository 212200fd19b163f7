/* read_back FILE.z80 MEMORY.raw SETTINGS.txt: reads a snapshot through libspectrum and writes what it holds. */
#include "settings.h"
#include <stdlib.h>

static void fail(const char *what)
{
    fprintf(stderr, "read_back: %s\n", what);
    exit(1);
}

/* The whole file, with room after it: libspectrum may look two bytes past a block. */
static libspectrum_byte *contents(const char *name, size_t *length)
{
    static libspectrum_byte bytes[1 << 18];
    FILE *file = fopen(name, "rb");
    if (!file)
        fail(name);
    *length = fread(bytes, 1, sizeof bytes - 16, file);
    fclose(file);
    return bytes;
}

/* RAM pages 0 to 7; one that is not there is written as zeros. */
static void write_pages(libspectrum_snap *snap, const char *name)
{
    static const libspectrum_byte zeros[PAGE];
    FILE *file = fopen(name, "wb");
    if (!file)
        fail(name);
    for (int page = 0; page < 8; page++) {
        const libspectrum_byte *bytes = libspectrum_snap_pages(snap, page);
        if (fwrite(bytes ? bytes : zeros, 1, PAGE, file) != PAGE)
            fail(name);
    }
    if (fclose(file))
        fail(name);
}

static void write_settings(libspectrum_snap *snap, const char *name)
{
    FILE *file = fopen(name, "w");
    if (!file)
        fail(name);
    for (size_t at = 0; at < READ_BACK; at++)
        fprintf(file, "%s %u\n", settings[at].name, settings[at].get(snap));
    for (int sound = 0; sound < 16; sound++)
        fprintf(file, "sound%d %u\n", sound, libspectrum_snap_ay_registers(snap, sound));
    if (fclose(file))
        fail(name);
}

int main(int count, char **words)
{
    if (count != 4 || libspectrum_init())
        fail("usage: read_back FILE.z80 MEMORY.raw SETTINGS.txt");
    size_t length;
    libspectrum_byte *bytes = contents(words[1], &length);
    libspectrum_snap *snap = libspectrum_snap_alloc();
    if (libspectrum_snap_read(snap, bytes, length, LIBSPECTRUM_ID_SNAPSHOT_Z80, NULL))
        fail("not read");
    write_pages(snap, words[2]);
    write_settings(snap, words[3]);
    return 0;
}
