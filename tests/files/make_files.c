/* make_files KIND STORING MEMORY.raw SETTINGS.txt OUT: writes a snapshot through libspectrum, .z80 or .szx by its ending. */
#include "settings.h"
#include <stdlib.h>

static const struct { const char *name; libspectrum_machine machine; } kinds[] = {
    { "16", LIBSPECTRUM_MACHINE_16 }, { "48", LIBSPECTRUM_MACHINE_48 }, { "48ntsc", LIBSPECTRUM_MACHINE_48_NTSC },
    { "128", LIBSPECTRUM_MACHINE_128 }, { "128e", LIBSPECTRUM_MACHINE_128E }, { "se", LIBSPECTRUM_MACHINE_SE },
    { "plus2", LIBSPECTRUM_MACHINE_PLUS2 }, { "plus2a", LIBSPECTRUM_MACHINE_PLUS2A },
    { "plus3", LIBSPECTRUM_MACHINE_PLUS3 }, { "plus3e", LIBSPECTRUM_MACHINE_PLUS3E },
    { "pentagon", LIBSPECTRUM_MACHINE_PENT }, { "scorpion", LIBSPECTRUM_MACHINE_SCORP },
    { "tc2048", LIBSPECTRUM_MACHINE_TC2048 }, { "tc2068", LIBSPECTRUM_MACHINE_TC2068 },
    { "ts2068", LIBSPECTRUM_MACHINE_TS2068 },
};

static void fail(const char *what)
{
    fprintf(stderr, "make_files: %s\n", what);
    exit(1);
}

static FILE *opened(const char *name, const char *mode)
{
    FILE *file = fopen(name, mode);
    if (!file)
        fail(name);
    return file;
}

static void set_kind(libspectrum_snap *snap, const char *name)
{
    for (size_t at = 0; at < sizeof kinds / sizeof *kinds; at++)
        if (!strcmp(kinds[at].name, name)) {
            libspectrum_snap_set_machine(snap, kinds[at].machine);
            return;
        }
    fail(name);
}

/* RAM pages 0 to 7; a Scorpion gets them twice. */
static void set_pages(libspectrum_snap *snap, const char *name)
{
    FILE *file = opened(name, "rb");
    for (int page = 0; page < 8; page++) {
        libspectrum_byte *bytes = libspectrum_malloc(PAGE), *again = libspectrum_malloc(PAGE);
        if (fread(bytes, 1, PAGE, file) != PAGE)
            fail(name);
        memcpy(again, bytes, PAGE);
        libspectrum_snap_set_pages(snap, page, bytes);
        libspectrum_snap_set_pages(snap, page + 8, again);
    }
    fclose(file);
}

static void set_one(libspectrum_snap *snap, const char *name, value number)
{
    int sound;
    if (sscanf(name, "sound%d", &sound) == 1) {
        libspectrum_snap_set_ay_registers(snap, sound, number);
        return;
    }
    for (size_t at = 0; at < SETTINGS; at++)
        if (!strcmp(settings[at].name, name)) {
            settings[at].set(snap, number);
            return;
        }
    fail(name);
}

static void set_settings(libspectrum_snap *snap, const char *name)
{
    FILE *file = opened(name, "r");
    char setting_name[32];
    value number;
    while (fscanf(file, "%31s %u", setting_name, &number) == 2)
        set_one(snap, setting_name, number);
    fclose(file);
}

static libspectrum_id_t format_of(const char *name)
{
    return strstr(name, ".szx") ? LIBSPECTRUM_ID_SNAPSHOT_SZX : LIBSPECTRUM_ID_SNAPSHOT_Z80;
}

int main(int count, char **words)
{
    if (count != 6 || libspectrum_init())
        fail("usage: make_files KIND STORING MEMORY.raw SETTINGS.txt OUT");
    libspectrum_snap *snap = libspectrum_snap_alloc();
    set_kind(snap, words[1]);
    set_pages(snap, words[3]);
    set_settings(snap, words[4]);
    int flags = 0, lost = 0;
    if (!strcmp(words[2], "Plain"))
        flags = LIBSPECTRUM_FLAG_SNAPSHOT_NO_COMPRESSION;
    if (!strcmp(words[2], "Packed"))
        flags = LIBSPECTRUM_FLAG_SNAPSHOT_ALWAYS_COMPRESS;
    libspectrum_byte *bytes = NULL;
    size_t length = 0;
    if (libspectrum_snap_write(&bytes, &length, &lost, snap, format_of(words[5]), NULL, flags))
        fail("not written");
    FILE *out = opened(words[5], "wb");
    if (fwrite(bytes, 1, length, out) != length || fclose(out))
        fail(words[5]);
    return 0;
}
