/* Reading and writing a .z80 file through libspectrum, for the benchmark. */
#include <libspectrum.h>

int shim_start(void)
{
    return libspectrum_init();
}

/* A snapshot read from the file, or NULL. The file has room for two more bytes after it. */
libspectrum_snap *shim_read(const unsigned char *file, size_t length)
{
    libspectrum_snap *snap = libspectrum_snap_alloc();
    if (libspectrum_snap_read(snap, file, length, LIBSPECTRUM_ID_SNAPSHOT_Z80, NULL)) {
        libspectrum_snap_free(snap);
        return NULL;
    }
    return snap;
}

void shim_free(libspectrum_snap *snap)
{
    libspectrum_snap_free(snap);
}

/* A RAM page of 16,384 bytes, or NULL. */
const unsigned char *shim_page(libspectrum_snap *snap, int page)
{
    return libspectrum_snap_pages(snap, page);
}

/* Writes the snapshot into memory of its own, frees that, and answers its length; 0 where it fails. */
size_t shim_write(libspectrum_snap *snap)
{
    unsigned char *bytes = NULL;
    size_t length = 0;
    int lost = 0;
    if (libspectrum_snap_write(&bytes, &length, &lost, snap, LIBSPECTRUM_ID_SNAPSHOT_Z80, NULL, 0))
        return 0;
    libspectrum_free(bytes);
    return length;
}
