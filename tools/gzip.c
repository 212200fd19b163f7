/* gzip.c: what stands in a gzip file, up to a bound: a file that unpacks to more costs no more than that. */
#define ZLIB_CONST
#include <zlib.h>

#include "tool.h"

/* zlib's largest window, and gzip around it. */
#define GZIP_WINDOW (15 + 16)

bool begins_as_gzip(const uint8_t *file, size_t length)
{
    return length > 3 && file[0] == 0x1F && file[1] == 0x8B && file[2] == Z_DEFLATED && file[3] < 0x20;
}

/* Zeros behind the wrapper are padding, as gzip takes them. */
static bool is_padding(const uint8_t *bytes, size_t length)
{
    while (length > 0 && bytes[length - 1] == 0)
        length--;
    return length == 0;
}

/* The parts of the wrapper one after the other, joined as gzip joins them. */
static const char *unwrap_parts(z_stream *stream)
{
    do {
        switch (inflate(stream, Z_FINISH)) {
        case Z_STREAM_END: break;
        case Z_BUF_ERROR: return stream->avail_out == 0 ? NULL : "its gzip wrapper is cut short";
        case Z_MEM_ERROR: return "there is no memory to unwrap it";
        default: return "its gzip wrapper is damaged";
        }
    } while (begins_as_gzip(stream->next_in, stream->avail_in) && inflateReset(stream) == Z_OK);
    /* once, not after each part: of a long file both the parts and the zeros may be very many */
    return is_padding(stream->next_in, stream->avail_in) ? NULL : "something else follows its gzip wrapper";
}

const char *unwrap(const uint8_t *file, size_t length, uint8_t *inside, size_t room, size_t *inside_length)
{
    z_stream stream = {.next_in = file, .avail_in = (uInt)length, .next_out = inside, .avail_out = (uInt)room};
    *inside_length = 0;
    if (inflateInit2(&stream, GZIP_WINDOW) != Z_OK)
        return "there is no memory to unwrap it";
    const char *fault = unwrap_parts(&stream);
    *inside_length = room - stream.avail_out;
    inflateEnd(&stream);
    return fault;
}
