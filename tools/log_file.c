/* log_file.c: the correction log in a file: a mark, the two numbers, the sum of the machine and memory that it belongs to,
 * its own sum, and the steps. */
#include <string.h>
#include <sys/stat.h>
#include <zlib.h>

#include "tool.h"

static const uint8_t mark[8] = "SNAPLOG1";
#define HEAD (LOG_FILE_MOST - SNAP_LOG_MOST)
/* The longest name of a file in a folder. */
#define NAME_MOST 255

static void put_u32(uint8_t *to, uint32_t value)
{
    for (unsigned at = 0; at < 4; at++)
        to[at] = (uint8_t)(value >> 8 * at);
}

static uint32_t take_u32(const uint8_t *from)
{
    return from[0] | (uint32_t)from[1] << 8 | (uint32_t)from[2] << 16 | (uint32_t)from[3] << 24;
}

static uint32_t machine_sum(const struct snapshot *opened)
{
    uLong sum = crc32(0, opened->header, sizeof opened->header);
    return (uint32_t)crc32(sum, opened->area, sizeof opened->area);
}

/* The sum of the numbers, the machine's sum and the steps. */
static uint32_t log_sum(const uint8_t *file, size_t length)
{
    uLong sum = crc32(0, file + 8, 12);
    return (uint32_t)crc32(sum, file + HEAD, (uInt)(length - HEAD));
}

enum status check_log(const char *name, const uint8_t *file, size_t length)
{
    bool log = length >= HEAD && length <= LOG_FILE_MOST && memcmp(file, mark, sizeof mark) == 0;
    return log || length == 0 ? ACCEPTED : cannot(name, "is not a correction log; --log names another file");
}

static bool is_whole(const uint8_t *file, size_t length)
{
    uint32_t standing = take_u32(file + 8), total = take_u32(file + 12);
    return standing <= total && total <= SNAP_LOG_STEPS && length == HEAD + total * SNAP_LOG_STEP
        && take_u32(file + 20) == log_sum(file, length);
}

static bool exists(const char *path)
{
    struct stat about;
    return stat(path, &about) == 0;
}

enum status load_log(const char *path, const struct snapshot *opened, bool strict, struct log *log)
{
    static uint8_t kept[LOG_FILE_MOST + 1];
    size_t length;
    if (!exists(path))
        return ACCEPTED;
    enum status status = read_bounded(path, kept, LOG_FILE_MOST, &length);
    if (status == ACCEPTED)
        status = check_log(path, kept, length);
    if (status != ACCEPTED || length == 0)
        return status;
    bool whole = is_whole(kept, length);
    if (!whole || take_u32(kept + 16) != machine_sum(opened)) {
        if (strict)
            return refused(path, SNAP_STEP_DAMAGED);
        warn(path, "%s; a new log is started", whole ? "belongs to something else" : "is damaged");
        return ACCEPTED;
    }
    log->standing = take_u32(kept + 8);
    log->total = take_u32(kept + 12);
    memcpy(log->steps, kept + HEAD, length - HEAD);
    return ACCEPTED;
}

size_t log_bytes(const struct snapshot *opened, const struct log *log, uint8_t file[LOG_FILE_MOST])
{
    size_t length = HEAD + (size_t)log->total * SNAP_LOG_STEP;
    memcpy(file, mark, sizeof mark);
    put_u32(file + 8, (uint32_t)log->standing);
    put_u32(file + 12, (uint32_t)log->total);
    put_u32(file + 16, machine_sum(opened));
    memcpy(file + HEAD, log->steps, length - HEAD);
    put_u32(file + 20, log_sum(file, length));
    return length;
}

/* A name that leaves no room for the ending is cut between characters, and its sum tells it from others. */
enum status log_beside(const char *file, char name[PATH_ROOM])
{
    static const char ending[] = ".snaplog";
    const char *slash = strrchr(file, '/'), *last = slash == NULL ? file : slash + 1;
    size_t length = strlen(file), most = (size_t)(last - file) + NAME_MOST - strlen(ending);
    char sum[10] = "";
    if (length > most) {
        snprintf(sum, sizeof sum, "-%08X", (unsigned)crc32(0, (const uint8_t *)last, (uInt)strlen(last)));
        length = most - strlen(sum);
        while (file + length > last && ((unsigned char)file[length] & 0xC0) == 0x80)
            length--;
    }
    if (snprintf(name, PATH_ROOM, "%.*s%s%s", (int)length, file, sum, ending) >= PATH_ROOM)
        return cannot(file, "the name is too long");
    return ACCEPTED;
}

void print_step(FILE *to, const struct log *log, uint64_t step, bool back)
{
    const uint8_t *bytes = log->steps + step * SNAP_LOG_STEP;
    unsigned index = bytes[SNAP_STEP_INDEX], offset = word_at(bytes, SNAP_STEP_OFFSET);
    unsigned before = word_at(bytes, back ? SNAP_STEP_NEW : SNAP_STEP_OLD);
    unsigned after = word_at(bytes, back ? SNAP_STEP_OLD : SNAP_STEP_NEW);
    switch (bytes[SNAP_STEP_TAG]) {
    case SNAP_STEP_BYTE: fprintf(to, "byte in page %u at offset %04X: %02X -> %02X\n", index, offset, before, after); break;
    case SNAP_STEP_PAIR: fprintf(to, "pair %s: %04X -> %04X\n", index < SNAP_PAIRS ? pair_names[index] : "?", before, after); break;
    default: fprintf(to, "OUT to 7FFD: %02X -> %02X\n", before, after);
    }
}
