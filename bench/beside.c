/* Two builds of the library in one process, call by call: the time of this one as a ratio of the other one's.
   The other archive's functions are linked under names that begin with other_. Run by bench/beside. */
#include "beside.h"
#include "snapshot.h"
#include <stdio.h>
#include <string.h>

typedef uint32_t reading(const uint8_t *, size_t, uint8_t *, size_t, uint8_t *, size_t, uint64_t *);
typedef uint32_t reading_before(const uint8_t *, size_t, uint8_t *, size_t, uint8_t *, size_t);
typedef uint32_t explaining(const uint8_t *, size_t, uint64_t *, uint64_t *, uint64_t *, uint64_t *);
typedef uint32_t writing(const uint8_t *, size_t, const uint8_t *, size_t, uint8_t *, size_t, uint64_t *);
typedef uint32_t correcting(uint8_t *, size_t, uint8_t *, size_t, uint8_t *, size_t, uint64_t *, uint64_t *, uint16_t, uint8_t);
typedef uint32_t moving(uint8_t *, size_t, uint8_t *, size_t, uint8_t *, size_t, uint64_t *, uint64_t *);

uint32_t other_snap_version(void);
/* Readers have no offset before version 400: their type is known when the program runs. There is none of SCS before 300. */
void other_snap_z80_read(void);
__attribute__((weak)) void other_snap_scs_read(void);
/* There is none before 500. */
__attribute__((weak)) explaining other_snap_z80_explain;
writing other_snap_z80_write;
correcting other_snap_correct_byte;
moving other_snap_undo, other_snap_redo;

/* A reader with its offset, or one without; the other is NULL. */
struct build_reader { reading *with_offset; reading_before *without; };
struct build {
    struct build_reader z80, scs;
    explaining *explain;
    writing *write;
    correcting *correct;
    moving *undo, *redo;
};
static const struct build ours = { { snap_z80_read, NULL }, { snap_scs_read, NULL }, snap_z80_explain, snap_z80_write, snap_correct_byte, snap_undo, snap_redo };
static struct build theirs = { .explain = other_snap_z80_explain, .write = other_snap_z80_write, .correct = other_snap_correct_byte, .undo = other_snap_undo, .redo = other_snap_redo };

enum { FILES = 64, STEPS = 4096, CALLS = 512 };
/* The files; each as an SCS file; those whose last block is packed, with a bad code at their end. */
static struct loaded { uint8_t *bytes; size_t length; } files[FILES], scs_files[FILES], bad_files[FILES];
static int count, bad_count;
static uint8_t area[131072], head[86], out[131182], journal[STEPS * 11];
static uint64_t size, standing, total, offset, block, found, due;

static void fail(const char *name, const char *what)
{
    fprintf(stderr, "beside: %s: %s\n", name, what);
    exit(2);
}

static struct build_reader reader_of(void (*other)(void))
{
    return other_snap_version() < 400 ? (struct build_reader){ NULL, (reading_before *)other } : (struct build_reader){ (reading *)other, NULL };
}

static uint32_t read_by(struct build_reader by, const struct loaded *file)
{
    if (by.with_offset) return by.with_offset(file->bytes, file->length, area, sizeof area, head, sizeof head, &offset);
    return by.without(file->bytes, file->length, area, sizeof area, head, sizeof head);
}

static uint32_t explain_by(explaining *by, const struct loaded *file)
{
    return by(file->bytes, file->length, &offset, &block, &found, &due);
}

/* Both builds give this number. */
static int both_give(uint32_t number, int is_scs, const struct loaded *file)
{
    struct build_reader by = is_scs ? theirs.scs : theirs.z80;
    if (!is_scs && (explain_by(ours.explain, file) != number || (theirs.explain && explain_by(theirs.explain, file) != number))) return 0;
    return read_by(is_scs ? ours.scs : ours.z80, file) == number && (!(by.with_offset || by.without) || read_by(by, file) == number);
}

static struct loaded kept(const uint8_t *bytes, size_t length, size_t more)
{
    struct loaded file = { malloc(length + more), length };
    if (!file.bytes) fail("memory", "there is too little");
    memcpy(file.bytes, bytes, length);
    return file;
}

/* ED ED behind a last block that is packed: it is refused at its end. */
static void spoil(const struct loaded *file)
{
    size_t at = file->bytes[6] || file->bytes[7] ? file->length : file->bytes[30] == 23 ? 55 : 86, last = 0, length = 0;
    for (; at < file->length; at += 3 + (length == 65535 ? 16384 : length)) {
        last = at;
        length = file->bytes[at] + file->bytes[at + 1] * 256u;
    }
    if (!last || length > 65532) return;
    struct loaded bad = kept(file->bytes, file->length, 2);
    memset(bad.bytes + bad.length, 0xED, 2);
    bad.length += 2;
    bad.bytes[last] = (uint8_t)(length + 2);
    bad.bytes[last + 1] = (uint8_t)((length + 2) / 256);
    bad_files[bad_count++] = bad;
}

static void load(const char *name)
{
    static uint8_t bytes[600000];
    FILE *f = fopen(name, "rb");
    if (!f || count == FILES) fail(name, "not read");
    struct loaded file = { bytes, fread(bytes, 1, sizeof bytes, f) };
    fclose(f);
    if (read_by(ours.z80, &file)) return;
    if (snap_scs_write(head, sizeof head, area, sizeof area, out, sizeof out, &size)) fail(name, "not written as SCS");
    scs_files[count] = kept(out, (size_t)size, 0);
    files[count] = kept(bytes, file.length, 0);
    spoil(&files[count]);
    if (!both_give(0, 0, &files[count]) || !both_give(0, 1, &scs_files[count])) fail(name, "the builds do not agree");
    if (bad_count && (!both_give(11, 0, &bad_files[bad_count - 1]) || read_by(ours.z80, &bad_files[bad_count - 1]) != 11
                      || offset != bad_files[bad_count - 1].length - 2))
        fail(name, "not refused as 11 at its end");
    count++;
}

static void corrections(const struct build *by)
{
    for (int k = 0; k < CALLS; k++)
        by->correct(head, sizeof head, area, sizeof area, journal, sizeof journal, &standing, &total, (uint16_t)(0x8000 + k), (uint8_t)k);
}

static void calls(moving *call)
{
    for (int k = 0; k < CALLS; k++) call(head, sizeof head, area, sizeof area, journal, sizeof journal, &standing, &total);
}

enum timed_part { READ, READ_SCS, READ_BAD, EXPLAIN, WRITE, CORRECT, UNDO, REDO, PARTS };

/* The seconds of one of the parts. What comes before the clock starts is done by the same build: the processor remembers
   where it went. */
static double seconds_of(enum timed_part part, const struct build *by)
{
    double start, spent = 0;
    for (int i = 0; i < (part == READ_BAD ? bad_count : count); i++) {
        read_by(by->z80, &files[i]);
        snap_log_start(journal, sizeof journal, &standing, &total);
        if (part == READ_SCS) read_by(by->scs, &scs_files[i]);
        if (part >= UNDO) corrections(by);
        if (part == REDO) calls(by->undo);
        start = now();
        switch (part) {
        case READ: read_by(by->z80, &files[i]); break;
        case READ_SCS: read_by(by->scs, &scs_files[i]); break;
        case READ_BAD: read_by(by->z80, &bad_files[i]); break;
        case EXPLAIN: explain_by(by->explain, &files[i]); break;
        case WRITE: by->write(head, sizeof head, area, sizeof area, out, sizeof out, &size); break;
        case CORRECT: corrections(by); break;
        case UNDO: calls(by->undo); break;
        default: calls(by->redo);
        }
        spent += now() - start;
    }
    return spent;
}

/* The time of a part by this build as a ratio of another part's, or of the same one's by the other build. */
static void compare(const char *name, enum timed_part part, enum timed_part beside, const struct build *by)
{
    double ratio[ROUNDS];
    for (int round = 0; round < ROUNDS; round++) {
        double a, b;
        if (round % 2) { a = seconds_of(part, &ours); b = seconds_of(beside, by); }
        else { b = seconds_of(beside, by); a = seconds_of(part, &ours); }
        ratio[round] = a / b;
    }
    printf("  %-18s %.2f\n", name, median(ratio));
}

int main(int argc, char **argv)
{
    static const char *const names[PARTS] = { "reading", "reading SCS", "refused as 11", "explaining", "writing", "a byte corrected", "undo", "redo" };
    theirs.z80 = reader_of(other_snap_z80_read);
    if (other_snap_scs_read) theirs.scs = reader_of(other_snap_scs_read);
    for (int i = 1; i < argc; i++) load(argv[i]);
    if (!count) fail("all files", "none is accepted");
    printf("%d files, %d of them also with a bad code at the end; the median over %d rounds of this build's time to that of the other one, version %u\n",
           count, bad_count, ROUNDS, (unsigned)other_snap_version());
    for (int part = 0; part < PARTS; part++) {
        if (part == READ_SCS && !other_snap_scs_read) continue;
        if (part == READ_BAD && !bad_count) continue;
        if (part == EXPLAIN && !theirs.explain) continue;
        compare(names[part], (enum timed_part)part, (enum timed_part)part, &theirs);
    }
    printf("in this build, beside reading the same files\n");
    compare("explaining", EXPLAIN, READ, &ours);
    return 0;
}
