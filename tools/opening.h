/* opening.h: a snapshot, and what the parts of the tool that take one out of a file's bytes share. */
#ifndef OPENING_H
#define OPENING_H

#include <stdbool.h>

#include "snapshot.h"

/* The kinds of file that are saved; the first two are the formats of a snapshot. */
enum file_kind { Z80_FILE, SCS_FILE, PICTURE_FILE, SCREEN_FILE, LOG_FILE };

/* An opened file: the machine as its header, its memory, and what the file says of itself. */
struct snapshot {
    uint8_t header[SNAP_HEADER_SIZE];
    uint8_t area[SNAP_AREA_SIZE];
    enum file_kind kind;
    /* of a .Z80 file */
    unsigned version;
    bool says_16k;
    /* unwrapped is 0 where there is no gzip wrapper */
    size_t length, unwrapped;
};

/* format.c: what the bytes of a .Z80 file say of themselves. */
#define HINT_SIZE 200u
/* 1, 2 or 3; it counts only where the header is accepted. */
unsigned version_of(const uint8_t *file, size_t length);
/* A 48K machine with modified hardware. */
bool says_16k(const uint8_t *file, size_t length);
struct taking;
/* What helps with a refusal, or nothing; of an SCS file too. */
void hint_for(const struct taking *taken, char hint[HINT_SIZE]);

/* scs.c: what the bytes of an SCS file say of themselves. */
bool is_scs(const uint8_t *file, size_t length);
void hint_for_scs(const struct taking *taken, char hint[HINT_SIZE]);
/* Which block, from 1 in the order of the file, a place is in; 0 before the first. Bytes left over behind the last block are one
   more. */
uint64_t scs_block_with(const uint8_t *file, size_t length, uint64_t place);

/* gzip.c: the wrapper that ASCD puts around its files. */
/* A .Z80 file may begin so too. */
bool begins_as_gzip(const uint8_t *file, size_t length);
/* Unwraps as much as there is room for. Answers NULL, or what is wrong with the wrapper. */
const char *unwrap(const uint8_t *file, size_t length, uint8_t *inside, size_t room, size_t *inside_length);

/* opening.c: the bytes of a file taken as a snapshot. */
/* An SCS file has no longest. All the blocks that its description knows, each at its longest (Memory of 512K and four external
   memories of 1M, of a Sam), come to less than this, so that every file of that emulator is read or has its refusal. */
#define INPUT_MOST (5u << 20)
/* A fault of length or wrapper as a sentence, or NULL; then the library's number and figures, and the bytes that they are about,
   which may have been in a wrapper. */
struct taking {
    const char *fault;
    uint32_t number;
    /* as snap_z80_explain gives them; of an SCS file found and due are 0 */
    uint64_t offset, block, found, due;
    enum file_kind kind;
    /* of a .Z80 file, else 0; it counts only where the header is accepted */
    unsigned version;
    const uint8_t *bytes;
    size_t length;
    bool unwrapped;
};
bool is_accepted(const struct taking *taken);
/* Without a snapshot to open, NULL, a file is only looked through. */
struct taking take_snapshot(const uint8_t *file, size_t length, struct snapshot *opened);

/* kept.c: what of a machine comes back from a file of a kind; what is lost or gained so is told. */
void kept_in(enum file_kind kind, const struct snapshot *opened, struct snapshot *kept);
void tell_changes(const char *file, const struct snapshot *opened, const struct snapshot *kept);

#endif
