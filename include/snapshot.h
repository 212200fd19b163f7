/*
 * snapshot.h: saved Spectrums (.Z80 files, and SCS files of the Sam emulator) read, viewed, corrected and written.
 *
 * Answers: every function but snap_version and snap_sentence answers a number of `enum snap_number`, SNAP_ACCEPTED (0) or
 * why it refused. None trusts its caller: each takes every length and every byte, and every byte of the buffers lent to it
 * is settled when it returns, refused or not.
 *
 * Stack: no call uses more than SNAP_STACK_MOST bytes. A program that is not linked with -z now needs some more for the
 * dynamic linker, which binds a function (these, and memcpy and memset) at its first call.
 *
 * Heap: none. The library allocates nothing, and keeps no pointer after a call.
 *
 * Threads: the library has no static data that can be written, so calls on different buffers may run in different threads at
 * once. Two calls may share a buffer at once where both only read it.
 *
 * Rules for the caller, which no function can check:
 *   - the buffers lent to one call, and the numbers that it writes, do not overlap;
 *   - a buffer of length 0 may have any pointer, NULL too; no other pointer is NULL.
 */
#ifndef SNAPSHOT_H
#define SNAPSHOT_H

#include <stddef.h>
#include <stdint.h>

#ifdef __cplusplus
extern "C" {
#endif

/* The version of this header, 10000 * major + 100 * minor + patch; snap_version answers the linked library's. */
#define SNAP_VERSION 600u
#define SNAP_VERSION_TEXT "0.6.0"

/* Sizes in bytes. RAM pages 0 to 7 lie in the area in that order. */
#define SNAP_PAGE_SIZE 16384u
#define SNAP_AREA_SIZE 131072u
#define SNAP_ROM_SIZE_48K 16384u
#define SNAP_ROM_SIZE_128K 32768u
/* The machine crosses as the 86-byte v3 header that snap_z80_write makes for it; `enum snap_at` names its bytes. */
#define SNAP_HEADER_SIZE 86u
/* No written file is longer. */
#define SNAP_FILE_MOST 131182u
/* No .Z80 file that reading accepts is longer: 86 bytes and eight blocks of 3 and at most 65,534. */
#define SNAP_READ_MOST 524382u
/* The SCS file of a 48K and of a 128K machine as it is written. One that is read may have any length. */
#define SNAP_SCS_FILE_48K 49240u
#define SNAP_SCS_FILE_128K 131160u
/* A log: so many bytes hold a step (`enum snap_step` names them), and no more steps than these are used. */
#define SNAP_LOG_STEP 11u
#define SNAP_LOG_STEPS 4096u
#define SNAP_LOG_MOST 45056u
/* No call uses more bytes of stack; measured on x86-64, half as much again as the deepest call uses. */
#define SNAP_STACK_MOST 2048u
/* A quarter of a frame in T states, for the clock's two counters. */
#define SNAP_QUARTER_48K 17472u
#define SNAP_QUARTER_128K 17727u

/*
 * The header's 86 bytes: where each field starts. Words have their low byte first; FF and addresses are hexadecimal. A byte
 * that is set to what is not said here makes the machine not valid, and every call that is given it answers 20.
 */
enum snap_at {
    SNAP_AT_A = 0,
    SNAP_AT_F = 1,
    SNAP_AT_BC = 2, /* word */
    SNAP_AT_HL = 4, /* word */
    SNAP_AT_PC_V1 = 6, /* word, always 0: PC is at 32 */
    SNAP_AT_SP = 8, /* word */
    SNAP_AT_I = 10,
    SNAP_AT_R = 11, /* bits 0 to 6 of R; bit 7 is 0 here */
    SNAP_AT_FLAGS = 12, /* bit 0: bit 7 of R; bits 1 to 3: border; the rest 0 */
    SNAP_AT_DE = 13, /* word */
    SNAP_AT_BC_ALT = 15, /* word */
    SNAP_AT_DE_ALT = 17, /* word */
    SNAP_AT_HL_ALT = 19, /* word */
    SNAP_AT_A_ALT = 21,
    SNAP_AT_F_ALT = 22,
    SNAP_AT_IY = 23, /* word */
    SNAP_AT_IX = 25, /* word */
    SNAP_AT_IFF1 = 27, /* 0 or 1 */
    SNAP_AT_IFF2 = 28, /* 0 or 1 */
    /* bits 0, 1: interrupt mode, 0 to 2; bit 2: issue 2 keyboard; bit 3: double interrupts; bits 4, 5: video, 0 normal,
       1 high, 3 low; bits 6, 7: joystick, 0 Cursor, 1 Kempston, 2 Sinclair left or user defined, 3 Sinclair right */
    SNAP_AT_SETTINGS = 29,
    SNAP_AT_LENGTH = 30, /* word, always 54: the header's bytes from 32 on */
    SNAP_AT_PC = 32, /* word */
    SNAP_AT_MODE = 34, /* a number of `enum snap_mode` */
    SNAP_AT_OUT_7FFD = 35, /* last OUT to 7FFD; 0 on a 48K machine */
    SNAP_AT_INTERFACE_1_ROM = 36, /* kept as it is; FF where the ROM of Interface I is paged in */
    /* bit 0: R emulation; bit 1: LDIR emulation; bit 2: a 48K machine with the sound chip, 0 on a 128K, which always has it;
       the rest 0 */
    SNAP_AT_EMULATION = 37,
    SNAP_AT_OUT_FFFD = 38, /* last OUT to FFFD, the number of a sound register; 0 without the sound chip */
    SNAP_AT_SOUND = 39, /* 16 sound registers; 0 without the sound chip */
    /* With q a quarter of this machine's frame, low below q and high at most 3, the place of the clock in its frame is
       (high + 1) % 4 * q + (q - 1 - low). */
    SNAP_AT_LOW_COUNTER = 55, /* word */
    SNAP_AT_HIGH_COUNTER = 57,
    SNAP_AT_SPECTATOR = 58, /* always 0 */
    /* the 26 side bytes, 59 and 61 to 85, are kept as they are; here is what emulators mean by them */
    SNAP_AT_MGT_ROM = 59, /* FF where the ROM of the M.G.T. is paged in */
    SNAP_AT_MULTIFACE_ROM = 60, /* always 0 */
    SNAP_AT_ROM_LOW = 61, /* FF where 0000 to 1FFF is ROM, 0 where it is RAM */
    SNAP_AT_ROM_HIGH = 62, /* the same of 2000 to 3FFF */
    SNAP_AT_KEYS = 63, /* five words: the joystick's keys, left, right, down, up, fire */
    SNAP_AT_KEY_LETTERS = 73, /* five words: their letters, in the same order */
    SNAP_AT_MGT_TYPE = 83, /* 0 Disciple with Epson, 1 Disciple with HP, 16 Plus D */
    SNAP_AT_INHIBIT_BUTTON = 84, /* 0 out, FF in */
    SNAP_AT_INHIBIT_FLAG = 85 /* 0 the ROM can be paged in, FF not */
};

/* Masks for the bits of the bytes 12, 29 and 37, and of the last OUT to 7FFD. */
enum snap_bits {
    SNAP_FLAGS_R7 = 0x01, SNAP_FLAGS_BORDER = 0x0E,
    SNAP_SETTINGS_INTERRUPT_MODE = 0x03, SNAP_SETTINGS_ISSUE_2 = 0x04, SNAP_SETTINGS_DOUBLE_INTERRUPTS = 0x08,
    SNAP_SETTINGS_VIDEO = 0x30, SNAP_SETTINGS_JOYSTICK = 0xC0,
    SNAP_EMULATION_R = 0x01, SNAP_EMULATION_LDIR = 0x02, SNAP_EMULATION_SOUND = 0x04,
    /* the page at C000; the screen in page 7 and not 5; the second 16K of ROM and not the first; paging locked */
    SNAP_7FFD_PAGE = 0x07, SNAP_7FFD_SCREEN = 0x08, SNAP_7FFD_ROM = 0x10, SNAP_7FFD_LOCK = 0x20
};

/* Byte 34: the model, and what is attached to it. snap_model takes it apart. */
enum snap_mode {
    SNAP_MODE_48K = 0, SNAP_MODE_48K_INTERFACE_1 = 1, SNAP_MODE_48K_MGT = 3,
    SNAP_MODE_128K = 4, SNAP_MODE_128K_INTERFACE_1 = 5, SNAP_MODE_128K_MGT = 6
};

enum snap_number {
    SNAP_ACCEPTED = 0,
    /* reading */
    SNAP_AREA_LENGTH = 1,
    SNAP_FILE_SHORT = 2,
    SNAP_UNKNOWN_VERSION = 3,
    SNAP_MODE_NOT_CARRIED = 4,
    SNAP_INTERRUPT_MODE = 5,
    SNAP_COUNTER_RANGE = 6,
    SNAP_BYTE_60 = 7,
    SNAP_BLOCK_CUT = 8,
    SNAP_BLOCK_NUMBER = 9,
    SNAP_BLOCK_TWICE = 10,
    SNAP_MALFORMED_DATA = 11,
    SNAP_UNPACKED_LENGTH = 12,
    SNAP_BLOCK_MISSING = 13,
    SNAP_END_MARKER = 14,
    /* every other call that is lent a machine, 21 where it is lent its memory too; 20 also when reading is lent a header
       buffer of another length */
    SNAP_INVALID_MACHINE = 20,
    SNAP_MEMORY_LENGTH = 21,
    /* writing */
    SNAP_OUTPUT_SHORT = 22,
    /* corrections, undo and redo */
    SNAP_ROM_ADDRESS = 23,
    SNAP_OUT_ON_48K = 24,
    SNAP_PAGING_LOCKED = 25,
    SNAP_LOG_FULL = 26,
    SNAP_NOTHING_TO_MOVE = 27,
    SNAP_STEP_DAMAGED = 28,
    SNAP_COUNTS_DISAGREE = 29,
    /* viewing */
    SNAP_PAGE_NOT_OWNED = 30,
    SNAP_ROM_LENGTH = 31,
    /* a register pair told or corrected */
    SNAP_PAIR_NUMBER = 32,
    /* reading SCS files, beside 1, 2, 5 and 8 */
    SNAP_SCS_HEADER = 40,
    SNAP_SCS_BLOCK_MISSING = 41,
    SNAP_SCS_BLOCK_TWICE = 42,
    SNAP_SCS_MEMORY_NOT_FIRST = 43
};

/* A sentence for a number, on one line, without a full stop; never NULL. */
static inline const char *snap_sentence(uint32_t number)
{
    switch (number) {
    case SNAP_ACCEPTED: return "accepted";
    case SNAP_AREA_LENGTH: return "the area to read into is not 131,072 bytes";
    case SNAP_FILE_SHORT: return "the file is shorter than its header";
    case SNAP_UNKNOWN_VERSION: return "the header is neither version 2 nor version 3";
    case SNAP_MODE_NOT_CARRIED: return "the file is of a machine other than a 48K or 128K";
    case SNAP_INTERRUPT_MODE: return "the interrupt mode is 3";
    case SNAP_COUNTER_RANGE: return "the T state counter is out of range";
    case SNAP_BYTE_60: return "header byte 60 is not 0";
    case SNAP_BLOCK_CUT: return "a block is cut short";
    case SNAP_BLOCK_NUMBER: return "a block has a number that this machine does not have";
    case SNAP_BLOCK_TWICE: return "a block comes twice";
    case SNAP_MALFORMED_DATA: return "packed data are malformed";
    case SNAP_UNPACKED_LENGTH: return "the memory in the file has the wrong length";
    case SNAP_BLOCK_MISSING: return "a block is missing";
    case SNAP_END_MARKER: return "the end marker of a version 1 file is missing";
    case SNAP_INVALID_MACHINE: return "the machine is not valid";
    case SNAP_MEMORY_LENGTH: return "the area is not 131,072 bytes";
    case SNAP_OUTPUT_SHORT: return "the output is shorter than the file";
    case SNAP_ROM_ADDRESS: return "the address is in ROM, below 4000";
    case SNAP_OUT_ON_48K: return "a 48K machine has no paging to OUT to";
    case SNAP_PAGING_LOCKED: return "paging is locked";
    case SNAP_LOG_FULL: return "the log is full";
    case SNAP_NOTHING_TO_MOVE: return "there is nothing to undo or redo";
    case SNAP_STEP_DAMAGED: return "the log does not fit the machine and memory";
    case SNAP_COUNTS_DISAGREE: return "the log's two numbers disagree with its length";
    case SNAP_PAGE_NOT_OWNED: return "the machine does not have this page";
    case SNAP_ROM_LENGTH: return "the ROM is not 16,384 bytes for a 48K or 32,768 for a 128K";
    case SNAP_PAIR_NUMBER: return "there is no register pair with this number";
    case SNAP_SCS_HEADER: return "the file is no SCS file of a 48K or 128K Spectrum";
    case SNAP_SCS_BLOCK_MISSING: return "the CPU block or the Ports block is missing";
    case SNAP_SCS_BLOCK_TWICE: return "the CPU, Ports or Memory block comes twice";
    case SNAP_SCS_MEMORY_NOT_FIRST: return "the first block is not the Memory block";
    default: return "no number of this library";
    }
}

/* The version of the library that is linked, to be held to SNAP_VERSION. It has no refusal. */
uint32_t snap_version(void);

/*
 * Where a file is refused: both readers write *offset, a place in the whole file counted from 0, or 0 where there is none.
 *
 *     number          *offset, snap_z80_read                            *offset, snap_scs_read
 *      8              the head of the block, or the bytes left over     the same
 *      9, 10          the head of the block
 *     11              the first byte of the first bad code
 *     12              the head of the block; in v1 30
 *     14              the length of the file
 *     42                                                                the head of the block
 *     0, all others   0                                                 0
 *
 * A place is never 0 and at most file_len; it is file_len, where no byte stands, for 14 and for 12 in a v1 file of 30 bytes.
 * Bytes left over are 1 or 2 (SCS: 1 to 4) that are too few for a head. A bad code is ED ED with a count of 0 or with fewer
 * than two bytes behind it in its data.
 */

/*
 * Reads a .Z80 file, v1, v2 or v3: header becomes the machine's, area its memory, pages that it does not own zero.
 * A 48K has the sound chip where bit 2 of the byte 37 of a v2 or v3 file says so, and only then keeps the bytes 38 to 54.
 * Refused (1 to 14; 20 for a header buffer of another length): area all zero, header the blank machine's, or zeros at
 * another length. *offset is as in the table above. Nothing depends on what stood in area, header or *offset before.
 */
uint32_t snap_z80_read(const uint8_t *file, size_t file_len,
                       uint8_t *area, size_t area_len,
                       uint8_t *header, size_t header_len,
                       uint64_t *offset);

/*
 * Why a .Z80 file is refused, without an area to read it into: the number that snap_z80_read gives with buffers of the right
 * lengths, its *offset, the ordinal of the block, and two figures.
 *
 *     number          *block              *found                                     *due
 *      2              0                   the length of the file                     the length not reached: 30, 32, 55 or 86
 *      6              0                   the counter out of range                   the largest that it may be
 *      8, 9, 10, 11   that of the block   0                                          0
 *     12              that of the block   what it unpacks to, 65,536 where more      16,384; in v1 49,152
 *     13              0                   how many blocks are there                  3 or 8
 *     14              1                   0                                          0
 *     0, 3, 4, 5, 7   0                   0                                          0
 *
 * Blocks are counted from 1 as they stand in the file, and bytes left over are one more. The body of a v1 file is block 1; one
 * that is not packed unpacks to itself. The low counter's largest is 17,471 for a 48K and 17,726 for a 128K, the high one's
 * 3; where both are too large it is the low one. Nothing depends on what stood in the four before. 1 and 20 are never answered.
 */
uint32_t snap_z80_explain(const uint8_t *file, size_t file_len,
                          uint64_t *offset, uint64_t *block, uint64_t *found, uint64_t *due);

/*
 * Writes the one v3 file of a machine and its memory; *length is its length, and out is zero past it.
 * Refused: 20 where header is not 86 bytes that this function makes, 21 where area is not SNAP_AREA_SIZE bytes,
 * 22 where out is shorter than the file; then *length is 0 and out all zero.
 * Pages that the machine does not own are not looked at: what stands there is not in the file, and is zero when it is read.
 */
uint32_t snap_z80_write(const uint8_t *header, size_t header_len,
                        const uint8_t *area, size_t area_len,
                        uint8_t *out, size_t out_len,
                        uint64_t *length);

/*
 * Reads an SCS file with a 48K or 128K Spectrum inside, already unwrapped (one that is still gzip is 40, or 2), into the
 * machine's header and area as snap_z80_read does. What SCS does not hold is as from a v1 file: no attachment, position 0;
 * but a 48K always has the sound chip, also where its registers are 0. Not kept: clock numbers, other blocks, bits that do
 * not count, a 48K's last OUT to 7FFD, bytes past a block's due length.
 * Refused, in this order: 20 for a header buffer of another length, 1 area, 2 under 15 bytes, 40, 43, block by block 8 then
 * 42, then 41, last 5; then area and header are as after a refused snap_z80_read. *offset is as in the table above.
 */
uint32_t snap_scs_read(const uint8_t *file, size_t file_len,
                       uint8_t *area, size_t area_len,
                       uint8_t *header, size_t header_len,
                       uint64_t *offset);

/*
 * Writes the one SCS file of a machine and its memory, SNAP_SCS_FILE_48K or SNAP_SCS_FILE_128K bytes; all else as in
 * snap_z80_write. SCS holds less than a machine is: read back, the attachment, byte 36, bits 0 and 1 of byte 37, the clock's
 * place, the side bytes, bits 2 to 7 of byte 29 and the upper four bits of the last OUT to FFFD are as from a v1 file; and a
 * 48K without the sound chip has gained it.
 */
uint32_t snap_scs_write(const uint8_t *header, size_t header_len,
                        const uint8_t *area, size_t area_len,
                        uint8_t *out, size_t out_len,
                        uint64_t *length);

/*
 * Where a page lies: 0 to 7 RAM, 8 the first 16K of ROM, 9 the second (128K only). It is *length bytes from *start on, in
 * rom where *in_rom is 1, in area where it is 0. Refused, all three are 0: 20 header, 21 area, 31 ROM not of this
 * machine's length, 30 a page that the machine does not have.
 * The ROM's length is asked for RAM pages too: a program that has no ROM lends any buffer of SNAP_ROM_SIZE_48K or
 * SNAP_ROM_SIZE_128K bytes.
 */
uint32_t snap_view(const uint8_t *header, size_t header_len,
                   const uint8_t *rom, size_t rom_len,
                   const uint8_t *area, size_t area_len,
                   uint8_t page,
                   uint8_t *in_rom, uint64_t *start, uint64_t *length);

/* Looking at a machine: its model and attachment. Refused, here and in the next two: 20 header; then the figures are 0. */
enum snap_model { SNAP_48K = 0, SNAP_128K = 1 };
enum snap_attachment { SNAP_NO_ATTACHMENT = 0, SNAP_INTERFACE_1 = 1, SNAP_MGT = 2 };
uint32_t snap_model(const uint8_t *header, size_t header_len, uint8_t *model, uint8_t *attachment);

/* A register pair's value; in AF and AF' the A is the high byte. Refused also: 32 pair above 11. */
enum snap_pair {
    SNAP_AF, SNAP_BC, SNAP_DE, SNAP_HL,
    SNAP_AF_ALT, SNAP_BC_ALT, SNAP_DE_ALT, SNAP_HL_ALT,
    SNAP_IX, SNAP_IY, SNAP_SP, SNAP_PC,
    SNAP_PAIRS
};
uint32_t snap_pair(const uint8_t *header, size_t header_len, uint8_t pair, uint16_t *value);

/* Where an address leads as paging is now: an offset in a RAM page, or ROM (*in_rom is 1, *page and *offset are 0). */
uint32_t snap_place(const uint8_t *header, size_t header_len, uint16_t address,
                    uint8_t *in_rom, uint8_t *page, uint16_t *offset);

/*
 * Starts a correction log: lent bytes and two numbers, how many corrections stand and how many stand or wait.
 * The log becomes all zero and both numbers 0. Never refused; a log of log_len bytes holds log_len / SNAP_LOG_STEP steps,
 * SNAP_LOG_STEPS at most.
 */
uint32_t snap_log_start(uint8_t *log, size_t log_len, uint64_t *standing, uint64_t *total);

/* A step of the log: where each of its fields starts, words low byte first. The first step stands at the log's start. */
enum snap_step {
    SNAP_STEP_TAG = 0,
    SNAP_STEP_LENGTH = 1, /* word, always 8 */
    SNAP_STEP_INDEX = 3, /* the RAM page, the pair, or 0 */
    SNAP_STEP_OFFSET = 4, /* word: the offset in the page, or 0 */
    SNAP_STEP_OLD = 6, /* word */
    SNAP_STEP_NEW = 8, /* word */
    SNAP_STEP_END = 10 /* always 0 */
};
/* The tag: what was corrected. */
enum snap_tag { SNAP_STEP_BYTE = 1, SNAP_STEP_PAIR = 2, SNAP_STEP_OUT = 3 };

/*
 * A log and its two numbers may be stored, with the machine and memory as they were then, and handed back later.
 * 29 guards the log: numbers that lead out of it are refused; wrong ones that stay inside it are not seen.
 * 28 guards the one step that undo or redo takes: it is refused where its bytes have another form, where it names a place
 * that this machine does not have, and where the value there is not the step's new one (undo) or old one (redo). No other
 * step is looked at, and nothing says whose log it is: a log of another machine whose step happens to fit is taken. So keep
 * a sum of machine and memory beside a stored log, as the tool does.
 */

/*
 * The three corrections, undo and redo. Refused, nothing changes: first 20 header, 21 area, 29 not standing <= total <=
 * capacity; then as each says. A correction drops the corrections that wait to be redone, and is refused as 26 when the log
 * is full.
 */

/* A byte, at an address as paging is now. Refused: 23 address below 4000. */
uint32_t snap_correct_byte(uint8_t *header, size_t header_len, uint8_t *area, size_t area_len,
                           uint8_t *log, size_t log_len, uint64_t *standing, uint64_t *total,
                           uint16_t address, uint8_t value);

/* A register pair. Refused: 32 pair above 11. */
uint32_t snap_correct_pair(uint8_t *header, size_t header_len, uint8_t *area, size_t area_len,
                           uint8_t *log, size_t log_len, uint64_t *standing, uint64_t *total,
                           uint8_t pair, uint16_t value);

/* The last OUT to 7FFD. Refused: 24 on a 48K machine, 25 paging locked (bit 5 of the last OUT). */
uint32_t snap_correct_out(uint8_t *header, size_t header_len, uint8_t *area, size_t area_len,
                          uint8_t *log, size_t log_len, uint64_t *standing, uint64_t *total,
                          uint8_t value);

/*
 * Undo puts back what the last standing correction replaced, a byte into the page that it came from, whatever the paging is
 * now; redo makes the first waiting correction again. Neither is stopped by locked paging.
 * Refused: 27 nothing to move, 28 the step is damaged or what it would move is not there.
 */
uint32_t snap_undo(uint8_t *header, size_t header_len, uint8_t *area, size_t area_len,
                   uint8_t *log, size_t log_len, uint64_t *standing, uint64_t *total);
uint32_t snap_redo(uint8_t *header, size_t header_len, uint8_t *area, size_t area_len,
                   uint8_t *log, size_t log_len, uint64_t *standing, uint64_t *total);

#ifdef __cplusplus
}
#endif

#endif
