/* stack.h: what the parts of the stack test share. Included first. */
#ifndef STACK_H
#define STACK_H

/* For mapped stacks, contexts and signal stacks. */
#define _DEFAULT_SOURCE
#define _XOPEN_SOURCE 700
#include "../refused_at.h"
#include "snapshot.h"

#define STACK_SIZE 16384u
/* Below each stack, where nothing may be touched: so wide that no local array of a wrong call reaches past it. */
#define GUARD_SIZE 1048576u

/* The exported functions; the last four look at a machine or at the library. */
enum function {
    READ, EXPLAIN, WRITE, SCS_READ, SCS_WRITE, VIEW, START, BYTE, PAIR, OUT, UNDO, REDO, VERSION, MODEL, PAIR_VALUE, PLACE,
    FUNCTIONS
};
extern const char *const function_names[FUNCTIONS];

/* The buffers lent to calls. Each has room for a length that is one too long. */
struct lent_buffers {
    uint8_t header[SNAP_HEADER_SIZE + 1], area[SNAP_AREA_SIZE + 1], log[SNAP_LOG_MOST + SNAP_LOG_STEP];
    uint8_t out[SNAP_FILE_MOST + 1];
    struct figures {
        uint8_t in_rom, model, attachment, page;
        uint16_t pair, offset;
    } figures;
    uint64_t standing, total, length, start, place; /* place: the offset that a read gives */
    struct figures_told explained;
};

/* A call: its function, the file that is read or explained, how much of each buffer is lent, and what is asked. */
struct tried_call {
    enum function function;
    const uint8_t *file;
    size_t file_len, header_len, area_len, log_len, out_len, rom_len;
    uint16_t place, value; /* place: the page of a view, an address, or a pair */
};

/* calls.c */
int is_128(const uint8_t *header);
struct tried_call usual(enum function function, const struct lent_buffers *lent);
uint32_t make_call(struct lent_buffers *lent, const struct tried_call *call);

/* small.c: a call on a stack of STACK_SIZE bytes; DIED where it ran past its end. */
#define DIED SIZE_MAX
uint8_t *new_stack(size_t size);
void catch_faults(void (*elsewhere)(const uint8_t *address));
void own_signal_stack(uint8_t *memory, size_t size);
size_t call_on_small(struct lent_buffers *lent, const struct tried_call *call, uint32_t *number);

/* check.c: every call is made twice, on the ordinary stack with `ordinary` and on a small one with `small`. */
#define ANY 1000u /* whatever number the ordinary stack gives */
extern struct lent_buffers ordinary;
extern unsigned passed, failed;
/* The call that is tried, and over which file. */
extern struct trying {
    const char *name, *function;
} trying;
void level(void);
void try_call(const char *name, const struct tried_call *call, uint32_t due);
void try_read(const char *name, const struct tried_call *call, struct refused_at due);
void try_explain(const char *name, struct tried_call call, struct refused_at due);
void expect_holds(const char *name, const char *what, int holds);
void close_check(int holds, const char *format, ...);
void report_calls(void);

/* files.c: the files to read, kept for the threads too. */
#define FILES_MOST 400u
struct file {
    const char *name;
    enum function reader; /* READ or SCS_READ */
    uint8_t *bytes;
    size_t length;
};
extern struct file files[FILES_MOST];
extern unsigned file_count;
const struct file *keep(enum function reader, const char *name, const uint8_t *bytes, size_t length);
struct tried_call read_call(const struct file *file);
void try_read_lengths(const struct file *file);
void try_file(const char *name, const uint8_t *bytes, size_t length, struct refused_at due, const uint8_t *area);
void try_stored(const char *path);

/* made.c, reads.c */
uint64_t next(uint64_t *seed);
void try_made(void);

/* scs.c */
void try_scs(void);
void try_scs_writes(const char *name);

/* machines.c, looks.c, corrections.c: all that is done with a machine once it is read. */
void use_machine(const char *name);
void try_headers(const char *name, struct tried_call call);
void try_lengths(const char *name, struct tried_call call);
void try_looks(const char *name);
void try_log(const char *name, size_t log_len);

/* threads.c */
void tell_fault(const uint8_t *address);
void try_threads(void);

#endif
