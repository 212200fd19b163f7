/* soak.h: what the parts of the soak share. */
#ifndef SOAK_H
#define SOAK_H

#include "../refused_at.h"
#include "snapshot.h"

#define LOG_SIZE 100u
#define LOG_STEPS (LOG_SIZE / SNAP_LOG_STEP)
/* The header byte of the last OUT to 7FFD. */
#define LAST_OUT 35

/* What a server keeps for a request, used again for a later one without clearing. */
struct server_slot {
    uint8_t header[SNAP_HEADER_SIZE], area[SNAP_AREA_SIZE], log[LOG_SIZE], out[SNAP_FILE_MOST];
    uint64_t standing, total, length, offset;
};

/* What a request's seed says: a machine, its memory, and the file of both, with room for two bytes behind it. It lies
   outside the slots. */
struct made {
    uint8_t header[SNAP_HEADER_SIZE], area[SNAP_AREA_SIZE], file[SNAP_FILE_MOST + 2];
    uint64_t length;
};

/* made.c */
uint64_t next(uint64_t *seed);
int is_128(const uint8_t *header);
void make(struct made *made, uint64_t *seed);
void make_file(struct made *made);
void make_scs_file(struct made *made);

/* damage.c: the file of a request damaged, and the refusal that it then gets. */
struct refused_at damage_file(struct made *made, uint64_t *seed);

/* corrections.c */
enum correction_kind { BYTE = 1, PAIR, OUT };

/* A correction as asked, the number that it gives, and its step of the log. */
struct asked_correction {
    enum correction_kind kind;
    uint16_t place, value;
    uint32_t number;
    uint8_t step[SNAP_LOG_STEP];
};
struct asked_correction ask(const struct made *made, int is_full, uint64_t *seed);
void put_old(struct made *made, const uint8_t *step);
void put_new(struct made *made, const uint8_t *step);

/* check.c: a difference is told with the request it stands in, and ends the program. */
struct running_request {
    unsigned long number;
    const char *kind;
    unsigned slot;
};
extern struct running_request request;
extern uint64_t bytes_checked;
void expect(const char *call, uint64_t given, uint64_t due);
void expect_bytes(const char *what, const uint8_t *given, const uint8_t *due, size_t length);
void expect_zero(const char *what, const uint8_t *given, size_t length);
void expect_read(const struct server_slot *slot, uint32_t number, struct refused_at due);
void expect_refused(const struct server_slot *slot);
void expect_explained(const uint8_t *file, size_t length, struct refused_at due);

/* stored.c: files read once into a clean area, and again into dirty slots. */
void store(const char *name);
void stored_request(struct server_slot *slot, uint64_t *seed);

/* scs.c */
void scs_read_request(struct server_slot *slot, uint64_t *seed);
void scs_damaged_request(struct server_slot *slot, uint64_t *seed);
void scs_write_request(struct server_slot *slot, uint64_t *seed);

/* requests.c */
#define REQUEST_KINDS 12
struct request_kind {
    const char *name;
    void (*run)(struct server_slot *slot, uint64_t *seed);
};
extern const struct request_kind kinds[REQUEST_KINDS];

#endif
