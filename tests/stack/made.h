/* made.h: a file made part by part from a memory. */
#ifndef MADE_H
#define MADE_H

#include "snapshot.h"

#define ED 0xED
#define KINDS 5u

extern uint8_t memory[SNAP_AREA_SIZE];
/* The file as far as it is made. */
extern struct making {
    uint8_t bytes[SNAP_READ_MOST + 1000];
    size_t length;
} made;

/* How data are stored: packed by document 01's rule, packed as long as can be, or as they are. */
enum storing { PACKED, LONGEST, PLAIN };

extern const uint8_t pages_48[3], blocks_48[3];
void make_memory(unsigned kind);
void put_byte(uint8_t byte);
void put_bytes(const uint8_t *bytes, size_t count);
void put_run(uint8_t count, uint8_t byte);
void put_data(const uint8_t *from, size_t count, enum storing storing);
void put_header(unsigned version, uint8_t mode);
void put_block(uint8_t number, const uint8_t *page, enum storing storing);
void put_blocks(unsigned version, uint8_t mode, enum storing storing);
int is_128_mode(unsigned version, uint8_t mode);

#endif
