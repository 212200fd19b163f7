/* make.c: makes the sample files from the picture and the assembled program.
 *     make_sample PICTURE CODE OUT-48K OUT-128K
 * The picture has 48 lines of 64 blocks, # ink and . paper, four pixels wide and high; an empty line; and 24 lines of 32
 * letters, the colours of each cell. */
#include <stdio.h>
#include <stdlib.h>
#include <string.h>

#include "snapshot.h"

#define CODE_PAGE 2
#define CODE_ADDRESS 0x8000

static uint8_t header[SNAP_HEADER_SIZE], area[SNAP_AREA_SIZE], file[SNAP_FILE_MOST];

static void check(int good, const char *what)
{
    if (!good) {
        fprintf(stderr, "make_sample: %s\n", what);
        exit(1);
    }
}

/* Bright is 64, paper is eight times its colour, ink its colour. */
static uint8_t attribute(char letter)
{
    switch (letter) {
    case 's': return 64 + 8 * 1 + 6; /* stone in the sun: yellow on blue */
    case 'c': return 64 + 8 * 1 + 7; /* columns: white on blue */
    case 't': return 8 * 4 + 7;      /* steps: white on green */
    case 'k': return 64 + 7;         /* lettering: white on black */
    case 'R': return 64 + 8 * 2;     /* the four stripes */
    case 'Y': return 64 + 8 * 6;
    case 'G': return 64 + 8 * 4;
    case 'B': return 64 + 8 * 5;
    }
    check(0, "a letter of the picture is unknown");
    return 0;
}

static void take_row(FILE *from, char *line, size_t length)
{
    check(fgets(line, 80, from) != NULL && strcspn(line, "\n") == length, "the picture has another form");
}

/* A block is half a byte wide and four of a cell's eight rows high. */
static void draw_blocks(uint8_t *screen, const char *line, unsigned row)
{
    for (unsigned y = row * 4; y < row * 4 + 4; y++)
        for (unsigned x = 0; x < 64; x++)
            if (line[x] == '#')
                screen[y / 64 * 2048 + y % 8 * 256 + y % 64 / 8 * 32 + x / 2] |= x % 2 == 0 ? 0xF0 : 0x0F;
}

static void fill_screen(const char *name, uint8_t *screen)
{
    char line[80];
    FILE *from = fopen(name, "r");
    check(from != NULL, "the picture cannot be opened");
    for (unsigned row = 0; row < 48; row++) {
        take_row(from, line, 64);
        draw_blocks(screen, line, row);
    }
    take_row(from, line, 0);
    for (unsigned row = 0; row < 24; row++) {
        take_row(from, line, 32);
        for (unsigned x = 0; x < 32; x++)
            screen[6144 + row * 32 + x] = attribute(line[x]);
    }
    fclose(from);
}

static void load_code(const char *name)
{
    FILE *from = fopen(name, "rb");
    check(from != NULL, "the program cannot be opened");
    check(fread(area + CODE_PAGE * SNAP_PAGE_SIZE, 1, 256, from) > 0, "the program is empty");
    fclose(from);
}

static void put_word(unsigned place, unsigned value)
{
    header[place] = value & 255;
    header[place + 1] = (uint8_t)(value >> 8);
}

/* The blank machine's header is what a refused read leaves; these bytes of it are ours. */
static void make_machine(void)
{
    uint64_t offset;
    snap_z80_read(NULL, 0, area, sizeof area, header, sizeof header, &offset);
    put_word(SNAP_AT_SP, 0xBFF0);
    put_word(SNAP_AT_IY, 0x5C3A); /* as the ROM wants it */
    put_word(SNAP_AT_PC, CODE_ADDRESS);
    header[SNAP_AT_I] = 0x3F;
    header[SNAP_AT_FLAGS] = 1 << 1; /* border blue */
    header[SNAP_AT_IFF1] = header[SNAP_AT_IFF2] = 1;
    header[SNAP_AT_SETTINGS] = 1; /* interrupt mode 1 */
}

static void save(const char *name)
{
    uint64_t length;
    uint32_t number = snap_z80_write(header, sizeof header, area, sizeof area, file, sizeof file, &length);
    check(number == SNAP_ACCEPTED, snap_sentence(number));
    FILE *to = fopen(name, "wb");
    check(to != NULL && fwrite(file, 1, (size_t)length, to) == length && fclose(to) == 0, "the sample cannot be written");
}

int main(int argc, char **argv)
{
    check(argc == 5, "make_sample PICTURE CODE OUT-48K OUT-128K");
    make_machine();
    load_code(argv[2]);
    fill_screen(argv[1], area + 5 * SNAP_PAGE_SIZE);
    save(argv[3]);

    /* the 128K machine shows page 7, and each of its other pages says which it is */
    header[SNAP_AT_MODE] = SNAP_MODE_128K;
    header[SNAP_AT_OUT_7FFD] = SNAP_7FFD_ROM | SNAP_7FFD_SCREEN;
    memcpy(area + 7 * SNAP_PAGE_SIZE, area + 5 * SNAP_PAGE_SIZE, 6912);
    memset(area + 5 * SNAP_PAGE_SIZE, 0, SNAP_PAGE_SIZE);
    for (unsigned page = 0; page < 7; page++)
        if (page != CODE_PAGE)
            snprintf((char *)area + page * SNAP_PAGE_SIZE, 64, "This is page %u of a 128K machine.", page);
    save(argv[4]);
    return 0;
}
