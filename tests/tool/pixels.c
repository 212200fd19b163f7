/* pixels.c: a PNG held to the screen that a file saves: pixels PNG FILE [SCALE [PAGE]]. It goes through the bytes of screen
 * memory and says where each must be seen. */
#include <png.h>
#include <stdio.h>
#include <stdlib.h>
#include <string.h>

#include "snapshot.h"

static uint8_t file[SNAP_READ_MOST], area[SNAP_AREA_SIZE], header[SNAP_HEADER_SIZE], seen[240][320][3];
static uint8_t dots[8 * 240 * 8 * 320][3];

static int wrong_pixel(const char *what, unsigned x, unsigned y)
{
    printf("%s at %u, %u\n", what, x, y);
    return 1;
}

/* Green, red and blue are bits 2, 1 and 0 of a colour. */
static int is_colour(const uint8_t rgb[3], unsigned colour, unsigned bright)
{
    const uint8_t level = bright ? 255 : 215;
    return rgb[0] == (colour >> 1 & 1) * level && rgb[1] == (colour >> 2) * level && rgb[2] == (colour & 1) * level;
}

static int screen_differs(const uint8_t *screen)
{
    for (unsigned offset = 0; offset < 6144; offset++) {
        /* offset bits: two of the third, three of the line, three of the row, five of the column */
        unsigned row = (offset >> 11) * 8 + (offset >> 5 & 7), y = row * 8 + (offset >> 8 & 7), column = offset & 31;
        unsigned attribute = screen[6144 + row * 32 + column];
        for (unsigned bit = 0; bit < 8; bit++) {
            unsigned x = column * 8 + 7 - bit;
            unsigned colour = screen[offset] >> bit & 1 ? attribute & 7 : attribute >> 3 & 7;
            if (!is_colour(seen[24 + y][32 + x], colour, attribute & 64))
                return wrong_pixel("pixel", x, y);
        }
    }
    return 0;
}

static int border_differs(unsigned colour)
{
    for (unsigned y = 0; y < 240; y++)
        for (unsigned x = 0; x < 320; x++) {
            int inside = y >= 24 && y < 216 && x >= 32 && x < 288;
            if (!inside && !is_colour(seen[y][x], colour, 0))
                return wrong_pixel("border", x, y);
        }
    return 0;
}

/* One dot for each pixel, all of whose dots must be equal. */
static int dots_differ(unsigned scale)
{
    for (unsigned y = 0; y < 240 * scale; y++)
        for (unsigned x = 0; x < 320 * scale; x++) {
            const uint8_t *dot = dots[y * 320 * scale + x];
            if (x % scale == 0 && y % scale == 0)
                memcpy(seen[y / scale][x / scale], dot, 3);
            else if (memcmp(seen[y / scale][x / scale], dot, 3) != 0)
                return wrong_pixel("dot", x, y);
        }
    return 0;
}

int main(int argc, char **argv)
{
    png_image image = {.version = PNG_IMAGE_VERSION};
    if (argc < 3 || !png_image_begin_read_from_file(&image, argv[1]))
        return wrong_pixel("no PNG", 0, 0);
    unsigned scale = argc > 3 ? (unsigned)atoi(argv[3]) : 1;
    if (scale > 8 || image.width != 320 * scale || image.height != 240 * scale)
        return wrong_pixel("another size", image.width, image.height);
    image.format = PNG_FORMAT_RGB;
    if (!png_image_finish_read(&image, NULL, dots, 0, NULL))
        return wrong_pixel("a damaged PNG", 0, 0);
    if (dots_differ(scale))
        return 1;
    FILE *from = fopen(argv[2], "rb");
    if (from == NULL)
        return wrong_pixel("no file", 0, 0);
    size_t length = fread(file, 1, sizeof file, from);
    fclose(from);
    uint64_t offset = 7;
    if (snap_z80_read(file, length, area, sizeof area, header, sizeof header, &offset) != SNAP_ACCEPTED || offset != 0)
        return wrong_pixel("a refused file", 0, 0);
    unsigned page = argc > 4 ? (unsigned)atoi(argv[4]) : header[34] >= 4 && (header[35] & 8) ? 7 : 5;
    return screen_differs(area + page * SNAP_PAGE_SIZE) || border_differs(header[12] >> 1 & 7);
}
