/* screen.c: the picture on a page of screen memory with its border, as a PNG of 320 by 240 pixels, each 1 to 8 dots a side, or
 * the screen's own bytes. FLASH is shown in its first phase. */
#include <png.h>
#include <stdlib.h>
#include <string.h>

#include "tool.h"

#define WIDTH 256u
#define HEIGHT 192u
#define SIDE 32u
#define TOP 24u
#define FULL_WIDTH (WIDTH + 2 * SIDE)
#define FULL_HEIGHT (HEIGHT + 2 * TOP)

/* Colours 0 to 7 have bit 0 blue, bit 1 red, bit 2 green; 8 to 15 are the bright ones. */
static void make_palette(uint8_t palette[16][3])
{
    for (unsigned colour = 0; colour < 16; colour++) {
        uint8_t level = colour < 8 ? 0xD7 : 0xFF;
        palette[colour][0] = colour & 2 ? level : 0;
        palette[colour][1] = colour & 4 ? level : 0;
        palette[colour][2] = colour & 1 ? level : 0;
    }
}

/* The colour of a pixel: its bit picks ink or paper of its cell's attribute. */
static uint8_t colour_at(const uint8_t *screen, unsigned x, unsigned y)
{
    unsigned third = y / 64, row = y % 64 / 8, line = y % 8;
    uint8_t bits = screen[third * 2048 + line * 256 + row * 32 + x / 8];
    uint8_t attribute = screen[6144 + y / 8 * 32 + x / 8];
    bool ink = (bits & 0x80 >> x % 8) != 0;
    uint8_t colour = ink ? attribute & 7 : attribute >> 3 & 7;
    return attribute & 0x40 ? colour | 8 : colour;
}

/* The colour of a pixel of the whole picture. */
static uint8_t full_colour_at(const uint8_t *screen, uint8_t border, unsigned x, unsigned y)
{
    bool inside = x >= SIDE && x < SIDE + WIDTH && y >= TOP && y < TOP + HEIGHT;
    return inside ? colour_at(screen, x - SIDE, y - TOP) : border;
}

static void draw(uint8_t *dots, const uint8_t *screen, uint8_t border, unsigned scale)
{
    for (unsigned y = 0; y < FULL_HEIGHT * scale; y++)
        for (unsigned x = 0; x < FULL_WIDTH * scale; x++)
            *dots++ = full_colour_at(screen, border, x / scale, y / scale);
}

static enum status save_png(const char *path, bool force, const uint8_t *dots, unsigned scale)
{
    uint8_t palette[16][3];
    make_palette(palette);
    png_image image;
    memset(&image, 0, sizeof image);
    image.version = PNG_IMAGE_VERSION;
    image.width = FULL_WIDTH * scale;
    image.height = FULL_HEIGHT * scale;
    image.format = PNG_FORMAT_RGB_COLORMAP;
    image.colormap_entries = 16;
    png_alloc_size_t length = PNG_IMAGE_PNG_SIZE_MAX(image);
    uint8_t *file = malloc(length);
    if (file == NULL)
        return cannot(path, "there is no memory for the picture");
    enum status status;
    if (png_image_write_to_memory(&image, file, &length, 0, dots, (png_int_32)image.width, palette) == 0)
        status = cannot(path, image.message);
    else
        status = output_bytes(path, PICTURE_FILE, force, file, length);
    free(file);
    return status;
}

enum status save_screen(const char *path, bool force, const uint8_t *page, uint8_t border, unsigned scale)
{
    if (scale == 0)
        return output_bytes(path, SCREEN_FILE, force, page, SCREEN_SIZE);
    uint8_t *dots = malloc((size_t)FULL_WIDTH * FULL_HEIGHT * scale * scale);
    if (dots == NULL)
        return cannot(path, "there is no memory for the picture");
    draw(dots, page, border, scale);
    enum status status = save_png(path, force, dots, scale);
    free(dots);
    return status;
}
