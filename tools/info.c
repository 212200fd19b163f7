/* info.c: a machine, and a file, as a person reads them. */
#include "tool.h"

unsigned bytes_not_zero(const struct snapshot *opened, unsigned page)
{
    unsigned count = 0;
    for (unsigned offset = 0; offset < SNAP_PAGE_SIZE; offset++)
        count += opened->area[page * SNAP_PAGE_SIZE + offset] != 0;
    return count;
}

static void print_hex(FILE *to, const uint8_t *bytes, unsigned count)
{
    for (unsigned at = 0; at < count; at++)
        fprintf(to, " %02X", bytes[at]);
    fputs("\n", to);
}

static void print_registers(FILE *to, const struct machine *m)
{
    for (unsigned pair = 0; pair < SNAP_PAIRS; pair++) {
        if (pair % 4 == 0)
            fputs(pair == 0 ? "Registers  " : "           ", to);
        fprintf(to, "%-3s %04X%s", pair_names[pair], m->pairs[pair], pair % 4 == 3 ? "\n" : "   ");
    }
    fprintf(to, "           I   %02X     R   %02X\n", m->i, m->r);
    fprintf(to, "Interrupts mode %u, %s (IFF1 %d, IFF2 %d)\n", m->interrupt_mode, m->iff1 ? "enabled" : "disabled",
            m->iff1, m->iff2);
}

static void print_paging(FILE *to, const struct machine *m)
{
    uint8_t out = m->out_7ffd;
    fprintf(to, "Paging     last OUT to 7FFD %02X, %s\n", out, out & SNAP_7FFD_LOCK ? "locked" : "not locked");
    fprintf(to, "           page %u at C000, screen in page %d, ROM %d\n", out & SNAP_7FFD_PAGE,
            out & SNAP_7FFD_SCREEN ? 7 : 5, out & SNAP_7FFD_ROM ? 1 : 0);
}

static void print_ports(FILE *to, const struct machine *m)
{
    fprintf(to, "Border     %u, %s\n", m->border, colour_names[m->border]);
    if (m->is_128k)
        print_paging(to, m);
    if (!m->has_sound_chip)
        return;
    fprintf(to, "Sound      AY chip, last OUT to FFFD %02X\n           registers", m->out_fffd);
    print_hex(to, m->sound, sizeof m->sound);
}

static void print_settings(FILE *to, const struct machine *m)
{
    fprintf(to, "Clock      T state %u of %u in the frame\n", (unsigned)m->position, (unsigned)m->frame);
    fprintf(to, "Settings   issue %d keyboard, %s video%s\n", m->issue_2 ? 2 : 3, m->video,
            m->double_interrupts ? ", double interrupts" : "");
    fprintf(to, "           joystick %s\n", joystick_names[m->joystick]);
    fprintf(to, "Emulation  byte 36 %02X, byte 37 %02X, byte 59 %02X\n", m->byte_36, m->byte_37, m->side[0]);
    fputs("           bytes 61 to 73", to);
    print_hex(to, m->side + 1, 13);
    fputs("           bytes 74 to 85", to);
    print_hex(to, m->side + 14, 12);
}

/* Where a page is seen, as wide as the widest of the machine. */
static void print_page_places(FILE *to, const struct machine *m, unsigned page)
{
    char text[32] = "not paged in";
    unsigned places[2], count = page_places(m, page, places), paged_twice[2];
    int length = 0;
    for (unsigned at = 0; at < count; at++)
        length += snprintf(text + length, sizeof text - (size_t)length, "%s%04X-%04X", at == 0 ? "at " : " and ", places[at],
                           places[at] + SNAP_PAGE_SIZE - 1);
    fprintf(to, "%-*s", page_places(m, m->seen[3], paged_twice) == 2 ? 26 : 12, text);
}

static void print_pages(FILE *to, const struct machine *m, const struct snapshot *opened)
{
    const char *head = "Pages      ";
    for (unsigned page = 0; page < 8; page++) {
        if (!owns_page(m, page))
            continue;
        fprintf(to, "%s%u  ", head, page);
        print_page_places(to, m, page);
        fprintf(to, "  %5u bytes not zero\n", bytes_not_zero(opened, page));
        head = "           ";
    }
}

static void print_machine(FILE *to, const struct snapshot *opened, const char *note)
{
    struct machine m = machine_of(opened->header);
    fprintf(to, "Machine    %s%s, attachment: %s\n", m.is_128k ? "128K" : "48K", note, m.attachment);
    print_registers(to, &m);
    print_ports(to, &m);
    print_settings(to, &m);
    print_pages(to, &m, opened);
}

void print_info(FILE *to, const char *file, const struct snapshot *opened)
{
    fprintf(to, "File       %s\n", shown(file));
    print_machine(to, opened, "");
}

static void print_format(FILE *to, const struct snapshot *opened)
{
    if (opened->kind == SCS_FILE)
        fputs("Format     SCS", to);
    else
        fprintf(to, "Format     version %u", opened->version);
    if (opened->unwrapped != 0)
        fprintf(to, " in gzip, %u bytes, %u unwrapped\n", (unsigned)opened->length, (unsigned)opened->unwrapped);
    else
        fprintf(to, ", %u bytes\n", (unsigned)opened->length);
}

void print_file_info(FILE *to, const char *file, const struct snapshot *opened)
{
    fprintf(to, "File       %s\n", shown(file));
    print_format(to, opened);
    print_machine(to, opened, opened->says_16k ? " (the file says 16K)" : "");
}
