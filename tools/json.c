/* json.c: a file, or why it is not accepted, as JSON; numbers in decimal. */
#include "checking.h"
#include "tool.h"

static unsigned code_of(const unsigned char *s, unsigned length)
{
    unsigned code = length == 1 ? s[0] : s[0] & 0x7Fu >> length;
    for (unsigned at = 1; at < length; at++)
        code = code << 6 | (s[at] & 0x3Fu);
    return code;
}

static void print_string(FILE *to, const char *string)
{
    const unsigned char *s = (const unsigned char *)string;
    fputc('"', to);
    while (*s != 0) {
        unsigned length = character_length(s);
        if (length == 0)
            fputs("\\ufffd", to);
        else if (*s == '"' || *s == '\\')
            fprintf(to, "\\%c", *s);
        else if (is_control_character(s, length))
            fprintf(to, "\\u%04x", code_of(s, length));
        else
            fwrite(s, 1, length, to);
        s += length == 0 ? 1 : length;
    }
    fputc('"', to);
}

static const char *boolean(bool value)
{
    return value ? "true" : "false";
}

static void print_numbers(FILE *to, const uint8_t *bytes, unsigned count)
{
    for (unsigned at = 0; at < count; at++)
        fprintf(to, "%s%u", at == 0 ? "[" : ", ", bytes[at]);
    fputs("]", to);
}

/* What a 48K machine does not have is null. */
static void print_json_ports(FILE *to, const struct machine *m)
{
    fprintf(to, "  \"border\": %u,\n  \"ports\": ", m->border);
    if (!m->has_sound_chip) {
        fputs("null,\n", to);
        return;
    }
    if (m->is_128k)
        fprintf(to, "{\"7FFD\": %u, ", m->out_7ffd);
    else
        fputs("{\"7FFD\": null, ", to);
    fprintf(to, "\"FFFD\": %u, \"sound\": ", m->out_fffd);
    print_numbers(to, m->sound, sizeof m->sound);
    fputs("},\n", to);
}

static void print_json_settings(FILE *to, const struct machine *m)
{
    fprintf(to, "  \"clock\": {\"position\": %u, \"frame\": %u},\n", (unsigned)m->position, (unsigned)m->frame);
    fprintf(to, "  \"settings\": {\"issue_2\": %s, \"double_interrupts\": %s, \"video\": \"%s\", \"joystick\": \"%s\"},\n",
            boolean(m->issue_2), boolean(m->double_interrupts), m->video, joystick_names[m->joystick]);
    fprintf(to, "  \"emulation\": {\"byte_36\": %u, \"byte_37\": %u, \"bytes_59_61_85\": ", m->byte_36, m->byte_37);
    print_numbers(to, m->side, sizeof m->side);
    fputs("},\n", to);
}

static void print_json_pages(FILE *to, const struct machine *m, const struct snapshot *opened)
{
    const char *before = "";
    fputs("  \"pages\": [", to);
    for (unsigned page = 0; page < 8; page++) {
        if (!owns_page(m, page))
            continue;
        unsigned places[2], count = page_places(m, page, places);
        fprintf(to, "%s\n    {\"page\": %u, \"addresses\": [", before, page);
        for (unsigned at = 0; at < count; at++)
            fprintf(to, "%s%u", at == 0 ? "" : ", ", places[at]);
        fprintf(to, "], \"not_zero\": %u}", bytes_not_zero(opened, page));
        before = ",";
    }
    fputs("\n  ]\n", to);
}

/* An SCS file has no version, and a file without a wrapper no length unwrapped: these are null. */
static void print_json_format(FILE *to, const struct snapshot *opened)
{
    if (opened->kind == SCS_FILE)
        fputs("  \"format\": \"SCS\",\n  \"version\": null,\n", to);
    else
        fprintf(to, "  \"format\": \"Z80\",\n  \"version\": %u,\n", opened->version);
    fprintf(to, "  \"length\": %u,\n", (unsigned)opened->length);
    if (opened->unwrapped != 0)
        fprintf(to, "  \"unwrapped\": %u,\n", (unsigned)opened->unwrapped);
    else
        fputs("  \"unwrapped\": null,\n", to);
}

void print_json(FILE *to, const char *file, const struct snapshot *opened)
{
    struct machine m = machine_of(opened->header);
    fputs("{\n  \"file\": ", to);
    print_string(to, file);
    fputs(",\n", to);
    print_json_format(to, opened);
    const char *kind = m.is_128k ? "128K" : "48K";
    fprintf(to, "  \"machine\": \"%s\",\n  \"hardware\": \"%s\",\n", kind, opened->says_16k ? "16K" : kind);
    fprintf(to, "  \"attachment\": \"%s\",\n", m.attachment);
    fputs("  \"registers\": {", to);
    for (unsigned pair = 0; pair < SNAP_PAIRS; pair++)
        fprintf(to, "\"%s\": %u, ", pair_names[pair], m.pairs[pair]);
    fprintf(to, "\"I\": %u, \"R\": %u},\n", m.i, m.r);
    fprintf(to, "  \"interrupts\": {\"mode\": %u, \"iff1\": %s, \"iff2\": %s},\n", m.interrupt_mode, boolean(m.iff1),
            boolean(m.iff2));
    print_json_ports(to, &m);
    print_json_settings(to, &m);
    print_json_pages(to, &m, opened);
    fputs("}\n", to);
}

/* The length unwrapped is null in a file without a wrapper. `refused` is 0 for a file that is accepted. */
void print_json_taking(FILE *to, const char *file, const struct taking *taken)
{
    char hint[HINT_SIZE], explanation[EXPLANATION_SIZE];
    hint_for(taken, hint);
    explain(taken, explanation);
    fprintf(to, "{\"refused\": %u, \"offset\": %u, \"block\": %u, \"found\": %u, \"due\": %u, \"unwrapped\": ", (unsigned)taken->number,
            (unsigned)taken->offset, (unsigned)taken->block, (unsigned)taken->found, (unsigned)taken->due);
    if (taken->unwrapped)
        fprintf(to, "%u, \"sentence\": ", (unsigned)taken->length);
    else
        fputs("null, \"sentence\": ", to);
    print_string(to, snap_sentence(taken->number));
    fputs(", \"explanation\": ", to);
    print_string(to, explanation);
    if (hint[0] != 0) {
        fputs(", \"hint\": ", to);
        print_string(to, hint);
    }
    fputs(", \"file\": ", to);
    print_string(to, file);
    fputs("}\n", to);
}

void print_json_error(FILE *to, const char *file, const char *sentence)
{
    fputs("{\"error\": ", to);
    print_string(to, sentence);
    fputs(", \"file\": ", to);
    print_string(to, file);
    fputs("}\n", to);
}
