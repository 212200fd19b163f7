/* snapshot.c: the curator's tool: its commands and their options. The library does the work. */
#define _POSIX_C_SOURCE 200809L
#include <signal.h>
#include <string.h>

#include "checking.h"
#include "tool.h"

static struct snapshot opened;

static enum status run_info(const struct words *words)
{
    const char *file = words->names[0];
    bool json = words->options[OPTION_JSON] != NULL;
    if (json)
        tell_in_json();
    enum status status = open_to_look(file, &opened);
    if (status == ACCEPTED)
        (json ? print_json : print_file_info)(stdout, input_name(file), &opened);
    return status;
}

static enum status run_check(const struct words *words)
{
    return check_files(words->all_names, words->options[OPTION_JSON] != NULL, words->options[OPTION_QUIET] != NULL);
}

static enum status run_view(const struct words *words)
{
    const char *file = words->names[0], *rom = words->options[OPTION_ROM];
    bool raw = words->options[OPTION_RAW] != NULL;
    struct view_range range;
    const char *unreadable = take_view_range(words->names[1], &range);
    if (unreadable != NULL)
        return misused("'%s' %s", words->names[1], unreadable);
    enum status status = raw ? check_output("-") : ACCEPTED;
    if (status == ACCEPTED)
        status = open_to_look(file, &opened);
    if (status != ACCEPTED)
        return status;
    file = input_name(file);
    return raw ? put_view_range(file, &opened, &range, rom) : print_view_range(stdout, file, file, &opened, &range, rom);
}

static enum status run_find(const struct words *words)
{
    struct sought sought;
    enum status status = take_sought(words->names[1], words->options[OPTION_TEXT] != NULL,
                                     words->options[OPTION_HEX] != NULL, &sought);
    if (status == ACCEPTED)
        status = open_to_look(words->names[0], &opened);
    if (status == ACCEPTED)
        print_places(stdout, &opened, &sought);
    return status;
}

/* An option's value that is one of some digits. */
static enum status take_digit(const struct words *words, enum option_number option, const char *digits, unsigned *digit)
{
    const char *value = words->options[option];
    if (value == NULL)
        return ACCEPTED;
    if (strlen(value) != 1 || strchr(digits, value[0]) == NULL)
        return misused("'%s' takes %s, not '%s'", option_table[option].flag, option_table[option].value, value);
    *digit = (unsigned)(value[0] - '0');
    return ACCEPTED;
}

static enum status run_screen(const struct words *words)
{
    const char *file = words->names[0], *output = words->names[1];
    bool scr = words->options[OPTION_SCR] != NULL, force = words->options[OPTION_FORCE] != NULL;
    unsigned scale = scr ? 0 : 1, page = 0;
    const uint8_t *bytes;
    if (scr && words->options[OPTION_SCALE] != NULL)
        return misused("'--scr' and '--scale' cannot both be asked for");
    if (!force && !is_stream(file) && !is_stream(output) && same_file(file, output))
        return misused("%s: is the snapshot itself; only --force puts the picture there", output);
    enum status status = take_digit(words, OPTION_SCALE, "12345678", &scale);
    if (status == ACCEPTED)
        status = take_digit(words, OPTION_PAGE, "57", &page);
    if (status == ACCEPTED)
        status = check_output(output);
    if (status == ACCEPTED)
        status = open_to_look(file, &opened);
    if (status != ACCEPTED)
        return status;
    struct machine m = machine_of(opened.header);
    if (page == 0)
        page = m.out_7ffd & SNAP_7FFD_SCREEN ? 7 : 5;
    status = page_bytes(input_name(file), &opened, page, NULL, &bytes);
    return status == ACCEPTED ? save_screen(output, force, bytes, m.border, scale) : status;
}

/* The format of the snapshot that is written. */
static enum status take_format(const struct words *words, enum file_kind *kind)
{
    const char *value = words->options[OPTION_FORMAT];
    *kind = value != NULL && strcmp(value, "scs") == 0 ? SCS_FILE : Z80_FILE;
    if (value == NULL || *kind == SCS_FILE || strcmp(value, "z80") == 0)
        return ACCEPTED;
    return misused("'--format' takes %s, not '%s'", option_table[OPTION_FORMAT].value, value);
}

static enum status run_edit(const struct words *words)
{
    const char *file = words->names[0], *output = words->options[OPTION_OUTPUT], *log = words->options[OPTION_LOG];
    enum file_kind kind;
    enum status status = take_format(words, &kind);
    if (status != ACCEPTED)
        return status;
    if (is_stream(file) || is_stream(output) || (log != NULL && is_stream(log)))
        return misused("'snapshot edit' takes files, not '-'; a file of that name is './-'");
    return edit(&(struct edit_words){.file = file, .output = output, .script = words->options[OPTION_SCRIPT],
                                     .log = log, .kind = kind, .format_asked = words->options[OPTION_FORMAT] != NULL,
                                     .force = words->options[OPTION_FORCE] != NULL,
                                     .new_log = words->options[OPTION_NEW_LOG] != NULL});
}

static enum status run_write(const struct words *words)
{
    const char *output = words->options[OPTION_OUTPUT];
    enum file_kind kind;
    enum status status = take_format(words, &kind);
    if (status == ACCEPTED)
        status = check_output(output);
    if (status == ACCEPTED)
        status = open_to_save(words->names[0], kind, words->options[OPTION_FORMAT] != NULL, &opened);
    return status == ACCEPTED ? output_snapshot(output, &opened, kind, words->options[OPTION_FORCE] != NULL) : status;
}

const struct command command_table[] = {
    {"info", {"FILE"}, false, {OPTION_JSON, OPTION_VERBOSE}, run_info, "the machine, and what the file says of itself"},
    {"check", {"FILE"}, true, {OPTION_JSON, OPTION_QUIET, OPTION_VERBOSE}, run_check,
     "whether each file, or each in a folder, is good, or why it is refused"},
    {"view", {"FILE", "PAGE|ADDRESS..ADDRESS"}, false, {OPTION_ROM, OPTION_RAW, OPTION_VERBOSE}, run_view,
     "a page, 0 to 7 RAM, 8 and 9 ROM, or hexadecimal addresses, as hex and text"},
    {"find", {"FILE", "TEXT|HEX"}, false, {OPTION_TEXT, OPTION_HEX, OPTION_VERBOSE}, run_find,
     "every place of a text, or of bytes as an even number of hex digits"},
    {"screen", {"FILE", "OUT"}, false, {OPTION_SCALE, OPTION_PAGE, OPTION_SCR, OPTION_FORCE, OPTION_VERBOSE}, run_screen,
     "the picture on the saved screen, as a PNG"},
    {"edit", {"FILE"}, false,
     {OPTION_OUTPUT, OPTION_FORMAT, OPTION_SCRIPT, OPTION_LOG, OPTION_NEW_LOG, OPTION_FORCE, OPTION_VERBOSE}, run_edit,
     "corrections, undo and redo, from a prompt or a script"},
    {"write", {"FILE"}, false, {OPTION_OUTPUT, OPTION_FORMAT, OPTION_FORCE, OPTION_VERBOSE}, run_write,
     "the same machine and memory as a version 3 .Z80 file, or as SCS"},
};
const size_t command_count = sizeof command_table / sizeof command_table[0];

const struct option_form option_table[OPTIONS] = {
    [OPTION_JSON] = {"--json", NULL, "the same as JSON, numbers in decimal; a refusal too"},
    [OPTION_ROM] = {"--rom", "ROM", "the ROM's file: 16,384 bytes for a 48K, 32,768 for a 128K"},
    [OPTION_RAW] = {"--raw", NULL, "the bytes themselves"},
    [OPTION_TEXT] = {"--text", NULL, "what is sought is text, whatever it looks like"},
    [OPTION_HEX] = {"--hex", NULL, "what is sought is hex digits"},
    [OPTION_SCALE] = {"--scale", "1..8", "so many dots of the PNG for the side of a pixel"},
    [OPTION_PAGE] = {"--page", "5|7", "the page that the screen is in, whichever was shown"},
    [OPTION_SCR] = {"--scr", NULL, "the 6,912 bytes of the screen, not a PNG"},
    [OPTION_OUTPUT] = {"--output", "OUT", "the file that is written"},
    [OPTION_FORMAT] = {"--format", "z80|scs", "the format of that file; without it, a version 3 .Z80 file"},
    [OPTION_SCRIPT] = {"--script", "SCRIPT", "a file of lines instead of the prompt"},
    [OPTION_LOG] = {"--log", "LOG", "the file of the correction log"},
    [OPTION_NEW_LOG] = {"--new-log", NULL, "begins with an empty log, whatever is kept"},
    [OPTION_FORCE] = {"--force", NULL, "replaces what is of another kind, in gzip, changed, or may not be written"},
    [OPTION_QUIET] = {"--quiet", NULL, "no line for a file that is good"},
    [OPTION_VERBOSE] = {"--verbose", NULL, "where a file is refused, with the bytes around that place"},
};

static void print_usage(FILE *to)
{
    for (size_t at = 0; at < command_count; at++)
        print_form(to, &command_table[at]);
    fputs("snapshot help [COMMAND], snapshot [COMMAND] --help, snapshot --version\n"
          "FILE is a .Z80 or SCS file, plain or in gzip; in check it may be a folder.\n"
          "FILE may be -, standard input; OUT may be -, standard output; not in edit.\n"
          "Exit status: 0 accepted, 1 refused, 2 wrong use, 3 system error.\n"
          "See snapshot(1).\n", to);
}

static bool is_either(const char *word, const char *name, const char *letter)
{
    return strcmp(word, name) == 0 || strcmp(word, letter) == 0;
}

static enum status run_command(const struct command *command, int argc, char **argv)
{
    struct words words = {0};
    enum status status = take_options(command, argc, argv, &words);
    if (status != ACCEPTED)
        return status;
    if (words.help) {
        print_help(stdout, command);
        return ACCEPTED;
    }
    if (words.options[OPTION_VERBOSE] != NULL)
        tell_with_bytes();
    return command->run(&words);
}

static enum status too_many(char **argv, unsigned at)
{
    return misused("'%s' is one name too many for 'snapshot %s'; see 'snapshot --help'", argv[at], argv[1]);
}

static enum status run_named(const char *name, int argc, char **argv)
{
    for (size_t at = 0; at < command_count; at++)
        if (strcmp(name, command_table[at].name) == 0)
            return run_command(&command_table[at], argc, argv);
    return misused("there is no command '%s'; see 'snapshot --help'", name);
}

/* The help of the tool, or after `help` that of a command. */
static enum status run_help(int argc, char **argv)
{
    char *words[] = {argv[2], "--help", NULL};
    int most = strcmp(argv[1], "help") == 0 ? 3 : 2;
    if (argc > most)
        return too_many(argv, (unsigned)most);
    if (argc == 3)
        return run_named(argv[2], 2, words);
    print_usage(stdout);
    return ACCEPTED;
}

static enum status run(int argc, char **argv)
{
    if (argc < 2)
        return misused("a command is missing; see 'snapshot --help'");
    if (strcmp(argv[1], "help") == 0 || is_either(argv[1], "--help", "-h"))
        return run_help(argc, argv);
    if (!is_either(argv[1], "--version", "-V"))
        return run_named(argv[1], argc - 1, argv + 1);
    if (argc > 2)
        return too_many(argv, 2);
    puts("snapshot " SNAPSHOT_VERSION);
    return ACCEPTED;
}

int main(int argc, char **argv)
{
    /* a file that grows past the limit is an error to report, not a death */
    signal(SIGXFSZ, SIG_IGN);
    enum status status = run(argc, argv);
    if (fflush(stdout) != 0 || ferror(stdout))
        return cannot_errno("standard output", "cannot be written");
    return status;
}
