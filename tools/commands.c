/* commands.c: one line of an editing session. Addresses and values are hexadecimal, as they are shown. */
#include <stdlib.h>
#include <string.h>
#include <strings.h>

#include "tool.h"

static const char help_text[] =
    "byte ADDRESS VALUE..  corrects a byte, as paging is now, or up to 64 from there\n"
    "text ADDRESS \"..\"     corrects bytes to a text\n"
    "pair NAME VALUE       corrects a register pair:\n"
    "                      AF BC DE HL AF' BC' DE' HL' IX IY SP PC\n"
    "out VALUE             corrects the last OUT to 7FFD (128K)\n"
    "undo [COUNT]          takes back the last correction, or so many\n"
    "redo [COUNT]          makes the next undone correction again, or so many\n"
    "list                  the corrections that stand, and those that wait\n"
    "info                  the machine\n"
    "view PAGE             a RAM page as hex and text\n"
    "view FROM..TO         addresses as hex and text, as paging is now\n"
    "save [NAME]           writes the output, or the file of that name, and the log\n"
    "save --force [NAME]   also over what something else has changed or made there\n"
    "quit, exit, q         ends; what is not saved is lost\n"
    "help, ?               this list\n"
    "Addresses and values are hexadecimal, with or without 0x, $ or # before them;\n"
    "counts and pages are decimal.\n";

/* A line that is being run. */
struct running_line {
    struct editing *session;
    const char *place, *form;
    struct line line;
};

/* What every call of the library over a log is lent. */
#define LENT(s) \
    (s)->opened.header, sizeof (s)->opened.header, (s)->opened.area, sizeof (s)->opened.area, \
    (s)->log.steps, sizeof (s)->log.steps, &(s)->log.standing, &(s)->log.total

static const char an_address[] = "address, 0 to FFFF", a_byte[] = "value from 0 to FF";

/* The line is not of the form that its command has. */
static enum status wrong(const struct running_line *run)
{
    return misused("%s: %s", run->place, run->form);
}

static const char *word(const struct running_line *run, unsigned at)
{
    return run->line.words[at].text;
}

/* A word is not what the form has in its place. */
static enum status wrong_word(const struct running_line *run, unsigned at, const char *expected)
{
    return misused("%s: '%s' is no %s; %s", run->place, shown_in_short(word(run, at)), expected, run->form);
}

/* After a call: what was done, or the refusal. */
static enum status told(const struct running_line *run, uint32_t number, const char *done, uint64_t step, bool back)
{
    if (number != SNAP_ACCEPTED)
        return refused(run->place, number);
    run->session->unsaved++;
    fputs(done, stdout);
    print_step(stdout, &run->session->log, step, back);
    return ACCEPTED;
}

static enum status corrected(const struct running_line *run, uint32_t number)
{
    return told(run, number, "corrected: ", run->session->log.standing - 1, false);
}

/* Bytes from an address on, all or none: with room for all of them only the first can be refused. */
static enum status correct_bytes(const struct running_line *run, unsigned long address, const uint8_t *bytes, size_t count)
{
    const struct log *log = &run->session->log;
    if (address + count > 0x10000)
        return misused("%s: the last byte would be past FFFF", run->place);
    if (address >= 0x4000 && log->standing + count > SNAP_LOG_STEPS)
        return refused(run->place, SNAP_LOG_FULL);
    enum status status = ACCEPTED;
    for (size_t at = 0; at < count && status == ACCEPTED; at++)
        status = corrected(run, snap_correct_byte(LENT(run->session), (uint16_t)(address + at), bytes[at]));
    return status;
}

static enum status do_byte(const struct running_line *run)
{
    uint8_t bytes[LINE_WORDS];
    unsigned long address, value;
    unsigned count = run->line.count - 2;
    if (!take_hex(word(run, 1), 0xFFFF, &address))
        return wrong_word(run, 1, an_address);
    for (unsigned at = 0; at < count; at++) {
        if (!take_hex(word(run, at + 2), 0xFF, &value))
            return wrong_word(run, at + 2, a_byte);
        bytes[at] = (uint8_t)value;
    }
    return correct_bytes(run, address, bytes, count);
}

static enum status do_text(const struct running_line *run)
{
    unsigned long address;
    const char *text = word(run, 2);
    size_t length = strlen(text);
    if (!take_hex(word(run, 1), 0xFFFF, &address))
        return wrong_word(run, 1, an_address);
    if (!run->line.words[2].quoted || length == 0)
        return wrong(run);
    for (size_t at = 0; at < length; at++)
        if (text[at] < 32 || text[at] > 126)
            return misused("%s: a text has characters 32 to 126 of ASCII alone", run->place);
    return correct_bytes(run, address, (const uint8_t *)text, length);
}

static enum status do_pair(const struct running_line *run)
{
    unsigned long value;
    unsigned pair = 0;
    while (pair < SNAP_PAIRS && strcasecmp(word(run, 1), pair_names[pair]) != 0)
        pair++;
    if (pair == SNAP_PAIRS)
        return wrong_word(run, 1, "register pair");
    if (!take_hex(word(run, 2), 0xFFFF, &value))
        return wrong_word(run, 2, "value from 0 to FFFF");
    return corrected(run, snap_correct_pair(LENT(run->session), (uint8_t)pair, (uint16_t)value));
}

static enum status do_out(const struct running_line *run)
{
    unsigned long value;
    if (!take_hex(word(run, 1), 0xFF, &value))
        return wrong_word(run, 1, a_byte);
    return corrected(run, snap_correct_out(LENT(run->session), (uint8_t)value));
}

/* More are asked for than stand, or wait: the refusal says how many do. */
static enum status too_few(const struct running_line *run, bool back, unsigned count)
{
    char hint[HINT_SIZE] = "";
    if (count > 0)
        snprintf(hint, sizeof hint, "%u %s%s", count, back ? "stand" : "wait", count == 1 ? "s" : "");
    return refused_with_hint(run->place, SNAP_NOTHING_TO_MOVE, hint);
}

/* Undo or redo, as many times as the line says, if there are so many. */
static enum status move(const struct running_line *run, bool back)
{
    struct editing *session = run->session;
    unsigned long count = 1;
    if (run->line.count == 2 && !take_decimal(word(run, 1), SNAP_LOG_STEPS, &count))
        return wrong_word(run, 1, "count up to 4096");
    const struct log *log = &session->log;
    uint64_t there = back ? log->standing : log->total - log->standing;
    if (count > there)
        return too_few(run, back, (unsigned)there);
    enum status status = ACCEPTED;
    for (; count > 0 && status == ACCEPTED; count--) {
        uint32_t number = back ? snap_undo(LENT(session)) : snap_redo(LENT(session));
        /* what was undone is now the first to wait, what was redone the last to stand */
        status = told(run, number, back ? "undone: " : "redone: ", log->standing - !back, back);
    }
    return status;
}

static enum status do_undo(const struct running_line *run)
{
    return move(run, true);
}

static enum status do_redo(const struct running_line *run)
{
    return move(run, false);
}

static enum status do_list(const struct running_line *run)
{
    const struct log *log = &run->session->log;
    printf("standing: %u, waiting: %u\n", (unsigned)log->standing, (unsigned)(log->total - log->standing));
    for (uint64_t step = 0; step < log->total; step++) {
        printf("%4u %s ", (unsigned)(step + 1), step < log->standing ? "stands" : "waits ");
        print_step(stdout, log, step, false);
    }
    return ACCEPTED;
}

static enum status do_info(const struct running_line *run)
{
    print_info(stdout, run->session->words->file, &run->session->opened);
    return ACCEPTED;
}

static enum status do_view(const struct running_line *run)
{
    struct view_range range;
    const char *unreadable = take_view_range(word(run, 1), &range);
    if (unreadable != NULL)
        return misused("%s: '%s' %s", run->place, shown_in_short(word(run, 1)), unreadable);
    return print_view_range(stdout, run->place, run->session->words->file, &run->session->opened, &range, NULL);
}

static enum status do_save(const struct running_line *run)
{
    const char *name = NULL;
    bool force = false;
    for (unsigned at = 1; at < run->line.count; at++) {
        bool option = !run->line.words[at].quoted && word(run, at)[0] == '-';
        if (option && !force && strcmp(word(run, at), "--force") == 0)
            force = true;
        else if (!option && name == NULL)
            name = word(run, at);
        else
            return wrong(run);
    }
    return save_session(run->session, name, force);
}

static enum status do_quit(const struct running_line *run)
{
    run->session->ended = true;
    return ACCEPTED;
}

static enum status do_help(const struct running_line *run)
{
    (void)run;
    fputs(help_text, stdout);
    return ACCEPTED;
}

/* Each command with how many words its line has, and its form. */
static const struct form {
    const char *name;
    unsigned least, most;
    const char *form;
    enum status (*run)(const struct running_line *);
} commands[] = {
    {"byte", 3, LINE_WORDS, "byte takes an address and 1 to 64 values, as in: byte 8000 7E", do_byte},
    {"text", 3, 3, "text takes an address and a text in double quotes, as in: text 8000 \"HELLO\"", do_text},
    {"pair", 3, 3, "pair takes a name and a value, as in: pair HL 5C3A", do_pair},
    {"out", 2, 2, "out takes a value, as in: out 10", do_out},
    {"undo", 1, 2, "undo takes nothing, or how many, as in: undo 2", do_undo},
    {"redo", 1, 2, "redo takes nothing, or how many, as in: redo 2", do_redo},
    {"list", 1, 1, "list takes nothing", do_list},
    {"info", 1, 1, "info takes nothing", do_info},
    {"view", 2, 2, "view takes a page or two addresses, as in: view 5, view 8000..80FF", do_view},
    {"save", 1, 3, "save takes nothing, or --force, a name (in double quotes if it has blanks), or both", do_save},
    {"quit", 1, 1, "quit takes nothing", do_quit},
    {"exit", 1, 1, "exit takes nothing", do_quit},
    {"q", 1, 1, "q takes nothing", do_quit},
    {"help", 1, 1, "help takes nothing", do_help},
    {"?", 1, 1, "? takes nothing", do_help},
};

const char *command_name(size_t at)
{
    return at < sizeof commands / sizeof commands[0] ? commands[at].name : NULL;
}

enum status run_line(struct editing *session, const char *place, char *text)
{
    struct running_line run = {.session = session, .place = place};
    const char *unreadable = take_words(text, &run.line);
    if (unreadable != NULL)
        return misused("%s: %s", place, unreadable);
    if (run.line.count == 0)
        return ACCEPTED;
    for (size_t at = 0; at < sizeof commands / sizeof commands[0]; at++) {
        const struct form *command = &commands[at];
        if (strcasecmp(word(&run, 0), command->name) != 0)
            continue;
        run.form = command->form;
        return run.line.count < command->least || run.line.count > command->most ? wrong(&run) : command->run(&run);
    }
    return misused("%s: there is no command '%s'; see 'help'", place, shown_in_short(word(&run, 0)));
}
