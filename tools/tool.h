/* tool.h: what the parts of the snapshot tool share. The library does the work; these parts read, show and save. */
#ifndef TOOL_H
#define TOOL_H

#include <stdio.h>

#include "opening.h"

/* What the tool exits with. */
enum status { ACCEPTED = 0, REFUSED = 1, USAGE = 2, SYSTEM = 3 };

/* report.c: a sentence on standard error; most answer the status that goes with it. */
enum status refused(const char *file, uint32_t number);
/* The hint comes in parentheses; an empty one is none. */
enum status refused_with_hint(const char *file, uint32_t number, const char *hint);
enum status cannot(const char *file, const char *sentence);
enum status cannot_errno(const char *file, const char *doing);
/* A permission that is missing before the file is reached is its folder's. */
enum status cannot_write(const char *file);
enum status misused(const char *format, ...);
void warn(const char *file, const char *format, ...);
/* A name as it can be shown on one line: control characters and what is no UTF-8 as \xNN. Four of them last at a time. */
const char *shown(const char *name);
/* A text so, cut after 40 characters. */
const char *shown_in_short(const char *text);
/* How many bytes at `s` make one well-formed UTF-8 character; 0 if they make none. */
unsigned character_length(const unsigned char *s);
/* Whether a well-formed character ends a line, moves the cursor or turns the direction of what follows. */
bool is_control_character(const unsigned char *s, unsigned length);

/* unread.c: what is said of an input that is not accepted; after tell_in_json(), as JSON on standard output, after
   tell_with_bytes() with the bytes around the place on standard error. */
void tell_in_json(void);
void tell_with_bytes(void);
enum status unread(const char *file, const char *sentence);
enum status unread_errno(const char *file, const char *doing);
enum status refused_file(const char *file, const struct taking *taken);

/* where.c: the place at which a file is refused; there may be none. */
#define WHERE_SIZE 100u
/* It follows the number in a line; nothing where there is no place. */
void where_refused(const struct taking *taken, char text[WHERE_SIZE]);
/* The place in hex, and rows of bytes around it. */
void show_around(FILE *to, const char *file, const struct taking *taken);

/* files.c */
/* Reads a regular file of at most `most` bytes; `bytes` has room for one more. */
enum status read_bounded(const char *path, uint8_t *bytes, size_t most, size_t *length);
/* Reads until the end, or until there is no more room; -1 for an error. */
long read_up_to(int from, uint8_t *bytes, size_t room);
/* Reads a file, or standard input, and takes it as a snapshot; what is no snapshot is told, but no refusal. */
enum status take_input(const char *path, struct snapshot *opened, struct taking *taken);
/* Opens a file, or standard input, to look at it; open_to_save() also tells what will be different when it is saved. */
enum status open_to_look(const char *path, struct snapshot *opened);
enum status open_to_save(const char *path, enum file_kind kind, bool format_asked, struct snapshot *opened);

/* places.c: where a file is saved. Its target is the file itself: an absolute path, links followed. */
#define PATH_ROOM 4096
/* What stands at a target; length and sum tell it from anything else. */
struct file_state {
    bool present;
    uint64_t length;
    uint32_t sum;
};
enum status target_of(const char *name, char target[PATH_ROOM]);
void folder_of(const char *target, char folder[PATH_ROOM]);
/* False where it cannot be read. */
bool look_at(const char *target, struct file_state *state);
struct file_state state_of_bytes(const uint8_t *bytes, size_t length);
/* Whether a file of this kind may be saved there. Only `force` replaces one of another kind, one in gzip, or one that may not be
   written; nothing but a log is ever replaced by a log, and nothing that is no regular file by anything. */
enum status check_target(const char *name, const char *target, enum file_kind kind, bool force, struct file_state *state);
bool same_file(const char *one, const char *other);

/* known.c: the files that a run has opened or saved, each as it was then. */
struct known_file {
    struct known_file *next;
    struct file_state state;
    char target[];
};
void know(struct known_file **list, const char *target, struct file_state state);
void know_input(struct known_file **list, const char *name);
/* What has happened at a target since it was known, as a sentence, or NULL. A target that is not known was absent. */
const char *changed(struct known_file *list, const char *target, const struct file_state *now);
void forget(struct known_file *known);

/* saving.c */
struct output {
    const char *name;
    enum file_kind kind;
    bool force, renamed;
    const uint8_t *bytes;
    size_t length;
    char target[PATH_ROOM], temporary[PATH_ROOM];
};
/* Saves one file or two under temporary names and renames: until then, and if it fails, what stood there is whole. With
   `known`, what has changed at a target is replaced only by force, and what is saved is known. */
enum status save_files(struct output *outputs, unsigned count, struct known_file **known);
enum status snapshot_bytes(const char *path, const struct snapshot *opened, enum file_kind kind, uint8_t file[SNAP_FILE_MOST],
                           size_t *length);

/* streams.c: standard input and standard output, which a - stands for. */
bool is_stream(const char *path);
const char *input_name(const char *path);
/* Wrong use where the bytes would go to a terminal. */
enum status check_output(const char *path);
enum status output_bytes(const char *path, enum file_kind kind, bool force, const uint8_t *bytes, size_t length);
enum status output_snapshot(const char *path, const struct snapshot *opened, enum file_kind kind, bool force);

/* machine.c: what the 86 header bytes say. */
struct machine {
    bool is_128k, has_sound_chip;
    const char *attachment;
    uint16_t pairs[SNAP_PAIRS];
    /* the pages seen in the four quarters of memory, as paging is now: 8 or 9 at 0000, then RAM */
    uint8_t seen[4];
    uint8_t i, r, interrupt_mode, border, joystick;
    bool iff1, iff2, issue_2, double_interrupts;
    const char *video;
    uint8_t out_7ffd, out_fffd, sound[16], byte_36, byte_37, side[26];
    uint32_t position, frame;
};
struct machine machine_of(const uint8_t header[SNAP_HEADER_SIZE]);
/* Two bytes, the low one first. */
uint16_t word_at(const uint8_t *bytes, unsigned place);
extern const char *const pair_names[SNAP_PAIRS];
extern const char *const colour_names[8];
extern const char *const joystick_names[4];
bool owns_page(const struct machine *machine, unsigned page);

/* pages.c: a page's bytes, and where it is seen. */
/* The addresses at which a page is seen; answers how many there are. */
unsigned page_places(const struct machine *machine, unsigned page, unsigned places[2]);
/* Pages are numbers from 0; none above 9 is a page. rom is NULL or the ROM's file. */
enum status page_bytes(const char *file, const struct snapshot *opened, unsigned long page, const char *rom,
                       const uint8_t **bytes);

/* info.c, json.c: print_info() shows a machine, print_file_info() and print_json() a file. */
void print_info(FILE *to, const char *file, const struct snapshot *opened);
void print_file_info(FILE *to, const char *file, const struct snapshot *opened);
void print_json(FILE *to, const char *file, const struct snapshot *opened);
void print_json_taking(FILE *to, const char *file, const struct taking *taken);
void print_json_error(FILE *to, const char *file, const char *sentence);
unsigned bytes_not_zero(const struct snapshot *opened, unsigned page);

/* numbers.c: numbers as people write them: hexadecimal with or without 0x, $ or # before it, and decimal. */
#define GROUPED_SIZE 32u
const char *after_hex_mark(const char *text);
bool take_hex(const char *text, unsigned long most, unsigned long *value);
bool take_decimal(const char *text, unsigned long most, unsigned long *value);
/* In decimal, with a comma before each three digits. */
const char *grouped(uint64_t value, char text[GROUPED_SIZE]);

/* range.c: what a view is asked for: a page, or the addresses from first to last. */
struct view_range {
    bool is_range;
    unsigned long page, first, last;
};
/* Answers NULL, or what is wrong with the text. */
const char *take_view_range(const char *text, struct view_range *range);

/* view.c: a page or a range as hex and text, or as it is; rom as above. */
/* `place` is what a refusal is told of. */
enum status print_view_range(FILE *to, const char *place, const char *file, const struct snapshot *opened,
                             const struct view_range *range, const char *rom);
enum status put_view_range(const char *file, const struct snapshot *opened, const struct view_range *range, const char *rom);
/* Bytes that stand at the places from first to last. */
struct span {
    const uint8_t *bytes;
    long first, last;
};
/* Up to sixteen places from `start` on as hex and text; those outside the span are blank, and one may be in brackets. */
#define NO_PLACE (-1L)
void print_columns(FILE *to, const struct span *span, long start, int columns, long marked);

/* find.c: every place of some bytes in the pages of a machine. */
struct sought {
    const uint8_t *bytes;
    size_t length;
    bool is_text;
    /* how to seek what else the word could be, or nothing */
    const char *hint;
};
enum status take_sought(const char *word, bool text, bool hex, struct sought *sought);
void print_places(FILE *to, const struct snapshot *opened, const struct sought *sought);

#define SCREEN_SIZE 6912u
/* screen.c: the picture on a page, as a PNG of so many dots a pixel, or the screen's own bytes where scale is 0. */
enum status save_screen(const char *path, bool force, const uint8_t *page, uint8_t border, unsigned scale);

/* log_file.c: a correction log, and the file that keeps it. */
struct log {
    uint8_t steps[SNAP_LOG_MOST];
    uint64_t standing, total;
};
#define LOG_FILE_MOST (24u + SNAP_LOG_MOST)
/* Takes up the log that is kept in a file. Where there is none, or where it is damaged or does not belong to the machine and
   memory and `strict` is not asked for, the log stays as it is. */
enum status load_log(const char *path, const struct snapshot *opened, bool strict, struct log *log);
/* Whether these bytes are a log, or none at all, which a log may replace. */
enum status check_log(const char *name, const uint8_t *file, size_t length);
/* The file of a log, with a sum of the machine and memory that it belongs to; its length. */
size_t log_bytes(const struct snapshot *opened, const struct log *log, uint8_t file[LOG_FILE_MOST]);
/* The name of the log that is kept beside a file. */
enum status log_beside(const char *file, char name[PATH_ROOM]);
/* A step of the log in words, from old to new, or back. */
void print_step(FILE *to, const struct log *log, uint64_t step, bool back);

/* session.c: an editing session. */
struct edit_words {
    const char *file, *output, *script, *log;
    enum file_kind kind;
    bool format_asked, force, new_log;
};
struct editing {
    struct snapshot opened;
    struct log log;
    const struct edit_words *words;
    struct known_file *known;
    /* the target of the log, as it was at the start */
    char log_target[PATH_ROOM];
    /* corrections, undos and redos since the last save */
    unsigned unsaved;
    bool ended;
};
/* Both places of saving are checked before anything is corrected. */
enum status begin_session(struct editing *session, const struct edit_words *words);
/* Saves at the place that the session has, or under another name, with its log beside it. */
enum status save_session(struct editing *session, const char *name, bool force);

/* words.c: a line taken apart at blanks. A word in double quotes may hold blanks, and \" and \\; a semicolon begins a
   comment. */
#define LINE_WORDS 66
struct line {
    struct word {
        char *text;
        bool quoted;
    } words[LINE_WORDS];
    /* LINE_WORDS + 1 where there are more */
    unsigned count;
};
/* Answers NULL, or what is wrong with the line. */
const char *take_words(char *text, struct line *line);

/* commands.c: one line of a session. `place` is where the line stands, for what is said of it. */
enum status run_line(struct editing *session, const char *place, char *text);
/* The names of the commands in turn; NULL after the last. */
const char *command_name(size_t at);

/* prompt.c, completion.c, history.c: a session at a terminal. */
enum status from_prompt(struct editing *session);
void begin_completion(void);
void load_history(void);
void keep_history(void);

/* edit.c: a session from a prompt, or from a script where it is not NULL. log is NULL or the log's file. */
enum status edit(const struct edit_words *words);

/* options.c: the command line, by the tables in snapshot.c. */
enum option_number {
    NO_OPTION, OPTION_JSON, OPTION_ROM, OPTION_RAW, OPTION_TEXT, OPTION_HEX, OPTION_SCALE, OPTION_PAGE, OPTION_SCR,
    OPTION_OUTPUT, OPTION_FORMAT, OPTION_SCRIPT, OPTION_LOG, OPTION_NEW_LOG, OPTION_FORCE, OPTION_QUIET, OPTION_VERBOSE,
    OPTIONS
};
/* An option's value is NULL where it is not given, and not NULL where it is given and takes none. */
struct words {
    const char *names[2];
    /* all that are given; NULL ends them */
    char *const *all_names;
    const char *options[OPTIONS];
    bool help;
};
struct command {
    const char *name, *names[2];
    /* more names may follow */
    bool many;
    enum option_number options[8];
    enum status (*run)(const struct words *words);
    const char *about;
};
struct option_form {
    const char *flag, *value, *about;
};
extern const struct command command_table[];
extern const size_t command_count;
extern const struct option_form option_table[OPTIONS];
enum status take_options(const struct command *command, int argc, char **argv, struct words *words);
void print_form(FILE *to, const struct command *command);
void print_help(FILE *to, const struct command *command);

#endif
