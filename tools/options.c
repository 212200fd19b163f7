/* options.c: the words of a command line taken apart by the tables of commands and options. What is wrong is told by name. */
#define _POSIX_C_SOURCE 200809L
#include <getopt.h>
#include <string.h>

#include "tool.h"

/* getopt's numbers for options lie above every letter. */
#define ABOVE_LETTERS 256
#define FORM_COLUMNS 80u

/* An option as it is written; the output's short form is the one that is shown. */
static const char *flag_of(enum option_number option)
{
    return option == OPTION_OUTPUT ? "-o" : option_table[option].flag;
}

static enum option_number option_of(int got)
{
    return got == 'o' ? OPTION_OUTPUT : (enum option_number)(got - ABOVE_LETTERS);
}

static bool knows(const struct command *command, enum option_number option)
{
    unsigned at = 0;
    while (command->options[at] != NO_OPTION && command->options[at] != option)
        at++;
    return command->options[at] == option;
}

/* The table as getopt takes it. */
static void make_forms(struct option forms[OPTIONS + 1])
{
    memset(forms, 0, (OPTIONS + 1) * sizeof forms[0]);
    forms[0] = (struct option){"help", no_argument, NULL, 'h'};
    for (int option = 1; option < OPTIONS; option++)
        forms[option] = (struct option){option_table[option].flag + 2,
                                        option_table[option].value != NULL ? required_argument : no_argument, NULL,
                                        ABOVE_LETTERS + option};
}

/* The word that getopt stopped at: the one before, or the one of several letters that it is in. */
static const char *word_at_fault(char **argv)
{
    const char *word = argv[optind];
    bool inside = optopt != 0 && word != NULL && word[0] == '-' && word[1] != '-' && strchr(word + 1, optopt) != NULL;
    return inside ? word : argv[optind - 1];
}

/* Every option is one of some command. */
static const struct command *first_that_knows(enum option_number option)
{
    const struct command *command = command_table;
    while (!knows(command, option))
        command++;
    return command;
}

static enum status not_taken(const struct command *command, enum option_number option)
{
    return misused("'snapshot %s' does not take '%s'; 'snapshot %s' does", command->name, flag_of(option),
                   first_that_knows(option)->name);
}

static enum status value_missing(const struct command *command, enum option_number option)
{
    if (!knows(command, option))
        return not_taken(command, option);
    return misused("'%s' needs a value: %s %s", flag_of(option), flag_of(option), option_table[option].value);
}

/* An option that is unknown, or that has a value and takes none. */
static enum status wrong_option(const struct command *command, char **argv)
{
    if (optopt > ABOVE_LETTERS)
        return misused("'%s' takes no value", flag_of(option_of(optopt)));
    return misused("'snapshot %s' does not know '%s'; see 'snapshot %s --help'", command->name, word_at_fault(argv),
                   command->name);
}

static enum status take_option(const struct command *command, enum option_number option, struct words *words)
{
    if (!knows(command, option))
        return not_taken(command, option);
    if (words->options[option] != NULL)
        return misused("'%s' is given twice", flag_of(option));
    words->options[option] = optarg != NULL ? optarg : "";
    return ACCEPTED;
}

static enum status take_names(const struct command *command, char **names, struct words *words)
{
    unsigned count = 0;
    words->all_names = names;
    for (; count < 2 && command->names[count] != NULL; count++) {
        words->names[count] = names[count];
        if (names[count] == NULL)
            return misused("'snapshot %s' needs %s; see 'snapshot %s --help'", command->name, command->names[count],
                           command->name);
    }
    if (names[count] != NULL && !command->many)
        return misused("'%s' is one name too many for 'snapshot %s'; see 'snapshot %s --help'", names[count], command->name,
                       command->name);
    if (knows(command, OPTION_OUTPUT) && words->options[OPTION_OUTPUT] == NULL)
        return misused("'snapshot %s' needs -o OUT; see 'snapshot %s --help'", command->name, command->name);
    return ACCEPTED;
}

enum status take_options(const struct command *command, int argc, char **argv, struct words *words)
{
    struct option forms[OPTIONS + 1];
    int got;
    make_forms(forms);
    opterr = 0;
    while ((got = getopt_long(argc, argv, ":ho:", forms, NULL)) != -1) {
        enum status status;
        if (got == 'h') {
            words->help = true;
            return ACCEPTED;
        }
        if (got == ':')
            status = value_missing(command, option_of(optopt));
        else if (got == '?')
            status = wrong_option(command, argv);
        else
            status = take_option(command, option_of(got), words);
        if (status != ACCEPTED)
            return status;
    }
    return take_names(command, argv + optind, words);
}

/* An option with its value as the forms have them. */
static void option_text(enum option_number option, char text[FORM_COLUMNS])
{
    const char *value = option_table[option].value;
    snprintf(text, FORM_COLUMNS, "%s%s%s", flag_of(option), value != NULL ? " " : "", value != NULL ? value : "");
}

/* What does not fit into a line goes on in the next. */
void print_form(FILE *to, const struct command *command)
{
    size_t column = (size_t)fprintf(to, "snapshot %s", command->name);
    for (unsigned at = 0; at < 2 && command->names[at] != NULL; at++)
        column += (size_t)fprintf(to, " %s%s", command->names[at], command->many ? ".." : "");
    for (unsigned at = 0; command->options[at] != NO_OPTION; at++) {
        bool needed = command->options[at] == OPTION_OUTPUT;
        char text[FORM_COLUMNS];
        option_text(command->options[at], text);
        if (column + 3 + strlen(text) > FORM_COLUMNS)
            column = (size_t)fprintf(to, "\n       ") - 1;
        column += (size_t)fprintf(to, needed ? " %s" : " [%s]", text);
    }
    fprintf(to, "\n    %s\n", command->about);
}

void print_help(FILE *to, const struct command *command)
{
    print_form(to, command);
    for (unsigned at = 0; command->options[at] != NO_OPTION; at++) {
        char text[FORM_COLUMNS];
        option_text(command->options[at], text);
        fprintf(to, "    %s\n        %s\n", text, option_table[command->options[at]].about);
    }
}
