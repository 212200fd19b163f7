/* Making each call on both stacks, comparing, and what is told at the end. */
#include "stack.h"
#include <stdarg.h>
#include <stdio.h>
#include <string.h>

#define SHOWN 10u /* differences told in full */

struct lent_buffers ordinary;
static struct lent_buffers small;
unsigned passed, failed;
struct trying trying = {"nothing", "no call"};
static unsigned long differences, expectations;

static struct tally {
    unsigned long calls, died;
    uint64_t numbers; /* bit n: the number n was given; 63: one above */
    size_t most;
    const char *where;
} tallies[FUNCTIONS];

/* Every number that each function can give. */
static const uint8_t numbers[FUNCTIONS][20] = {
    {0, 1, 2, 3, 4, 5, 6, 7, 8, 9, 10, 11, 12, 13, 14, 20}, {0, 2, 3, 4, 5, 6, 7, 8, 9, 10, 11, 12, 13, 14}, {0, 20, 21, 22},
    {0, 1, 2, 5, 8, 20, 40, 41, 42, 43}, {0, 20, 21, 22}, {0, 20, 21, 30, 31}, {0},
    {0, 20, 21, 23, 26, 29}, {0, 20, 21, 26, 29, 32}, {0, 20, 21, 24, 25, 26, 29},
    {0, 20, 21, 27, 28, 29}, {0, 20, 21, 27, 28, 29}, {0}, {0, 20}, {0, 20, 32}, {0, 20},
};

/* A difference: the first of each call over a file is told, and the run goes on. */
static void differ(const char *name, const char *call, const char *what)
{
    static const char *last_name, *last_call;
    static unsigned shown;
    differences++;
    if ((name == last_name && call == last_call) || shown == SHOWN)
        return;
    printf("FAIL %s, %s: %s\n", name, call, what);
    shown++;
    last_name = name;
    last_call = call;
}

/* What was changed in `ordinary` by hand is changed for the small stack too. */
void level(void)
{
    memcpy(&small, &ordinary, sizeof small);
}

static void tally_call(const char *name, const struct tried_call *call, size_t used)
{
    struct tally *tally = &tallies[call->function];
    tally->calls++;
    if (used == DIED) {
        tally->died++;
        differ(name, function_names[call->function], "died: it ran past the end of a stack of 16,384 bytes");
    } else if (used > tally->most) {
        tally->most = used;
        tally->where = name;
    }
}

/* What is wrong with the number or the bytes of a call that came back from the small stack; NULL where nothing is. */
static const char *fault_of(uint32_t number, uint32_t again, int is_same)
{
    static char text[80];
    if (again != number) {
        snprintf(text, sizeof text, "gives %u on the small stack, %u on the ordinary one", again, number);
        return text;
    }
    return is_same ? NULL : "leaves other bytes on the small stack than on the ordinary one";
}

void try_call(const char *name, const struct tried_call *call, uint32_t due)
{
    char text[80];
    const char *function = function_names[call->function];
    trying = (struct trying){name, function};
    uint32_t number = make_call(&ordinary, call), again = number;
    size_t used = call_on_small(&small, call, &again);
    int is_same = memcmp(&ordinary, &small, sizeof small) == 0;
    const char *fault = used == DIED ? NULL : fault_of(number, again, is_same);
    tally_call(name, call, used);
    tallies[call->function].numbers |= (uint64_t)1 << (number < 63 ? number : 63);
    if (due < ANY && number != due) {
        snprintf(text, sizeof text, "gives %u, not %u", number, due);
        differ(name, function, text);
    }
    if (fault != NULL)
        differ(name, function, fault);
    if (!is_same)
        level();
}

/* A read: its number and its offset. */
void try_read(const char *name, const struct tried_call *call, struct refused_at due)
{
    try_call(name, call, due.number);
    expect_holds(name, "the offset is another", ordinary.place == due.offset);
}

/* The file of a read: its number, its offset, and figures that go with them. */
void try_explain(const char *name, struct tried_call call, struct refused_at due)
{
    call.function = EXPLAIN;
    try_call(name, &call, due.number);
    expect_holds(name, "what is explained does not go with the number",
                 is_explained(due, ordinary.explained, call.file, call.file_len));
}

void expect_holds(const char *name, const char *what, int holds)
{
    expectations++;
    if (!holds)
        differ(name, "after the call", what);
}

/* One line of what is counted at the end. */
void close_check(int holds, const char *format, ...)
{
    va_list words;
    va_start(words, format);
    printf(holds ? "ok  " : "FAIL ");
    vprintf(format, words);
    printf("\n");
    va_end(words);
    *(holds ? &passed : &failed) += 1;
}

static uint64_t all_numbers(enum function function)
{
    uint64_t all = 1;
    for (unsigned at = 1; numbers[function][at] != 0; at++)
        all |= (uint64_t)1 << numbers[function][at];
    return all;
}

/* The two lines of a function. From the first the shell takes its name. */
static void report_function(enum function function)
{
    const struct tally *tally = &tallies[function];
    const char *name = function_names[function], *where = tally->calls > 0 ? tally->where : "none";
    if (tally->died > 0)
        close_check(0, "%s died in %lu of %lu calls", name, tally->died, tally->calls);
    else
        close_check(tally->calls > 0 && tally->most <= SNAP_STACK_MOST,
                    "%s %zu bytes of stack at most, of %u (%lu calls; %s)", name, tally->most, SNAP_STACK_MOST,
                    tally->calls, where);
    close_check(tally->numbers == all_numbers(function), "%s gave each of its numbers and no other", name);
}

void report_calls(void)
{
    struct tried_call nothing = {.function = FUNCTIONS};
    uint32_t number = 0;
    unsigned long calls = 0;
    size_t most = 0;
    printf("the way to a call takes %zu bytes, which each figure holds\n", call_on_small(&small, &nothing, &number));
    for (unsigned function = 0; function < FUNCTIONS; function++) {
        report_function((enum function)function);
        calls += tallies[function].calls;
        if (tallies[function].most > most)
            most = tallies[function].most;
    }
    printf("the most of all: %zu bytes\n", most);
    close_check(differences == 0, "%lu calls and %lu looks at what they left: %lu differ", calls, expectations,
                differences);
}
