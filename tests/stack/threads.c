/*
 * Calls on different buffers in four threads at once. Each thread's calls are first made one after another, and what every
 * one of them left is kept as a sum; then all four run, each on a stack of 16,384 bytes in all, and every sum must be the
 * same. The files to read are lent to all of them.
 */
#include "stack.h"
#include <errno.h>
#include <pthread.h>
#include <stdio.h>
#include <stdlib.h>
#include <string.h>
#include <unistd.h>

#define THREADS 4u
#define CALLS 100000u

static struct worker {
    struct lent_buffers lent;
    unsigned number;
    uint64_t sums[CALLS];
    unsigned long wrong, calls[FUNCTIONS];
    uint8_t *stack, signals[65536];
    volatile enum function running;
} workers[THREADS];
static pthread_barrier_t start;

static uint64_t add(uint64_t sum, const void *from, size_t length)
{
    const uint8_t *bytes = from;
    uint64_t word;
    for (; length >= 8; bytes += 8, length -= 8) {
        memcpy(&word, bytes, 8);
        sum = (sum ^ word) * 0x9E3779B97F4A7C15u;
        sum ^= sum >> 29;
    }
    for (; length > 0; length--)
        sum = (sum ^ *bytes++) * 0x9E3779B97F4A7C15u;
    return sum;
}

/* Which call comes next: reads and writes are rarer, since they are longer. */
static struct tried_call pick(const struct lent_buffers *lent, uint64_t *seed)
{
    static const enum function often[19] = {BYTE, BYTE, BYTE, PAIR, PAIR, PAIR,    OUT,   OUT,        UNDO, UNDO,
                                            UNDO, REDO, REDO, VIEW, VIEW, VERSION, MODEL, PAIR_VALUE, PLACE};
    static const enum function seldom[6] = {START, START, READ, EXPLAIN, WRITE, SCS_WRITE};
    uint64_t word = next(seed);
    enum function function = word % 20 < 19 ? often[word % 20] : seldom[word / 20 % 6];
    const struct file *file = &files[(word >> 8) % file_count];
    if (function == READ)
        function = file->reader;
    struct tried_call call = usual(function, lent);
    call.file = file->bytes;
    call.file_len = file->length;
    call.place = (uint16_t)(function == BYTE || function == PLACE ? word >> 16 : (word >> 16) % 13);
    call.value = (uint16_t)(word >> 32);
    if (word >> 48 & 1)
        call.out_len = (size_t)(word >> 49) % SNAP_FILE_MOST;
    return call;
}

/* What a call left. The area and the output are long, and looked at after reads and writes and at every 64th call. */
static uint64_t sum_of(const struct lent_buffers *lent, const struct tried_call *call, uint32_t number, unsigned at)
{
    uint64_t sum = add(number, lent->header, sizeof lent->header);
    sum = add(sum, lent->log, call->log_len);
    sum = add(sum, &lent->standing, sizeof lent->standing);
    sum = add(sum, &lent->total, sizeof lent->total);
    sum = add(sum, &lent->length, sizeof lent->length);
    sum = add(sum, &lent->start, sizeof lent->start);
    sum = add(sum, &lent->place, sizeof lent->place);
    sum = add(sum, &lent->figures, sizeof lent->figures);
    sum = add(sum, &lent->explained, sizeof lent->explained);
    if (call->function == READ || call->function == SCS_READ || at % 64 == 0)
        sum = add(sum, lent->area, sizeof lent->area);
    if (call->function == WRITE || call->function == SCS_WRITE)
        sum = add(sum, lent->out, sizeof lent->out);
    return sum;
}

/* All calls of one thread: their sums are kept, or compared with those kept before. */
static void run_calls(struct worker *worker, int is_kept)
{
    uint64_t seed = worker->number;
    memset(&worker->lent, 0, sizeof worker->lent);
    for (unsigned at = 0; at < CALLS; at++) {
        struct tried_call call = pick(&worker->lent, &seed);
        worker->running = call.function;
        uint64_t sum = sum_of(&worker->lent, &call, make_call(&worker->lent, &call), at);
        if (is_kept)
            worker->sums[at] = sum;
        else if (worker->sums[at] != sum)
            worker->wrong++;
        worker->calls[call.function] += !is_kept;
    }
}

static void *work(void *given)
{
    struct worker *worker = given;
    own_signal_stack(worker->signals, sizeof worker->signals);
    pthread_barrier_wait(&start);
    run_calls(worker, 0);
    return NULL;
}

/* A thread with 16,384 bytes of stack in all, or the least that this machine takes for a thread; how many they are. */
static size_t start_worker(struct worker *worker, pthread_t *thread)
{
    for (size_t size = STACK_SIZE; size < GUARD_SIZE; size += 4096) {
        pthread_attr_t attributes;
        pthread_attr_init(&attributes);
        worker->stack = new_stack(size);
        int refusal = pthread_attr_setstack(&attributes, worker->stack, size);
        if (refusal == 0)
            refusal = pthread_create(thread, &attributes, work, worker);
        if (refusal == 0)
            return size;
        if (refusal != EINVAL)
            break;
    }
    printf("FAIL no thread can be started\n");
    exit(1);
}

/* For a fault that is not on the stack of call_on_small: says in which call, and ends the program with its closing line. */
void tell_fault(const uint8_t *address)
{
    char text[400];
    const char *name = trying.name, *function = trying.function, *what = "a fault outside every stack";
    for (unsigned at = 0; at < THREADS; at++) {
        const uint8_t *stack = workers[at].stack;
        if (stack == NULL || address < stack - GUARD_SIZE || address >= stack)
            continue;
        name = "in a thread";
        function = function_names[workers[at].running];
        what = "died: it ran past the end of the thread's stack";
    }
    snprintf(text, sizeof text, "FAIL %s, %s: %s\n%u passed, %u failed\n", name, function, what, passed, failed + 1);
    ssize_t written = write(STDOUT_FILENO, text, strlen(text));
    _exit(written < 0 ? 2 : 1);
}

void try_threads(void)
{
    pthread_t threads[THREADS];
    size_t size = 0;
    unsigned rarest = 0;
    for (unsigned at = 0; at < THREADS; at++) {
        workers[at].number = at + 1;
        run_calls(&workers[at], 1);
    }
    trying = (struct trying){"in four threads", "any call"};
    pthread_barrier_init(&start, NULL, THREADS);
    for (unsigned at = 0; at < THREADS; at++)
        size = start_worker(&workers[at], &threads[at]);
    for (unsigned at = 0; at < THREADS; at++)
        pthread_join(threads[at], NULL);
    for (unsigned at = 0; at < THREADS; at++) {
        for (unsigned function = 0; function < FUNCTIONS; function++)
            if (workers[at].calls[function] < workers[at].calls[rarest])
                rarest = function;
        close_check(workers[at].wrong == 0 && workers[at].calls[rarest] > 0,
                    "thread %u of %u at once, stack of %zu bytes: %u calls, %lu not as one after another (rarest: %s, %lu)",
                    at + 1, THREADS, size, CALLS, workers[at].wrong, function_names[rarest], workers[at].calls[rarest]);
    }
}
