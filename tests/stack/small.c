/*
 * A stack of 16,384 bytes, painted before each call and looked at after it. A thread of that size would not leave it all to
 * the call, since its thread-local data and its start lie on it too; so the call is made in a context of its own, whose
 * stack is the 16,384 bytes and nothing else. (The four threads of threads.c have 16,384 bytes in all.)
 */
#include "stack.h"
#include <setjmp.h>
#include <signal.h>
#include <stdio.h>
#include <stdlib.h>
#include <string.h>
#include <sys/mman.h>
#include <ucontext.h>

static uint8_t *stack, paint[STACK_SIZE];
static ucontext_t home, there;
static sigjmp_buf rescue;
static void (*fault_elsewhere)(const uint8_t *address);

static struct {
    struct lent_buffers *lent;
    const struct tried_call *call;
    uint32_t number;
    volatile sig_atomic_t is_running;
} task;

/* Memory for a stack, above a part that faults. */
uint8_t *new_stack(size_t size)
{
    uint8_t *memory = mmap(NULL, GUARD_SIZE + size, PROT_READ | PROT_WRITE, MAP_PRIVATE | MAP_ANONYMOUS, -1, 0);
    if (memory == MAP_FAILED || mprotect(memory, GUARD_SIZE, PROT_NONE) != 0) {
        printf("FAIL no memory for a stack\n");
        exit(1);
    }
    return memory + GUARD_SIZE;
}

static void on_fault(int signal, siginfo_t *info, void *context)
{
    const uint8_t *address = info->si_addr;
    (void)signal;
    (void)context;
    if (task.is_running && address >= stack - GUARD_SIZE && address < stack)
        siglongjmp(rescue, 1);
    fault_elsewhere(address);
}

void own_signal_stack(uint8_t *memory, size_t size)
{
    stack_t signals = {.ss_sp = memory, .ss_size = size};
    sigaltstack(&signals, NULL);
}

/* A fault below the small stack is a finding; every other one is told by `elsewhere`, which does not return. */
void catch_faults(void (*elsewhere)(const uint8_t *address))
{
    static uint8_t signals[65536];
    struct sigaction action = {.sa_sigaction = on_fault, .sa_flags = SA_SIGINFO | SA_ONSTACK};
    fault_elsewhere = elsewhere;
    own_signal_stack(signals, sizeof signals);
    sigaction(SIGSEGV, &action, NULL);
    sigaction(SIGBUS, &action, NULL);
    stack = new_stack(STACK_SIZE);
    for (unsigned at = 0; at < STACK_SIZE; at++)
        paint[at] = (uint8_t)(0xA5 + at * 29 + at / 256);
}

static void run_task(void)
{
    task.number = make_call(task.lent, task.call);
}

/* How many bytes from the top of the stack down the call has used, the few of make_call with them. */
size_t call_on_small(struct lent_buffers *lent, const struct tried_call *call, uint32_t *number)
{
    size_t clean = 0;
    memcpy(stack, paint, STACK_SIZE);
    task.lent = lent;
    task.call = call;
    getcontext(&there);
    there.uc_stack.ss_sp = stack;
    there.uc_stack.ss_size = STACK_SIZE;
    there.uc_link = &home;
    makecontext(&there, run_task, 0);
    if (sigsetjmp(rescue, 1) != 0) {
        task.is_running = 0;
        return DIED;
    }
    task.is_running = 1;
    swapcontext(&home, &there);
    task.is_running = 0;
    *number = task.number;
    while (clean < STACK_SIZE && memcmp(stack + clean, paint + clean, 64) == 0)
        clean += 64;
    while (clean < STACK_SIZE && stack[clean] == paint[clean])
        clean++;
    return STACK_SIZE - clean;
}
