/*
 * stack FILE..: every exported call on a stack of 16,384 bytes, over stored and made files; how much of it each used; and
 * calls in four threads at once. The last line is 'K passed, F failed'.
 */
#include "stack.h"
#include <stdio.h>

int main(int count, char **words)
{
    setvbuf(stdout, NULL, _IOLBF, 0);
    if (count < 2) {
        printf("stack FILE..\n");
        return 2;
    }
    catch_faults(tell_fault);
    for (int at = 1; at < count; at++)
        try_stored(words[at]);
    try_made();
    try_scs();
    try_log("the longest log", SNAP_LOG_MOST);
    try_log("a log that is longer than any", SNAP_LOG_MOST + SNAP_LOG_STEP);
    report_calls();
    try_threads();
    printf("%u passed, %u failed\n", passed, failed);
    return failed != 0;
}
