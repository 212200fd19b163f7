/* sentences.c: every number of the table has a sentence of its own on one line; every other number has the same one. */
#include <assert.h>
#include <string.h>

#include "snapshot.h"

static int named(uint32_t number)
{
    return number <= 14 || (number >= 20 && number <= 32) || (number >= 40 && number <= 43);
}

int main(void)
{
    const char *other = snap_sentence(1000);
    for (uint32_t a = 0; a < 70000; a++) {
        const char *sentence = snap_sentence(a);
        assert((strcmp(sentence, other) != 0) == named(a));
        assert(strlen(sentence) > 5 && strchr(sentence, '\n') == NULL);
        for (uint32_t b = 0; named(a) && b < a; b++)
            assert(strcmp(sentence, snap_sentence(b)) != 0);
    }
    assert(strcmp(snap_sentence(UINT32_MAX), other) == 0);
    return 0;
}
