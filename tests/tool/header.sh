# The header file, held to itself and to the library; the samples.

# declared: the functions of the library that the header declares; functions: these and what it defines itself.
declared() { sed -nE 's/^uint32_t (snap_[a-z0-9_]+)\(.*/\1/p' include/snapshot.h | sort; }
functions() { sed -nE 's/^(static inline )?(uint32_t |const char \*)(snap_[a-z0-9_]+)\(.*/\3/p' include/snapshot.h | sort; }

header_compiles() {
    echo '#include "snapshot.h"
int main(void)
{
    enum snap_model model = SNAP_48K;
    enum snap_pair pair = SNAP_AF;
    return snap_sentence(SNAP_ACCEPTED)[0] == 0 || model != 0 || pair != 0;
}' >"$work/alone.c"
    gcc -std=c99 -Wall -Wextra -Wpedantic -Werror -Iinclude "$work/alone.c" -o "$work/alone_c"
    g++ -x c++ -std=c++17 -Wall -Wextra -Wpedantic -Werror -Iinclude "$work/alone.c" -o "$work/alone_cpp"
    "$work/alone_c"
    "$work/alone_cpp"
}
check "the header alone is C99 and C++17 without a warning" header_compiles

sentences() {
    gcc "${strict[@]}" "${sanitized[@]}" tests/tool/sentences.c -o "$work/sentences"
    "$work/sentences"
}
check "every number of the table has its own sentence, and no other has one" sentences

header_bytes() {
    gcc "${strict[@]}" "${sanitized[@]}" tests/tool/header_bytes.c "$lib" -o "$work/header_bytes"
    "$work/header_bytes" >"$work/named"
    sed -nE 's/^ *(SNAP_AT_[A-Z0-9_]+) = ([0-9]+).*/\1 \2/p' include/snapshot.h >"$work/in_header"
    diff "$work/in_header" "$work/named"
}
check "each of the 86 header bytes has one name, and takes exactly the values that its comment allows" header_bytes

no_bare_places() {
    local places
    places=$(grep -nE 'header *(\[|\+) *[0-9]' tools/*.c examples/*.[ch] samples/make.c || true)
    [ -z "$places" ] || { echo "$places"; return 1; }
}
check "the tool, the examples and the samples' maker name the header bytes that they use" no_bare_places

promises() {
    gcc "${strict[@]}" "${sanitized[@]}" tests/tool/promises.c "$lib" -o "$work/promises"
    "$work/promises" samples/museum-128k.z80
}
check "a log's steps by name, a stored log handed back, pages not owned and the ROM's length: as the header says" promises

version() {
    local major minor patch text
    echo '#include "snapshot.h"
#include <stdio.h>
int main(void) { printf("%u %s\n", SNAP_VERSION, SNAP_VERSION_TEXT); return 0; }' >"$work/version.c"
    gcc "${strict[@]}" "$work/version.c" -o "$work/version"
    text=$("$work/version" | cut -d ' ' -f 2)
    IFS=. read -r major minor patch <<<"$text"
    [ "$("$work/version")" = "$((10000 * major + 100 * minor + patch)) $text" ]
    [ "$(grep -rlF "$text" Makefile include tools man examples)" = include/snapshot.h ]
}
check "the version is the same as number and as text, and stands in the header alone" version

samples() {
    pasmo samples/border.asm "$work/border.bin"
    gcc "${strict[@]}" "${sanitized[@]}" samples/make.c "$lib" -o "$work/make_sample"
    "$work/make_sample" samples/picture.txt "$work/border.bin" "$work/museum-48k.z80" "$work/museum-128k.z80"
    cmp samples/museum-48k.z80 "$work/museum-48k.z80"
    cmp samples/museum-128k.z80 "$work/museum-128k.z80"
}
check "the samples come out of their sources byte for byte" samples
