# Files in gzip: what is unwrapped, what is wrong with a wrapper, and wrappers that would unpack to more than any file.

# unwraps_not SENTENCE FILE: every command says this of the file and makes nothing; standard input and JSON too.
unwraps_not() {
    local words
    for words in "info $2" "view $2 5" "find $2 the" "screen $2 $work/never.png" "write $2 -o $work/never.z80" "edit $2 -o $work/never.z80"; do
        run_tool 3 $words
        [ "$(cat "$work/err")" = "snapshot: $2: $1" ]
        [ ! -s "$work/out" ]
    done
    [ ! -e "$work/never.png" ]
    [ ! -e "$work/never.z80" ]
    as_input 3 "$2" info -
    [ "$(cat "$work/err")" = "snapshot: standard input: $1" ]
    run_tool 3 info --json "$2"
    [ "$(jq -r .error "$work/out")" = "$1" ]
    [ ! -s "$work/err" ]
}

cut_wrappers() {
    local size at count=0
    size=$(stat -c %s "$work/48.scs.gz")
    # in its head, in its data, in its sum and length
    for at in 4 9 10 11 18 25 1000 $((size / 2)) $((size - 9)) $((size - 8)) $((size - 4)) $((size - 1)); do
        head -c "$at" "$work/48.scs.gz" >"$work/cut.gz"
        unwraps_not "its gzip wrapper is cut short" "$work/cut.gz"
        count=$((count + 1))
    done
    [ "$count" -eq 12 ]
    # what is too short for a wrapper is too short for any file
    head -c 3 "$work/48.scs.gz" >"$work/cut.gz"
    refuses 2 "$work/cut.gz" info "$work/cut.gz"
}
check "a wrapper that is cut short, wherever it is cut" cut_wrappers

damaged_wrappers() {
    local size words
    size=$(stat -c %s "$work/48.scs.gz")
    # the sum, the length, the data, and after the head and the name, 48.scs and a zero, a kind of data that there is not
    [ "$(head -c 17 "$work/48.scs.gz" | tail -c 7 | tr '\0' .)" = 48.scs. ]
    for words in "$((size - 8)) 00000000" "$((size - 4)) 00000000" "$((size / 2)) FFFFFFFFFFFFFFFF" "17 07"; do
        patched "$work/damaged.gz" "$work/48.scs.gz" $words
        if cmp "$work/damaged.gz" "$work/48.scs.gz"; then return 1; fi
        unwraps_not "its gzip wrapper is damaged" "$work/damaged.gz"
    done
}
check "a wrapper whose sum, length or data are wrong" damaged_wrappers

no_wrappers() {
    local words
    # another method, and flags that gzip does not have: no gzip, and no .Z80 file that is accepted
    for words in '2 00' '3 20' '3 80'; do
        patched "$work/none.gz" "$work/48.scs.gz" $words
        run_tool 1 info "$work/none.gz"
        grep -qE '^snapshot: .*/none.gz: refused, (3|4|5|(11|12|14) at byte [0-9]+): ' "$work/err"
    done
}
check "what begins with 1F 8B and is no gzip is taken as a .Z80 file" no_wrappers

followed_wrappers() {
    local file
    { cat "$work/48.scs.gz"; echo notes; } >"$work/followed.gz"
    unwraps_not "something else follows its gzip wrapper" "$work/followed.gz"
    { cat "$work/48.scs.gz"; printf '\0\0\1'; } >"$work/followed.gz"
    unwraps_not "something else follows its gzip wrapper" "$work/followed.gz"
    { cat "$work/48.scs.gz"; head -c 30 "$work/48.scs.gz"; } >"$work/followed.gz"
    unwraps_not "its gzip wrapper is cut short" "$work/followed.gz"
    # padding, and parts that are joined
    { cat "$work/48.scs.gz"; head -c 1000 /dev/zero; } >"$work/padded.gz"
    { head -c 20000 "$work/48.scs" | gzip; tail -c +20001 "$work/48.scs" | gzip -1; : | gzip; } >"$work/parts.gz"
    for file in "$work/padded.gz" "$work/parts.gz"; do
        run_tool 0 info "$file"
        [ "$(sed -n 2p "$work/out")" = "Format     SCS in gzip, $(stat -c %s "$file") bytes, $(stat -c %s "$work/48.scs") unwrapped" ]
        run_tool 0 write "$file" -o -
        cmp "$work/from48.z80" "$work/out"
    done
}
check "what follows a wrapper is told, but for zeros and a second part" followed_wrappers

wrapped_z80() {
    local file size count=0
    for file in samples/museum-48k.z80 tests/files/128k-noise.z80; do
        gzip -c "$file" >"$work/wrapped.z80.gz"
        run_tool 0 info "$file"
        size=$(stat -c %s "$work/wrapped.z80.gz")
        sed -E "1s|$file|$work/wrapped.z80.gz|; 2s/3, ([0-9]+) bytes/3 in gzip, $size bytes, \1 unwrapped/" "$work/out" >"$work/expected"
        run_tool 0 info "$work/wrapped.z80.gz"
        diff "$work/expected" "$work/out"
        count=$((count + 1))
    done
    [ "$count" -eq 2 ]
    # what is neither format has the refusal that it would have without
    head -c 10 samples/picture.txt | gzip >"$work/text.gz"
    refuses 2 "$work/text.gz" info "$work/text.gz"
    : | gzip >"$work/nothing.gz"
    refuses 2 "$work/nothing.gz" info "$work/nothing.gz"
}
check "a .Z80 file in gzip is read as one, and what is neither is refused as it is" wrapped_z80

two_wrappers() {
    local file sentence="in its gzip wrapper there is another"
    # of either format, of what is cut, and of more than any file holds
    { head -c 100000000 /dev/zero | gzip; head -c 600000 /dev/urandom; } >"$work/long.inner"
    head -c 20 "$work/48.scs.gz" >"$work/cut.inner"
    gzip -c samples/museum-48k.z80 >"$work/z80.inner"
    cp "$work/48.scs.gz" "$work/scs.inner"
    for file in "$work"/*.inner; do
        gzip -c "$file" >"$work/two.gz"
        unwraps_not "$sentence" "$work/two.gz"
    done
    rm "$work"/*.inner
}
check "a wrapper in a wrapper is told" two_wrappers

# A 1F, F 8B and BC as gzip's method and flags; the second also unpacks to a byte before it goes wrong
like_wrapper() {
    local more
    for more in '' '10 000100FEFF41 16 07'; do
        patched "$work/like.z80" samples/museum-48k.z80 0 1F8B0800 $more
        run_tool 0 info "$work/like.z80"
        [ "$(sed -n 2p "$work/out")" = "Format     version 3, 3621 bytes" ]
        grep -qF 'AF  1F8B   BC  0008' "$work/out"
        run_tool 0 write "$work/like.z80" -o "$work/like.z80"
    done
    head -c 3000 "$work/like.z80" >"$work/cut.z80"
    unwraps_not "its gzip wrapper is damaged" "$work/cut.z80"
    gzip -c "$work/like.z80" >"$work/like.z80.gz"
    run_tool 0 info "$work/like.z80.gz"
    grep -qF 'AF  1F8B   BC  0008' "$work/out"
}
check "a .Z80 file whose registers look like a wrapper is still one" like_wrapper

# in_little STATUS WORDS..: as run_tool, with 64 MB of memory and 5 seconds at most; without the sanitizers, which take more.
in_little() {
    local expected=$1 status=0
    shift
    (ulimit -v 65536 -t 5; target/snapshot "$@") >"$work/out" 2>"$work/err" </dev/null || status=$?
    [ "$status" -eq "$expected" ]
}
bombs() {
    local part file sentence='unwrapped, it is longer than any file of its kind'
    head -c 100000000 /dev/zero | gzip >"$work/bomb.gz"
    { printf 'SamSnap!ASCD\0\x62\1\3\xff\xff\xff\xff'; head -c 100000000 /dev/zero; } | gzip >"$work/bomb.scs"
    # a part a hundred times
    head -c 1000000 /dev/zero | gzip >"$work/part.gz"
    for part in {1..100}; do cat "$work/part.gz"; done >"$work/parts.gz"
    for file in bomb.gz parts.gz; do
        unwraps_not "$sentence" "$work/$file"
        in_little 3 info "$work/$file"
        grep -qxF "snapshot: $work/$file: $sentence" "$work/err"
    done
    sentence='unwrapped, it is longer than 5,242,880 bytes, the most that is read of an SCS file'
    unwraps_not "$sentence" "$work/bomb.scs"
    in_little 3 info "$work/bomb.scs"
    grep -qxF "snapshot: $work/bomb.scs: $sentence" "$work/err"
}
check "100 MB in a wrapper are told at once, in little memory" bombs

# as long as an input may be: one half is 131,072 parts of 20 bytes with nothing in them, the other zeros
many_parts() {
    local file=$work/many.gz again
    : | gzip -n >"$file"
    for again in {1..17}; do
        cat "$file" "$file" >"$work/twice.gz"
        mv "$work/twice.gz" "$file"
    done
    truncate -s 5242880 "$file"
    in_little 1 info "$file"
    [ "$(cat "$work/err")" = "snapshot: $file: refused, 2: the file is shorter than its header" ]
    # the same with something behind the zeros
    printf x | dd of="$file" bs=1 seek=5242879 conv=notrunc status=none
    in_little 3 info "$file"
    [ "$(cat "$work/err")" = "snapshot: $file: something else follows its gzip wrapper" ]
    rm "$file"
}
check "a wrapper of very many parts, and padding behind it, is read at once" many_parts

# padded_to LENGTH: the 48K file with a block that is skipped, so that it is that long.
padded_to() { head -c -1 "$work/48.scs"; head -c $(($1 - $(stat -c %s "$work/48.scs") + 1 - 5)) /dev/zero | block 32; }
longest_inputs() {
    local most=5242880 long='longer than 5,242,880 bytes, the most that is read of an SCS file'
    padded_to $most >"$work/most.scs"
    [ "$(stat -c %s "$work/most.scs")" -eq $most ]
    run_tool 0 info "$work/most.scs"
    [ "$(sed -n 2p "$work/out")" = "Format     SCS, $most bytes" ]
    gzip -c "$work/most.scs" >"$work/most.scs.gz"
    run_tool 0 write "$work/most.scs.gz" -o -
    cmp "$work/from48.z80" "$work/out"
    padded_to $((most + 1)) >"$work/most.scs"
    unwraps_not "$long" "$work/most.scs"
    gzip -c "$work/most.scs" >"$work/most.scs.gz"
    unwraps_not "unwrapped, it is $long" "$work/most.scs.gz"
    head -c 524382 /dev/zero | gzip >"$work/longest.gz"
    refuses 3 "$work/longest.gz" info "$work/longest.gz"
    head -c 524383 /dev/zero | gzip >"$work/longest.gz"
    unwraps_not "unwrapped, it is longer than any file of its kind" "$work/longest.gz"
    # a wrapper that is itself too long for an input, whatever is inside
    { cat "$work/48.scs.gz"; head -c 5242880 /dev/zero; } >"$work/longest.gz"
    unwraps_not "longer than 5,242,880 bytes, the most that is read of a file in gzip" "$work/longest.gz"
    truncate -s 5242880 "$work/longest.gz"
    run_tool 0 info "$work/longest.gz"
    rm "$work"/most.scs* "$work"/bomb* "$work/longest.gz"
}
check "an SCS file of 5,242,880 bytes is read, plain and in gzip, and a longer one is told" longest_inputs
