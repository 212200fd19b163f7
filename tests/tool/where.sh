# The place of a refusal: the byte and the block in the line and in JSON, and with --verbose the bytes around it.

# z80_block NUMBER [LENGTH]: standard input as a block, of another length where it says so. zero_page: zeros as a packed page.
z80_block() {
    cat >"$work/data"
    le32 "${2:-$(stat -c %s "$work/data")}" | head -c 2
    printf "\\x$(printf %02x "$1")"
    cat "$work/data"
}
zero_page() {
    printf '\xED\xED\xFF\0%.0s' {1..64}
    printf '\xED\xED\x40\0'
}
# as_v1, as_v2, as_v3: a header of a 48K machine before standard input; in version 1 it says that the memory is packed.
as_v1() { head -c 30 "$work/version1.head"; cat; }
as_v2() { head -c 55 "$work/version2.head"; cat; }
as_v3() { head -c 86 samples/museum-48k.z80; cat; }
as_version_1 "$work/plain1.z80" samples/museum-48k.z80
patched "$work/version1.head" "$work/plain1.z80" 12 22
as_version_2 "$work/version2.head" samples/museum-48k.z80 00

# told_at PLACE NUMBER OFFSET BLOCK: what the tool has just said is of this refusal, and PLACE stands in its line.
told_at() {
    [ "$(sed -E 's/^(snapshot: [^:]*: refused, [^:]*): .*/\1/' "$work/err")" = "snapshot: $name: refused, $2$1" ]
    [ "$(wc -l <"$work/err")" -eq 1 ]
    [ ! -s "$work/out" ]
}
# told_in_json UNWRAPPED NUMBER OFFSET BLOCK: the same as JSON.
told_in_json() {
    [ "$(jq -c '[.unwrapped, .refused, .offset, .block]' "$work/out")" = "[$1,$2,$3,$4]" ]
    [ ! -s "$work/err" ]
}
# refused_at NUMBER OFFSET BLOCK [LINE]: standard input is a file that is refused there, plain and in gzip, as a file and on a
# pipe. With 'body' its lines name no block.
refused_at() {
    local in_block=" (block $3)" file=$work/at.file name length
    [ "${4:-}" != body ] || in_block=''
    cat >"$file"
    length=$(stat -c %s "$file")
    gzip -c "$file" >"$file.gz"
    name=$file; run_tool 1 info "$name"
    told_at " at byte $2$in_block" "$@"
    run_tool 1 info --json "$name"
    told_in_json null "$@"
    name=$file.gz; run_tool 1 info "$name"
    told_at " at byte $2 of the unwrapped file$in_block" "$@"
    run_tool 1 info --json "$name"
    told_in_json "$length" "$@"
    name='standard input'; as_input 1 "$file" info -
    told_at " at byte $2$in_block" "$@"
    as_input 1 "$file.gz" info -
    told_at " at byte $2 of the unwrapped file$in_block" "$@"
}

# a zero page is 263 bytes with its head; the blocks of a 48K are 8, 4 and 5
first_block() {
    local version start
    for version in 2 3; do
        start=$((version == 2 ? 55 : 86))
        printf '\1' | as_v$version | refused_at 8 $start 1
        printf '\0\0' | as_v$version | refused_at 8 $start 1
        printf 'abc' | z80_block 8 4 | as_v$version | refused_at 8 $start 1
        head -c 16383 /dev/zero | z80_block 8 65535 | as_v$version | refused_at 8 $start 1
        zero_page | z80_block 7 | as_v$version | refused_at 9 $start 1
        printf '\xED\xED\0\0' | z80_block 8 | as_v$version | refused_at 11 $((start + 3)) 1
        zero_page | head -c 259 | z80_block 8 | as_v$version | refused_at 11 $((start + 3 + 256)) 1
        zero_page | tail -c +5 | z80_block 8 | as_v$version | refused_at 12 $start 1
        : | z80_block 8 | as_v$version | refused_at 12 $start 1
    done
}
last_block() {
    local version start two
    { zero_page | z80_block 4; head -c 16384 /dev/zero | z80_block 8 65535; } >"$work/two"
    two=$(stat -c %s "$work/two")
    [ "$two" -eq $((263 + 16387)) ]
    for version in 2 3; do
        start=$((version == 2 ? 55 : 86))
        { cat "$work/two"; zero_page | head -c 200 | z80_block 5 260; } | as_v$version | refused_at 8 $((start + two)) 3
        { cat "$work/two"; zero_page | z80_block 5; printf '\0\1'; } | as_v$version | refused_at 8 $((start + two + 263)) 4
        { cat "$work/two"; zero_page | z80_block 3; } | as_v$version | refused_at 9 $((start + two)) 3
        { cat "$work/two"; zero_page | z80_block 4; } | as_v$version | refused_at 10 $((start + two)) 3
        { cat "$work/two"; { printf 'a\xED'; zero_page; printf '\xED\xED'; } | z80_block 5; } | as_v$version |
            refused_at 11 $((start + two + 3 + 2 + 260)) 3
        { cat "$work/two"; { zero_page; echo; } | z80_block 5; } | as_v$version | refused_at 12 $((start + two)) 3
    done
}
check "the place of 8, 9, 11 and 12 in the first block of version 2 and 3, in gzip and on standard input too" first_block
check "the place of 8, 9, 10, 11 and 12 in the last block, and behind it" last_block

version_1_places() {
    local end='\0\xED\xED\0'
    { printf 'ab\xED\xED\0c'; printf "$end"; } | as_v1 | refused_at 11 32 1 body
    { zero_page; zero_page; printf '\xED\xED\1'; printf "$end"; } | as_v1 | refused_at 11 550 1 body
    { zero_page; printf "$end"; } | as_v1 | refused_at 12 30 1 body
    printf "$end" | as_v1 | refused_at 12 30 1 body
    head -c -1 "$work/plain1.z80" | refused_at 12 30 1 body
    head -c 30 "$work/plain1.z80" | refused_at 12 30 1 body
    { zero_page; zero_page; zero_page; } | as_v1 | refused_at 14 810 1 body
    : | as_v1 | refused_at 14 30 1 body
}
check "the place of 11, 12 and 14 in version 1, which has no blocks" version_1_places

scs_places() {
    printf '\3\0\0\0' | scs 1 | refused_at 8 15 1
    printf abc | block 3 4 | scs 2 | refused_at 8 15 1
    { : | block 3; cpu_block; ports_block; printf '\1'; } | scs 1 | refused_at 8 83 4
    # what is skipped is a block too
    { : | block 3; printf air | block 33; : | block 255; ports_block; printf air | block 77 4; } | scs 1 | refused_at 8 57 5
    { : | block 3; : | block 3; } | scs 1 | refused_at 42 20 2
    { : | block 3; cpu_block; echo | block 9; cpu_block; } | scs 1 | refused_at 42 65 4
}
check "the place of 8 and 42 in an SCS file, whose skipped blocks count" scs_places

# 2,621,440 bytes of them
very_many_blocks() {
    local again
    : | block 32 >"$work/skipped"
    for again in {1..19}; do
        cat "$work/skipped" "$work/skipped" >"$work/twice"
        mv "$work/twice" "$work/skipped"
    done
    { : | block 3; cat "$work/skipped"; : | block 3; } | scs 1 >"$work/many.scs"
    in_little 1 info "$work/many.scs"
    grep -qF ": refused, 42 at byte $((20 + 5 * 524288)) (block 524290): " "$work/err"
    rm "$work/skipped" "$work/many.scs"
}
check "a block after half a million others is counted at once" very_many_blocks

# placeless NUMBER: standard input is a file that is refused without a place, also where --verbose asks for it.
placeless() {
    cat >"$work/placeless"
    refuses "$1" "$work/placeless" info --verbose "$work/placeless"
    run_tool 1 info --verbose --json "$work/placeless"
    told_in_json null "$1" 0 0
}
placeless_numbers() {
    local word
    head -c 85 samples/museum-48k.z80 | placeless 2
    for word in '30 38 3' '34 09 4' '29 03 5' '57 04 6' '60 01 7'; do
        set -- $word
        patched "$work/header.z80" samples/museum-48k.z80 "$1" "$2"
        placeless "$3" <"$work/header.z80"
    done
    zero_page | z80_block 8 | as_v3 | placeless 13
    : | as_v2 | placeless 13
    : | scs 5 | placeless 40
    : | block 3 | scs 1 | placeless 41
    : | scs 1 | placeless 43
    { : | block 3; cpu_block; ports_block; } | scs 1 >"$work/whole.scs"
    patched "$work/mode3.scs" "$work/whole.scs" 51 FF
    placeless 5 <"$work/mode3.scs"
}
check "every other number of a file has no place, and its line names none" placeless_numbers
