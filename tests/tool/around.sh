# --verbose: the bytes around the place of a refusal, in rows as view has them, the one at the place in brackets.

# around FILE PLACE FIRST LAST: the rows with these numbers as they are to be shown.
around() {
    local row place=$2
    for row in $(seq "$3" "$4"); do
        xxd -u -g 1 -c 16 -s $((16 * row)) -l 16 "$1" | grep . || echo "00000000:$(printf '%51s' '')"
    done | awk -v first="$3" -v place="$place" '{
        row = first + NR - 1
        line = sprintf("%06X  %s  %s  |%-16s|", 16 * row, substr($0, 11, 23), substr($0, 35, 23), substr($0, 60))
        if (row == int(place / 16)) {
            column = place % 16
            at = 9 + 3 * column + (column >= 8)
            line = substr(line, 1, at - 2) "[" substr(line, at, 2) "]" substr(line, at + 3)
        }
        print line
    }'
}
# shows NUMBER PLACE FIRST LAST: of standard input, which is refused there, these rows are shown.
shows() {
    local ends='' file=$work/around.file
    cat >"$file"
    [ "$2" -lt "$(stat -c %s "$file")" ] || ends=': the file ends before it'
    run_tool 1 info "$file"
    cp "$work/err" "$work/line"
    grep -qF ": refused, $1 at byte $2" "$work/line"
    {
        cat "$work/line"
        printf 'Byte %06X of %s, hexadecimal, in brackets%s\n' "$2" "$file" "$ends"
        around "$file" "$2" "$3" "$4"
    } >"$work/expected"
    run_tool 1 info --verbose "$file"
    diff "$work/expected" "$work/err"
    [ ! -s "$work/out" ]
}

at_the_start() {
    { : | block 3 1; head -c 100 samples/picture.txt; } | scs 1 >"$work/start.scs"
    patched "$work/start2.scs" "$work/start.scs" 16 FFFF
    shows 8 15 0 4 <"$work/start2.scs"
    head -c -1 "$work/plain1.z80" | shows 12 30 0 4
    { head -c 2 samples/picture.txt; printf '\xED\xED\0'; head -c 1000 samples/picture.txt; printf '\0\xED\xED\0'; } | as_v1 | shows 11 32 0 4
    { head -c 18 samples/picture.txt; printf '\xED\xED\0'; head -c 1000 samples/picture.txt; printf '\0\xED\xED\0'; } | as_v1 | shows 11 48 1 5
}
in_the_middle() {
    { zero_page | z80_block 8; { head -c 700 samples/picture.txt; printf '\xED\xED\0'; head -c 700 samples/picture.txt; } | z80_block 4; } |
        as_v3 | shows 11 $((86 + 263 + 3 + 700)) 63 67
    grep -qE '^[0-9A-F]{6} .*\[ED\] ?ED 00 ' "$work/err"
    { zero_page | z80_block 8; zero_page | z80_block 8; zero_page | z80_block 4; } | as_v2 | shows 10 $((55 + 263)) 17 21
}
at_the_end() {
    shows 14 3913 240 244 <samples/picture.txt
    # the place is the first of a row that has no byte
    head -c 3904 samples/picture.txt | shows 14 3904 240 244
    head -c 3905 samples/picture.txt | shows 14 3905 240 244
    { zero_page | z80_block 8; zero_page | z80_block 4; printf '\1\2'; } | as_v3 | shows 8 612 34 38
    { : | block 3; cpu_block; ports_block; printf '\1'; } | scs 1 | shows 8 83 1 5
    # one row behind the place
    { : | block 3; cpu_block; ports_block; printf 'a%.0s' {1..16} | block 1 17; } | scs 1 | shows 8 83 2 6
    # files of fewer rows than are shown
    : | as_v1 | shows 14 30 0 1
    head -c 32 "$work/plain1.z80" | shows 12 30 0 1
    printf 'a%.0s' {1..18} | as_v1 | shows 14 48 0 3
}
every_column() {
    local column
    for column in {0..15}; do
        { head -c $((98 + column)) samples/picture.txt; printf '\xED\xED\0'; head -c 300 samples/picture.txt; printf '\0\xED\xED\0'; } |
            as_v1 | shows 11 $((128 + column)) 6 10
    done
}
check "--verbose shows the bytes around a place near the start of a file" at_the_start
check "--verbose shows the bytes around a place in the middle of a file" in_the_middle
check "--verbose shows what stands before a place at the end of a file" at_the_end
check "--verbose puts the byte at the place in brackets, in whichever column it stands" every_column

verbose_commands() {
    local file words
    head -c 3000 samples/museum-48k.z80 >"$work/cut.z80"
    gzip -c "$work/cut.z80" >"$work/cut.z80.gz"
    for file in "$work/cut.z80" "$work/cut.z80.gz"; do
        run_tool 1 info --verbose "$file"
        mv "$work/err" "$work/expected"
        [ "$(wc -l <"$work/expected")" -eq 7 ]
        for words in "view $file 5" "find $file the" "screen $file $work/never.png" "write $file -o $work/never.z80" "edit $file -o $work/never.z80"; do
            run_tool 1 $words --verbose
            diff "$work/expected" "$work/err"
        done
        as_input 1 "$file" info - --verbose
        sed "s|$file|standard input|" "$work/expected" | diff - "$work/err"
    done
    [ "$(sed -n 2p "$work/expected")" = "Byte 000286 of $file, unwrapped, hexadecimal, in brackets" ]
    [ ! -e "$work/never.png" ]
    [ ! -e "$work/never.z80" ]
}
check "every command that opens a snapshot takes --verbose, in gzip and from standard input too" verbose_commands

verbose_json() {
    run_tool 1 info --verbose "$work/cut.z80"
    sed 1d "$work/err" >"$work/expected"
    run_tool 1 info --json "$work/cut.z80"
    mv "$work/out" "$work/json"
    run_tool 1 info --json --verbose "$work/cut.z80"
    diff "$work/json" "$work/out"
    diff "$work/expected" "$work/err"
}
check "--verbose with --json: the JSON is the same, and the bytes are on standard error" verbose_json

verbose_words() {
    local words file=samples/museum-48k.z80
    for words in "info $file" "info --json $file" "view $file 5" "find $file the" "write $file -o -"; do
        run_tool 0 $words
        mv "$work/out" "$work/expected"
        run_tool 0 $words --verbose
        cmp "$work/expected" "$work/out"
        [ ! -s "$work/err" ]
    done
    # what is no refusal of a file has no bytes
    refuses 30 "$file" view --verbose "$file" 1
    run_tool 3 info --verbose "$work/absent"
    [ "$(wc -l <"$work/err")" -eq 1 ]
    run_tool 2 info "$file" --verbose=1
    [ "$(cat "$work/err")" = "snapshot: '--verbose' takes no value" ]
    run_tool 2 info "$file" --verbose --verbose
    [ "$(cat "$work/err")" = "snapshot: '--verbose' is given twice" ]
    run_tool 0 help
    [ "$(grep -cF '[--verbose]' "$work/out")" -eq 7 ]
    [ "$(grep -cF '.Op Fl -verbose' tools/snapshot.1)" -eq 7 ]
}
check "--verbose changes nothing of a file that is accepted, nor of what has no place" verbose_words
