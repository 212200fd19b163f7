# find: every place of a text or of bytes in the pages of a machine, held to grep over the pages.

# places: page and offset of each place that the last run printed.
places() { sed -nE 's/^page ([0-7]) offset ([0-9A-F]{4})  .*$/\1 \2/p' "$work/out"; }

# scripted OUT FILE LINE..: a file with corrections made.
scripted() {
    local out=$1 file=$2
    shift 2
    printf '%s\n' "$@" save >"$work/script"
    run_tool 0 edit "$file" -o "$out" --script "$work/script"
    rm -f "$out.snaplog"
}

# what runs over a border is no place of one page
within() { grep -vE ' 3FF[A-F]$' || true; }
found_texts() {
    local page word at
    for page in 0 1 2 3 4 5 6 7; do "$tool" view tests/files/128k-text.z80 "$page" | bytes_of_dump >"$work/text$page"; done
    for word in the 'cave ' no-such-word; do
        for page in 0 1 2 3 4 5 6 7; do
            { LC_ALL=C grep -obaF -- "$word" "$work/text$page" || true; } |
                while IFS=: read -r at _; do printf '%s %04X\n' "$page" "$at"; done
        done >"$work/expected"
        run_tool 0 find tests/files/128k-text.z80 --text "$word"
        diff <(within <"$work/expected") <(places | within)
    done
    run_tool 0 find tests/files/128k-text.z80 the
    [ "$(wc -l <"$work/out")" -ge 100 ]
}
check "every place of a text, in every page" found_texts

place_lines() {
    patched "$work/five.z80" samples/museum-128k.z80 35 05
    run_tool 0 find "$work/five.z80" 'page 5'
    cat >"$work/expected" <<'LINES'
page 5 offset 0008  at 4008 and C008 70 61 67 65 20 35 20 6F  |page 5 o|
LINES
    diff "$work/expected" "$work/out"
    run_tool 0 find "$work/five.z80" 'This is page 3'
    cat >"$work/expected" <<'LINES'
page 3 offset 0000  not paged in     54 68 69 73 20 69 73 20  |This is |
LINES
    diff "$work/expected" "$work/out"
    # what ends with the memory is shown to its end
    scripted "$work/last.z80" samples/museum-48k.z80 'text FFFD "END"'
    run_tool 0 find "$work/last.z80" END
    cat >"$work/expected" <<'LINES'
page 0 offset 3FFD  at FFFD          45 4E 44                 |END     |
LINES
    diff "$work/expected" "$work/out"
    run_tool 0 find "$work/five.z80" 20537065637472
    grep -qE '^page 2 offset 0019  at 8019 ' "$work/out"
}
check "a place has its page, offset, addresses and the bytes from there on" place_lines

overlapping() {
    scripted "$work/row.z80" samples/museum-48k.z80 'byte 9000 AA' 'byte 9001 AA' 'byte 9002 AA' 'byte 9003 AA'
    run_tool 0 find "$work/row.z80" AAaa
    [ "$(places | paste -s -d ' ')" = "2 1000 2 1001 2 1002" ]
    run_tool 0 find "$work/row.z80" AA
    [ "$(places | wc -l)" -eq 4 ]
}
check "places that overlap are all found" overlapping

# place_at FILE HEX EXPECTED: the one place of these bytes, or none.
place_at() {
    run_tool 0 find "$1" "$2"
    [ "$(cut -c 1-36 "$work/out" | sed 's/^\(not found\): .*/\1/; s/ *$//')" = "$3" ]
}
borders() {
    scripted "$work/b48.z80" samples/museum-48k.z80 'byte 7FFF B1' 'byte 8000 B2' 'byte BFFF B3' 'byte C000 B4' \
        'byte FFFF B5'
    place_at "$work/b48.z80" B1B2 'page 5 offset 3FFF  at 7FFF'
    place_at "$work/b48.z80" B3B4 'page 2 offset 3FFF  at BFFF'
    place_at "$work/b48.z80" B5 'page 0 offset 3FFF  at FFFF'
    # pages 0 and 1 lie side by side in the area, and never in memory
    scripted "$work/b128.z80" samples/museum-128k.z80 'out 00' 'byte FFFF B1' 'out 01' 'byte C000 B2' 'byte BFFF B3'
    place_at "$work/b128.z80" B1B2 'not found'
    place_at "$work/b128.z80" B3B2 'page 2 offset 3FFF  at BFFF'
    scripted "$work/away.z80" "$work/b128.z80" 'out 00'
    place_at "$work/away.z80" B3B2 'not found'
    # page 5 at C000 too: it is followed by page 2 below 8000 only, and follows page 2
    scripted "$work/b5.z80" samples/museum-128k.z80 'out 05' 'byte 7FFF B1' 'byte 8000 B2' 'byte BFFF B3' 'byte 4000 B4'
    place_at "$work/b5.z80" B1B2 'page 5 offset 3FFF  at 7FFF'
    place_at "$work/b5.z80" B1 'page 5 offset 3FFF  at 7FFF and FFFF'
    place_at "$work/b5.z80" B3B4 'page 2 offset 3FFF  at BFFF'
    # three pages in a row
    "$tool" view "$work/b48.z80" 7FFF..C000 --raw | xxd -p | tr -d '\n' >"$work/three"
    place_at "$work/b48.z80" "$(cat "$work/three")" 'page 5 offset 3FFF  at 7FFF'
}
check "places over a border, where the pages lie side by side as paging is now" borders

text_or_hex() {
    local word
    scripted "$work/kinds.z80" samples/museum-48k.z80 'byte 9000 41' 'byte 9001 42' 'byte A000 34' 'byte A001 31' \
        'byte A002 34' 'byte A003 32' 'byte B000 22' 'byte B001 AB' 'byte B002 22'
    place_at "$work/kinds.z80" 4142 'page 2 offset 1000  at 9000'
    place_at "$work/kinds.z80" '"4142"' 'page 2 offset 2000  at A000'
    place_at "$work/kinds.z80" '"4142' 'page 2 offset 2000  at A000'
    place_at "$work/kinds.z80" 414 'page 2 offset 2000  at A000'
    place_at "$work/kinds.z80" AB 'page 2 offset 3001  at B001'
    run_tool 0 find "$work/kinds.z80" -- --hex
    [ "$(cat "$work/out")" = 'not found: text "--hex"' ]
    run_tool 0 find --text "$work/kinds.z80" 4142
    [ "$(places)" = "2 2000" ]
    run_tool 0 find --text "$work/kinds.z80" AB
    [ "$(places)" = "2 1000" ]
    for word in 4142 '41 42' 0x4142 '$4142' '#41 42' '0X4 1 4 2' ' 4142 '; do
        run_tool 0 find --hex "$work/kinds.z80" "$word"
        [ "$(places)" = "2 1000" ]
    done
    run_tool 0 find --text "$work/kinds.z80" $'"\xAB"'
    [ "$(places)" = "2 3000" ]
    run_tool 2 find --hex "$work/kinds.z80" 414
    grep -qF "'414' is not an even number of hex digits" "$work/err"
    for word in 0x '' '41 4' '0x41 0x42' '##4142' '"4142"'; do
        run_tool 2 find --hex "$work/kinds.z80" "$word"
        grep -qF "'$word' is not an even number of hex digits" "$work/err"
    done
    run_tool 2 find --hex --text "$work/kinds.z80" 4142
    grep -qF "'--text' and '--hex'" "$work/err"
    run_tool 2 find "$work/kinds.z80" ''
    grep -qF "'' is nothing to find" "$work/err"
    run_tool 2 find "$work/kinds.z80" '""'
    grep -qF "'\"\"' is nothing to find" "$work/err"
}
check "an even number of hex digits is bytes, all else is text, and two options settle it" text_or_hex

# finds_none LINE WORDS..: the one line, of 80 columns at most, is 'not found: ' and this.
finds_none() {
    local line="not found: $1"
    shift
    run_tool 0 find samples/museum-48k.z80 "$@"
    [ "$(cat "$work/out")" = "$line" ]
    [ ! -s "$work/err" ]
    [ "${#line}" -le 80 ]
}
not_there() {
    finds_none 'text "no such text"' 'no such text'
    # longer than all memory that lies in a row
    finds_none "text \"$(printf 'x%.0s' {1..40})...\"" "$(printf 'x%.0s' {1..50000})"
    finds_none "text \"$(printf 'x%.0s' {1..40})\"" "$(printf 'x%.0s' {1..40})"
    finds_none 'text "a\x0Ab\xFFé"' $'a\nb\xff\xc3\xa9'
    finds_none 'text "\x1B\x1B\x1B\x1B\x1B\x1B\x1B\x1B\x1B\x1B..."' $'\e\e\e\e\e\e\e\e\e\e\e'
    refuses 4 tests/files/plus2.z80 find tests/files/plus2.z80 'no such text'
}
check "what is not there is one line and exit status 0" not_there

other_ways() {
    local bytes='FA CE FA CE FA CE FA CE FA CE FA CE'
    finds_none 'bytes FA CE; --text seeks the text' face
    finds_none 'bytes FA CE' --hex '$FA ce'
    finds_none 'text "FACE"' --text FACE
    finds_none 'text "FACE"' '"FACE"'
    finds_none 'text "46 41"; --hex seeks bytes' '46 41'
    finds_none 'text "0xFACE"; --hex seeks bytes' 0xFACE
    finds_none 'text "#FA C"' '#FA C'
    finds_none "bytes $bytes; --text seeks the text" "${bytes// /}"
    finds_none "bytes $bytes ..; --text seeks the text" "${bytes// /}FA"
    finds_none "bytes $bytes FA CE FA CE" --hex "$bytes FA CE FA CE"
    finds_none "bytes $bytes FA CE FA CE .." --hex "$bytes FA CE FA CE FA"
    finds_none "text \"${bytes}FACE ...\"; --hex seeks bytes" "${bytes}FACE FACE"
}
check "what is not found is named as it was taken, with how to seek it otherwise" other_ways
