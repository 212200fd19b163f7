# check: the sentence of each number with its figures, the same as JSON, and what it says of a good file.

command -v python3 >/dev/null || need /usr/bin/python3 python3 || exit 1

# explains NUMBER OFFSET BLOCK FOUND DUE SENTENCE [HINT]: standard input is refused so, plain and in gzip; its line and its JSON.
# All these JSON lines are gathered in $work/explained.json.
: >"$work/explained.json"
explains() {
    local file=$work/explained.file length
    cat >"$file"
    length=$(stat -c %s "$file")
    gzip -1 -c "$file" >"$file.gz"
    explains_file "$file" '' null "$@"
    # info tells the same
    run_tool 1 info --json "$file"
    diff "$work/json" "$work/out"
    explains_file "$file.gz" 'unwrapped, ' "$length" "$@"
}
# explains_file FILE BEFORE UNWRAPPED NUMBER ..
explains_file() {
    local file=$1 explanation=$2$9 unwrapped=$3
    shift 3
    explanation=$explanation${7:+ ($7)}
    run_tool 1 check "$file"
    [ ! -s "$work/err" ]
    [ "$(cat "$work/out")" = "$file: refused, $1: $explanation" ]
    run_tool 1 check --json "$file"
    [ ! -s "$work/err" ]
    cp "$work/out" "$work/json"
    cat "$work/json" >>"$work/explained.json"
    jq -r '"\(.refused) \(.offset) \(.block) \(.found) \(.due) \(.unwrapped)", .explanation, .hint // "", .file' "$work/json" |
        diff <(printf '%s\n' "$1 $2 $3 $4 $5 $unwrapped" "$explanation" "${7:-}" "$file") -
}
# fits_json FILE COUNT: so many lines, each an object with all its parts, by a parser that is not jq.
fits_json() {
    python3 - "$@" <<'PYTHON'
import json, sys
lines = open(sys.argv[1], encoding="utf-8").read().splitlines()
assert len(lines) == int(sys.argv[2]), len(lines)
for line in lines:
    told = json.loads(line)
    if set(told) == {"error", "file"}:
        continue
    assert set(told) - {"hint"} == {"refused", "offset", "block", "found", "due", "unwrapped", "sentence", "explanation", "file"}, told
    assert all(type(told[key]) is int for key in ("refused", "offset", "block", "found", "due")), told
PYTHON
}

of_header() {
    local length
    head -c 1 "$work/plain1.z80" | explains 2 0 0 1 30 'the file is shorter than its header: it has 1 byte, at least 30 are due'
    for length in 0 2 29; do
        head -c $length "$work/plain1.z80" |
            explains 2 0 0 $length 30 "the file is shorter than its header: it has $length bytes, at least 30 are due"
    done
    for length in 30 31; do
        head -c $length samples/museum-48k.z80 |
            explains 2 0 0 $length 32 "the file is shorter than its header: it has $length bytes, at least 32 are due"
    done
    for length in 32 54; do
        head -c $length "$work/version2.head" |
            explains 2 0 0 $length 55 "the file is shorter than its header: it has $length bytes, at least 55 are due"
    done
    for length in 32 85; do
        head -c $length samples/museum-48k.z80 |
            explains 2 0 0 $length 86 "the file is shorter than its header: it has $length bytes, at least 86 are due"
    done
    patched "$work/header.z80" samples/museum-48k.z80 30 3930
    explains 3 0 0 0 0 'the header is neither version 2 nor version 3' 'the word at 30 is 12345; it is 23 in version 2 and 54 in version 3' <"$work/header.z80"
    patched "$work/header.z80" samples/museum-48k.z80 34 09
    explains 4 0 0 0 0 'the file is of a machine other than a 48K or 128K' 'mode 9, Pentagon' <"$work/header.z80"
    patched "$work/header.z80" samples/museum-48k.z80 29 03
    explains 5 0 0 0 0 'the interrupt mode is 3' <"$work/header.z80"
    patched "$work/header.z80" samples/museum-48k.z80 60 01
    explains 7 0 0 0 0 'header byte 60 is not 0' <"$work/header.z80"
}
check "check: the sentences of 2, 3, 4, 5 and 7, plain, in gzip and as JSON" of_header

# counters FILE LOW: the largest that the low one may be
counters() {
    local low bytes
    for low in $(($2 + 1)) 20000 65535; do
        bytes=$(printf '%02X%02X' $((low % 256)) $((low / 256)))
        patched "$work/header.z80" "$1" 55 "$bytes"
        explains 6 0 0 $low "$2" "the low T state counter is $(printf "%d,%03d" $((low / 1000)) $((low % 1000))), its largest is $(printf "%d,%03d" $(($2 / 1000)) $(($2 % 1000)))" <"$work/header.z80"
        # low before high
        patched "$work/both.z80" "$work/header.z80" 57 FF
        run_tool 1 check --json "$work/both.z80"
        [ "$(jq -c '[.found, .due]' "$work/out")" = "[$low,$2]" ]
    done
    patched "$work/header.z80" "$1" 57 04
    explains 6 0 0 4 3 'the high T state counter is 4, its largest is 3' <"$work/header.z80"
    patched "$work/header.z80" "$1" 57 FF
    explains 6 0 0 255 3 'the high T state counter is 255, its largest is 3' <"$work/header.z80"
}
of_counters() {
    counters samples/museum-48k.z80 17471
    counters samples/museum-128k.z80 17726
}
check "check: the sentence of 6 tells which counter, low before high, and its largest" of_counters

of_blocks() {
    local version start second
    for version in 2 3; do
        start=$((version == 2 ? 55 : 86)) second=$((start + 263))
        { zero_page | z80_block 8; printf '\1\2'; } | as_v$version | explains 8 $second 2 0 0 "block 2, at byte $second: the file ends inside it"
        printf '\0' | as_v$version | explains 8 $start 1 0 0 "block 1, at byte $start: the file ends inside it"
        { zero_page | z80_block 8; printf abc | z80_block 4 4; } | as_v$version | explains 8 $second 2 0 0 "block 2, at byte $second: the file ends inside it"
        zero_page | z80_block 11 | as_v$version | explains 9 $start 1 0 0 "block 1, at byte $start: its number is 11, which this machine does not have"
        { zero_page | z80_block 8; : | z80_block 0; } | as_v$version | explains 9 $second 2 0 0 "block 2, at byte $second: its number is 0, which this machine does not have"
        { zero_page | z80_block 8; zero_page | z80_block 8; } | as_v$version | explains 10 $second 2 0 0 "block 2, at byte $second: its number is 8, which an earlier block has"
        { zero_page | z80_block 8; printf 'ab\xED\xED\0c' | z80_block 4; } | as_v$version |
            explains 11 $((second + 5)) 2 0 0 "block 2, at byte $((second + 5)): packed data are malformed there"
    done
}
check "check: the sentences of 8, 9, 10 and 11" of_blocks

# long_data COUNT: packed data that come to 255 times COUNT bytes.
long_data() { printf '\xED\xED\xFF\0%.0s' $(seq "$1"); }
of_lengths() {
    local version start
    for version in 2 3; do
        start=$((version == 2 ? 55 : 86))
        : | z80_block 8 | as_v$version | explains 12 $start 1 0 16384 "block 1, at byte $start: it unpacks to 0 bytes, 16,384 are due"
        printf a | z80_block 8 | as_v$version | explains 12 $start 1 1 16384 "block 1, at byte $start: it unpacks to 1 byte, 16,384 are due"
        { zero_page; printf 'sixsix'; } | z80_block 8 | as_v$version | explains 12 $start 1 16390 16384 "block 1, at byte $start: it unpacks to 16,390 bytes, 16,384 are due"
        { zero_page | z80_block 8; zero_page | tail -c +5 | z80_block 4; } | as_v$version |
            explains 12 $((start + 263)) 2 16129 16384 "block 2, at byte $((start + 263)): it unpacks to 16,129 bytes, 16,384 are due"
        # 65,535 and 65,536 are the last two that are counted
        long_data 257 | z80_block 8 | as_v$version | explains 12 $start 1 65535 16384 "block 1, at byte $start: it unpacks to 65,535 bytes, 16,384 are due"
        { long_data 257; echo; } | z80_block 8 | as_v$version | explains 12 $start 1 65536 16384 "block 1, at byte $start: it unpacks to 65,536 bytes or more, 16,384 are due"
        long_data 16383 | z80_block 8 | as_v$version | explains 12 $start 1 65536 16384 "block 1, at byte $start: it unpacks to 65,536 bytes or more, 16,384 are due"
    done
}
check "check: the sentence of 12 has both lengths, counted up to 65,536" of_lengths

of_missing() {
    local version block
    for version in 2 3; do
        : | as_v$version | explains 13 0 0 0 3 '0 of 3 blocks are there'
        zero_page | z80_block 5 | as_v$version | explains 13 0 0 1 3 '1 of 3 blocks is there'
        { zero_page | z80_block 5; zero_page | z80_block 8; } | as_v$version | explains 13 0 0 2 3 '2 of 3 blocks are there'
    done
    { head -c 86 samples/museum-128k.z80; for block in 4 5 6 7 8 9 10; do zero_page | z80_block $block; done; } | explains 13 0 0 7 8 '7 of 8 blocks are there'
    zero_page | z80_block 8 | as_v3 >"$work/header.z80"
    patched "$work/sixteen.z80" "$work/header.z80" 37 80
    explains 13 0 0 1 3 '1 of 3 blocks is there' 'the file says 16K, which has no memory from 8000 upwards; it is read as a 48K' <"$work/sixteen.z80"
}
check "check: the sentence of 13 says how many blocks are there and how many are due" of_missing

of_body() {
    local end='\0\xED\xED\0'
    patched "$work/header.z80" "$work/plain1.z80" 12 12
    explains 4 0 0 0 0 'the file is of a machine other than a 48K or 128K' 'SamRom is switched in: a SamRam' <"$work/header.z80"
    patched "$work/header.z80" "$work/plain1.z80" 29 03
    explains 5 0 0 0 0 'the interrupt mode is 3' <"$work/header.z80"
    { printf 'ab\xED\xED\0c'; printf "$end"; } | as_v1 | explains 11 32 1 0 0 'the body, at byte 32: packed data are malformed there'
    { zero_page; printf "$end"; } | as_v1 | explains 12 30 1 16384 49152 'the body, at byte 30: it unpacks to 16,384 bytes, 49,152 are due'
    { long_data 30000; printf "$end"; } | as_v1 | explains 12 30 1 65536 49152 'the body, at byte 30: it unpacks to 65,536 bytes or more, 49,152 are due'
    head -c 30 "$work/plain1.z80" | explains 12 30 1 0 49152 'the body, at byte 30: it has 0 bytes, 49,152 are due'
    head -c 31 "$work/plain1.z80" | explains 12 30 1 1 49152 'the body, at byte 30: it has 1 byte, 49,152 are due'
    head -c -1 "$work/plain1.z80" | explains 12 30 1 49151 49152 'the body, at byte 30: it has 49,151 bytes, 49,152 are due'
    { cat "$work/plain1.z80"; head -c 16384 /dev/zero; } | explains 12 30 1 65536 49152 'the body, at byte 30: it has 65,536 bytes or more, 49,152 are due'
    { cat "$work/plain1.z80"; head -c 100000 /dev/zero; } | explains 12 30 1 65536 49152 'the body, at byte 30: it has 65,536 bytes or more, 49,152 are due'
    zero_page | as_v1 | explains 14 290 1 0 0 'the body, at byte 290: the file ends without its end marker'
}
check "check: the sentences of a version 1 file speak of its body" of_body

of_scs() {
    head -c 14 "$work/48.scs" | explains 2 0 0 0 0 'the file is shorter than its header'
    : | scs 0 | explains 40 0 0 0 0 'the file is no SCS file of a 48K or 128K Spectrum' 'hardware number 0, the Sam itself'
    : | scs 1 | explains 43 0 0 0 0 'the first block is not the Memory block' 'the file ends after its header'
    head -c 19 "$work/48.scs" | explains 8 15 1 0 0 'block 1, at byte 15: a block is cut short' 'its number is 3, Memory, and its head is cut'
    { : | block 3; cpu_block; echo | block 9; cpu_block; } | scs 1 |
        explains 42 65 4 0 0 'block 4, at byte 65: the CPU, Ports or Memory block comes twice' 'its number is 1, CPU'
    : | block 3 | scs 1 | explains 41 0 0 0 0 'the CPU block or the Ports block is missing' 'there is neither'
    explains 5 0 0 0 0 'the interrupt mode is 3' <"$work/mode3.scs"
}
check "check: the sentences of an SCS file" of_scs

all_explained() {
    head -c 20 samples/museum-48k.z80 >"$work/short.z80"
    as_input 1 "$work/short.z80" check -
    [ "$(cat "$work/out")" = "standard input: refused, 2: the file is shorter than its header: it has 20 bytes, at least 30 are due" ]
    gzip -c "$work/short.z80" >"$work/short.z80.gz"
    as_input 1 "$work/short.z80.gz" check -
    [ "$(cat "$work/out")" = "standard input: refused, 2: unwrapped, the file is shorter than its header: it has 20 bytes, at least 30 are due" ]
    fits_json "$work/explained.json" "$(wc -l <"$work/explained.json")"
    [ "$(wc -l <"$work/explained.json")" -ge 140 ]
    [ "$(jq .refused "$work/explained.json" | sort -n | uniq | paste -s -d ' ')" = '2 3 4 5 6 7 8 9 10 11 12 13 14 40 41 42 43' ]
}
check "check: the sentence of standard input; every number of a file was explained, in lines of JSON" all_explained

good_lines() {
    local file said
    as_version_2 "$work/good2.z80" samples/museum-48k.z80 00
    gzip -c samples/museum-128k.z80 >"$work/good3.z80.gz"
    while IFS='|' read -r file said; do
        run_tool 0 check "$file"
        [ "$(cat "$work/out")" = "$file: good, $said" ]
        [ ! -s "$work/err" ]
        run_tool 0 check --json "$file"
        fits_json "$work/out" 1
        [ "$(jq -c '[.refused, .offset, .block, .found, .due, .sentence, .explanation]' "$work/out")" = "[0,0,0,0,0,\"accepted\",\"good, $said\"]" ]
        run_tool 0 check --quiet "$file"
        [ ! -s "$work/out" ]
        run_tool 0 check --quiet --json "$file"
        [ ! -s "$work/out" ]
    done <<GOOD
$work/plain1.z80|version 1
$work/good2.z80|version 2
samples/museum-48k.z80|version 3
$work/good3.z80.gz|version 3 in gzip
$work/48.scs|SCS
$work/48.scs.gz|SCS in gzip
GOOD
}
check "check: a good file is one short line, with --quiet none, and as JSON all 0" good_lines
