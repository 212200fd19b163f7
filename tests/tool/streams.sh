# A - for standard input and standard output.

# as_input STATUS FILE WORDS..: the tool with the file on a pipe to it.
as_input() {
    local expected=$1 file=$2 status=0
    shift 2
    "$tool" "$@" >"$work/out" 2>"$work/err" < <(cat "$file") || status=$?
    [ "$status" -eq "$expected" ] || { echo "$*: exit status $status, not $expected"; cat "$work/err"; return 1; }
}

from_input() {
    local file=samples/museum-128k.z80 words
    for words in 'info' 'info --json' 'view 5' 'view 3' 'view 7FF0..8010' 'find Spectr'; do
        set -- $words
        run_tool 0 "$1" "$file" "${@:2}"
        sed "s|$file|standard input|" "$work/out" >"$work/expected"
        as_input 0 "$file" "$1" - "${@:2}"
        diff "$work/expected" "$work/out"
        [ ! -s "$work/err" ]
    done
    run_tool 0 screen "$file" "$work/file.png"
    as_input 0 "$file" screen - "$work/input.png"
    cmp "$work/file.png" "$work/input.png"
    as_input 0 tests/files/48k-text.z80 write - -o "$work/input.z80"
    run_tool 0 write tests/files/48k-text.z80 -o "$work/file.z80"
    cmp "$work/file.z80" "$work/input.z80"
}
check "- is standard input, in info, view, find, screen and write" from_input

to_output() {
    run_tool 0 screen samples/museum-48k.z80 "$work/file.png"
    run_tool 0 write tests/files/48k-text.z80 -o "$work/file.z80"
    local text=$PWD/tests/files/48k-text.z80 museum=$PWD/samples/museum-48k.z80
    rm -rf "$work/bare"
    mkdir "$work/bare"
    cd "$work/bare"
    run_tool 0 screen "$museum" -
    cmp "$work/file.png" "$work/out"
    as_input 0 "$text" write - -o -
    cmp "$work/file.z80" "$work/out"
    [ ! -s "$work/err" ]
    [ -z "$(ls -A)" ]
}
check "- is standard output, in screen and write" to_output

file_called_dash() {
    local museum=$PWD/samples/museum-128k.z80
    rm -rf "$work/dash"
    mkdir "$work/dash"
    cp samples/museum-48k.z80 "$work/dash/-"
    cd "$work/dash"
    run_tool 0 info --json ./-
    [ "$(jq -r '.file + " " + .machine' "$work/out")" = "./- 48K" ]
    as_input 0 "$museum" info --json -
    [ "$(jq -r '.file + " " + .machine' "$work/out")" = "standard input 128K" ]
    as_input 0 "$museum" screen - -
    [ "$(head -c 4 "$work/out" | tail -c 3)" = PNG ]
}
check "a file called - is ./-" file_called_dash

input_faults() {
    local status=0
    : >"$work/empty"
    as_input 1 "$work/empty" info -
    grep -qF "snapshot: standard input: refused, 2: " "$work/err"
    "$tool" write - -o "$work/never.z80" 2>"$work/err" < <(yes) || status=$?
    [ "$status" -eq 3 ]
    grep -qxF "snapshot: standard input: longer than any file of its kind" "$work/err"
    status=0
    "$tool" info --json - >"$work/out" 2>"$work/err" < <(yes) || status=$?
    [ "$status" -eq 3 ]
    [ "$(cat "$work/out")" = '{"error": "longer than any file of its kind", "file": "standard input"}' ]
    [ ! -s "$work/err" ]
    status=0
    "$tool" view - 5 <"$work" 2>"$work/err" || status=$?
    [ "$status" -eq 3 ]
    grep -qF "snapshot: standard input: cannot be read: Is a directory" "$work/err"
    [ ! -e "$work/never.z80" ]
}
check "standard input without an end, without a byte, or unreadable is told as such" input_faults

output_faults() {
    local words status text=$PWD/tests/files/48k-text.z80
    rm -rf "$work/bare"
    mkdir "$work/bare"
    cd "$work/bare"
    for words in "write $text -o -" "screen $text -" "view $text 5 --raw"; do
        status=0
        "$tool" $words >/dev/full 2>"$work/err" || status=$?
        [ "$status" -eq 3 ]
        grep -qF "standard output: cannot be written: No space left on device" "$work/err"
        status=0
        script -qec "$tool $words" /dev/null >"$work/terminal" </dev/null || status=$?
        [ "$status" -eq 2 ]
        grep -qF "snapshot: standard output: is a terminal" "$work/terminal"
        [ "$(wc -l <"$work/terminal")" -eq 1 ]
    done
    [ -z "$(ls -A)" ]
}
check "bytes go to no terminal, and a full disk is told" output_faults

edit_takes_files() {
    as_input 2 samples/museum-48k.z80 edit - -o "$work/never.z80"
    grep -qF "'snapshot edit' takes files, not '-'" "$work/err"
    [ "$(wc -l <"$work/err")" -eq 1 ]
    local museum=$PWD/samples/museum-48k.z80
    rm -rf "$work/bare"
    mkdir "$work/bare"
    cd "$work/bare"
    as_input 2 <(echo save) edit "$museum" -o -
    [ -z "$(ls -A)" ]
    [ ! -e "$work/never.z80" ]
}
check "edit takes files only" edit_takes_files
