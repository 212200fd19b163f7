# check: many files and folders, the summary, the exit status, progress at a terminal, and Ctrl-C.

# a folder of nine snapshots, of which two are refused, and of what is none
make_museum() {
    rm -rf "$work/museum"
    mkdir -p "$work/museum/b games" "$work/museum/.hidden" "$work/museum/c.z80" "$work/museum/empty"
    cp samples/museum-48k.z80 "$work/museum/a.z80"
    head -c 3000 samples/museum-48k.z80 >"$work/museum/a cut.Z80"
    cp samples/museum-128k.z80 "$work/museum/b games/one.z80"
    cp "$work/48.scs" "$work/museum/b games/two.scs"
    cp "$work/48.scs.gz" "$work/museum/b games/two.SCS.gz"
    gzip -c samples/museum-48k.z80 >"$work/museum/b games/three.z80.GZ"
    cp samples/museum-48k.z80 "$work/museum/c.z80/inside.z80"
    head -c 20 samples/museum-48k.z80 >"$work/museum/d.scs"
    ln -s "b games/one.z80" "$work/museum/link.z80"
    # none of these is looked at
    cp samples/museum-48k.z80 "$work/museum/.hidden/a.z80"
    cp samples/museum-48k.z80 "$work/museum/._a.z80"
    cp samples/museum-48k.z80 "$work/museum/a.z80.snaplog"
    cp samples/museum-48k.z80 "$work/museum/z80"
    gzip -c samples/museum-48k.z80 >"$work/museum/notes.gz"
    ln -s .. "$work/museum/b games/up"
    ln -s ../.. "$work/museum/b games/up.z80"
    ln -s . "$work/museum/again"
}
make_museum
museum_lines() {
    cat <<LINES
$1/a cut.Z80: refused, 8: block 3, at byte 646: the file ends inside it
$1/a.z80: good, version 3
$1/b games/one.z80: good, version 3
$1/b games/three.z80.GZ: good, version 3 in gzip
$1/b games/two.SCS.gz: good, SCS in gzip
$1/b games/two.scs: good, SCS
$1/c.z80/inside.z80: good, version 3
$1/d.scs: refused, 2: the file is shorter than its header: it has 20 bytes, at least 30 are due
$1/link.z80: good, version 3
LINES
}

in_folders() {
    local name
    { museum_lines "$work/museum"; echo '9 files: 7 good, 2 refused'; } >"$work/expected"
    for name in "$work/museum" "$work/museum/"; do
        run_tool 1 check "$name"
        diff "$work/expected" "$work/out"
        [ ! -s "$work/err" ]
    done
    run_tool 1 check --quiet "$work/museum"
    grep -v ': good' "$work/expected" | diff - "$work/out"
    # a link that is named is followed, and the folder where the tool stands is .
    { museum_lines "$work/museum/again"; echo '9 files: 7 good, 2 refused'; } >"$work/expected"
    run_tool 1 check "$work/museum/again"
    diff "$work/expected" "$work/out"
    cd "$work/museum"
    { museum_lines .; echo '9 files: 7 good, 2 refused'; } >"$work/expected"
    run_tool 1 check .
    diff "$work/expected" "$work/out"
}
check "check: folders, in the order of their names, and no link to a folder" in_folders

in_json() {
    run_tool 1 check --json "$work/museum"
    fits_json "$work/out" 9
    museum_lines "$work/museum" | sed 's/: .*//' >"$work/expected"
    jq -r .file "$work/out" | diff "$work/expected" -
    museum_lines "$work/museum" | sed -E 's/[^:]*: (refused, [0-9]+: )?//' >"$work/expected"
    jq -r .explanation "$work/out" | diff "$work/expected" -
    [ "$(jq .refused "$work/out" | paste -s -d ' ')" = '8 0 0 0 0 0 0 2 0' ]
    run_tool 1 check --json --quiet "$work/museum"
    fits_json "$work/out" 2
    [ "$(jq -c '[.refused, .offset, .block, .found, .due]' "$work/out" | paste -s -d ' ')" = '[8,646,3,0,0] [2,0,0,20,30]' ]
}
check "check --json: an object a line and nothing else, all of them JSON" in_json

# told STATUS SUMMARY WORDS..: the exit status, and the last line.
told() {
    local status=$1 summary=$2
    shift 2
    run_tool "$status" check "$@"
    [ "$(tail -n 1 "$work/out")" = "$summary" ]
}
summaries() {
    local good=samples/museum-48k.z80 bad=$work/museum/d.scs
    told 0 '2 files: 2 good, 0 refused' "$good" "$good"
    told 1 '2 files: 1 good, 1 refused' "$good" "$bad"
    told 1 '2 files: 0 good, 2 refused' "$bad" "$bad"
    told 3 '2 files: 1 good, 0 refused, 1 not read' "$good" "$work/absent"
    [ "$(cat "$work/err")" = "snapshot: $work/absent: cannot be opened: No such file or directory" ]
    told 1 '3 files: 1 good, 1 refused, 1 not read' "$work/absent" "$good" "$bad"
    told 3 '2 files: 0 good, 0 refused, 2 not read' "$work/absent" "$work/pipe"
    grep -qxF "snapshot: $work/pipe: is a pipe or a device, not a file" "$work/err"
    told 0 '1 file: 1 good, 0 refused' "$work/museum/c.z80"
    # a file that is named is looked at, whatever its name
    told 0 '2 files: 2 good, 0 refused' "$work/museum/z80" "$work/museum/notes.gz"
    if "$tool" check samples >/dev/full 2>"$work/err"; then return 1; else [ $? -eq 3 ]; fi
    [ "$(cat "$work/err")" = "snapshot: standard output: cannot be written: No space left on device" ]
    # one alone has no summary
    run_tool 1 check "$bad"
    [ "$(wc -l <"$work/out")" -eq 1 ]
    run_tool 3 check "$work/absent"
    [ ! -s "$work/out" ]
    run_tool 3 check --json "$work/absent" "$good"
    fits_json "$work/out" 2
    [ "$(jq -r .error "$work/out" | head -n 1)" = "cannot be opened: No such file or directory" ]
    [ ! -s "$work/err" ]
}
check "check: the summary, what cannot be read, and the exit status of each" summaries

wrapped_faults() {
    head -c 1000 "$work/48.scs.gz" >"$work/cut.gz"
    told 3 '2 files: 1 good, 0 refused, 1 not read' "$work/cut.gz" samples/museum-48k.z80
    [ "$(cat "$work/err")" = "snapshot: $work/cut.gz: its gzip wrapper is cut short" ]
    # a .Z80 file that is refused and begins as a wrapper
    patched "$work/like.z80" samples/museum-48k.z80 0 1F8B0800
    head -c 3000 "$work/like.z80" >"$work/cut.z80"
    told 3 '2 files: 1 good, 0 refused, 1 not read' "$work/cut.z80" "$work/like.z80"
    [ "$(cat "$work/err")" = "snapshot: $work/cut.z80: its gzip wrapper is damaged" ]
}
check "check: a broken wrapper is not read" wrapped_faults

# explains_long STATUS SUMMARY: standard input, plain and in gzip, beside a good file.
explains_long() {
    local file
    cat >"$work/long.z80"
    gzip -c "$work/long.z80" >"$work/long.z80.gz"
    for file in "$work/long.z80" "$work/long.z80.gz"; do told "$1" "$2" "$file" samples/museum-48k.z80; done
}
long_files() {
    local body='the body, at byte 30: it has 65,536 bytes or more, 49,152 are due' most=5242880 length
    for length in 524383 600030 $most; do
        { cat "$work/plain1.z80"; head -c $((length - 49182)) /dev/zero; } | explains_long 1 '2 files: 1 good, 1 refused'
        [ ! -s "$work/err" ]
        [ "$(head -n 1 "$work/out")" = "$work/long.z80.gz: refused, 12: unwrapped, $body" ]
        run_tool 1 check "$work/long.z80"
        [ "$(cat "$work/out")" = "$work/long.z80: refused, 12: $body" ]
        run_tool 1 check --json "$work/long.z80"
        [ "$(jq -c '[.refused, .offset, .block, .found, .due]' "$work/out")" = '[12,30,1,65536,49152]' ]
    done
    { cat samples/museum-48k.z80; head -c 600000 /dev/zero; } | explains_long 1 '2 files: 1 good, 1 refused'
    grep -qF ': refused, 9: unwrapped, block 4, at byte 3621: its number is 0' "$work/out"
    head -c $((most + 1)) /dev/zero | explains_long 3 '2 files: 1 good, 0 refused, 1 not read'
    [ "$(cat "$work/err")" = "snapshot: $work/long.z80.gz: unwrapped, it is longer than any file of its kind" ]
    run_tool 3 check "$work/long.z80"
    [ "$(cat "$work/err")" = "snapshot: $work/long.z80: longer than any file of its kind" ]
    rm "$work"/long.z80*
}
check "check: a .Z80 file that is longer than any good one is explained, up to 5,242,880 bytes" long_files

no_snapshots() {
    told 0 '0 files: 0 good, 0 refused' "$work/museum/empty"
    [ "$(cat "$work/err")" = "snapshot: $work/museum/empty: there is no .z80 or .scs file in this folder" ]
    run_tool 0 check --json "$work/museum/empty"
    [ ! -s "$work/out" ]
    told 0 '1 file: 1 good, 0 refused' "$work/museum/empty" samples/museum-48k.z80
}
check "check: a folder without a snapshot is told" no_snapshots

closed_folders() {
    local user status=0
    user=$(mktemp -d)
    chmod 755 "$user"
    cp -r "$tool" "$work/museum" "$user"
    chmod 000 "$user/museum/b games" "$user/museum/a.z80"
    as_nobody "$user/snapshot" check --quiet "$user/museum" >"$work/out" 2>"$work/err" || status=$?
    sed -i "s|$user/||" "$work/err"
    chmod 755 "$user/museum/b games"
    rm -rf "$user"
    [ "$status" -eq 1 ]
    printf 'snapshot: museum/%s: cannot be opened: Permission denied\n' 'b games' a.z80 link.z80 | diff - "$work/err"
    [ "$(tail -n 1 "$work/out")" = '6 files: 1 good, 2 refused, 3 not read' ]
}
check "check: a folder and a file that may not be read, and the rest is checked" closed_folders

# a folder that may be listed but not entered is told once, whatever its names are
listed_folders() {
    local user status=0
    user=$(mktemp -d)
    chmod 755 "$user"
    cp -r "$tool" "$work/museum" "$user"
    chmod 444 "$user/museum/b games"
    as_nobody "$user/snapshot" check --quiet "$user/museum/b games" "$user/museum/c.z80" >"$work/out" 2>"$work/err" || status=$?
    sed -i "s|$user/||" "$work/err"
    chmod 755 "$user/museum/b games"
    rm -rf "$user"
    [ "$status" -eq 3 ]
    [ "$(cat "$work/err")" = 'snapshot: museum/b games: cannot be opened: Permission denied' ]
    [ "$(cat "$work/out")" = '2 files: 1 good, 0 refused, 1 not read' ]
}
check "check: a folder that may not be entered is told once" listed_folders

# a link to nothing is told where its name is a snapshot's
lost_links() {
    local folder=$work/links
    rm -rf "$folder"
    mkdir "$folder"
    ln -s nowhere "$folder/notes"
    ln -s nowhere "$folder/x.z80"
    told 3 '1 file: 0 good, 0 refused, 1 not read' "$folder"
    [ "$(cat "$work/err")" = "snapshot: $folder/x.z80: cannot be opened: No such file or directory" ]
}
check "check: a link to nothing is not read, and none is told whose name is no snapshot's" lost_links

odd_names() {
    local name=$'a\nb\e[31m\xff "q" \\.z80' folder=$work/odd
    rm -rf "$folder"
    mkdir "$folder"
    cp samples/museum-48k.z80 "$folder/$name"
    head -c 40 samples/museum-48k.z80 >"$folder/-rf"
    run_tool 0 check "$folder"
    [ "$(head -n 1 "$work/out")" = "$folder/a\\x0Ab\\x1B[31m\\xFF \"q\" \\.z80: good, version 3" ]
    [ "$(wc -l <"$work/out")" -eq 2 ]
    run_tool 0 check --json "$folder"
    fits_json "$work/out" 1
    [ "$(jq -r .file "$work/out")" = "$folder/"$'a\nb\e[31m\xef\xbf\xbd "q" \\.z80' ]
    cd "$folder"
    run_tool 1 check -- -rf
    [ "$(cat "$work/out")" = "-rf: refused, 2: the file is shorter than its header: it has 40 bytes, at least 86 are due" ]
}
check "check: names with odd characters are shown on one line; in JSON they are whole, but a byte that is no UTF-8 is U+FFFD" odd_names

from_a_pipe() {
    as_input 0 samples/museum-48k.z80 check - "$work/museum/a.z80"
    [ "$(head -n 1 "$work/out")" = "standard input: good, version 3" ]
    [ "$(tail -n 1 "$work/out")" = "2 files: 2 good, 0 refused" ]
    as_input 0 "$work/48.scs.gz" check --json -
    [ "$(jq -c '[.file, .refused]' "$work/out")" = '["standard input",0]' ]
}
check "check: - is standard input" from_a_pipe

verbose_checks() {
    run_tool 1 info --verbose "$work/museum/a cut.Z80"
    sed 1d "$work/err" >"$work/expected"
    run_tool 1 check --verbose --quiet "$work/museum"
    diff "$work/expected" "$work/err"
    [ "$(wc -l <"$work/out")" -eq 3 ]
    run_tool 1 check --verbose --json "$work/museum"
    diff "$work/expected" "$work/err"
    fits_json "$work/out" 9
}
check "check --verbose: the bytes around each place on standard error" verbose_checks

# 1,200 files in twelve folders, each tenth of them damaged
make_archive() {
    local number file
    rm -rf "$work/archive"
    for number in $(seq -w 0 1199); do
        file=$work/archive/${number:0:2}/$number.z80
        mkdir -p "${file%/*}"
        case $number in
        *0) head -c $((86 + 10#$number)) samples/museum-128k.z80 >"$file" ;;
        *) cp samples/museum-48k.z80 "$file" ;;
        esac
    done
}
make_archive
very_many_files() {
    in_little 1 check "$work/archive"
    [ "$(wc -l <"$work/out")" -eq 1201 ]
    [ "$(tail -n 1 "$work/out")" = '1,200 files: 1,080 good, 120 refused' ]
    head -n 1200 "$work/out" | sed -E 's|.*/([0-9]+)\.z80: .*|\1|' | diff <(seq -w 0 1199) -
    in_little 1 check "$work"/archive/*/*.z80 --quiet
    [ "$(wc -l <"$work/out")" -eq 121 ]
    run_tool 1 check --json "$work/archive"
    fits_json "$work/out" 1200
}
check "check: 1,200 files in a little memory and time, each with its line" very_many_files

deep_folders() {
    local folder=$work/deep level
    rm -rf "$folder"
    mkdir "$folder"
    for level in {1..300}; do folder=$folder/d; done
    mkdir -p "$folder"
    cp samples/museum-48k.z80 "$folder/a.z80"
    run_tool 0 check "$work/deep"
    [ "$(cat "$work/out")" = "$folder/a.z80: good, version 3
1 file: 1 good, 0 refused" ]
    rm -rf "$work/deep"
}
# the seventeenth is beyond the longest path that a system call takes
deepest_folders() {
    local folder=$work/deepest name level
    name=$(printf 'd%.0s' {1..250})
    rm -rf "$folder"
    mkdir "$folder"
    cp samples/museum-48k.z80 "$folder"
    (cd "$folder" && for level in {1..17}; do mkdir "$name" && cd "./$name"; done)
    told 3 '2 files: 1 good, 0 refused, 1 not read' "$folder"
    [ "$(sed 's/.*: //' "$work/err")" = 'File name too long' ]
    rm -rf "$folder"
}
check "check: folders in folders, 300 deep" deep_folders
check "check: a folder whose path is too long is told" deepest_folders

# at_terminal WORDS..: check at a terminal with its standard output in $work/out; what the terminal showed is in $terminal.
at_terminal() {
    local status=0
    timeout 200 script -qfec "exec $(printf '%q ' "$tool" "$@") >$work/out" /dev/null >"$terminal" </dev/null || status=$?
    return "$status"
}
progress_line() {
    local status=0 begun=$SECONDS
    at_terminal check "$work/archive" || status=$?
    [ "$status" -eq 1 ]
    [ "$(wc -l <"$work/out")" -eq 1201 ]
    # one line that is written over, at most ten times a second, and is blank at the end
    [ "$(wc -l <"$terminal")" -eq 0 ]
    [ "$(head -c 21 "$terminal")" = $'\r\033[K[0/1200] 0000.z80' ]
    [ "$(tail -c 4 "$terminal")" = $'\r\033[K' ]
    [ "$(grep -aoF $'\033[K[' "$terminal" | wc -l)" -le $((10 * (SECONDS - begun + 1) + 1)) ]
    # a single file has none, nor has standard error that is no terminal
    at_terminal check samples/museum-48k.z80
    [ ! -s "$terminal" ]
    run_tool 1 check "$work/archive"
    [ ! -s "$work/err" ]
}
check "check at a terminal: one line says how far it is, and is gone at the end" progress_line

# both streams on the terminal: a line of the report never stands behind the progress
report_lines() {
    local status=0
    timeout 200 script -qfec "exec $(printf '%q ' "$tool" check "$work/museum" "$work/absent")" /dev/null >"$terminal" </dev/null || status=$?
    [ "$status" -eq 1 ]
    sed -E 's/\r$//; s/.*\x1b\[K//' "$terminal" >"$work/report"
    { museum_lines "$work/museum"; echo "snapshot: $work/absent: cannot be opened: No such file or directory"; echo '10 files: 7 good, 2 refused, 1 not read'; } |
        diff - "$work/report"
}
check "check at a terminal: its lines stand alone" report_lines

# interrupts_after LINES WORDS..: Ctrl-C comes when so many lines are read of a pipe, which holds the tool up; the rest of them is in
# $work/rest.
interrupts_after() {
    local left=$1 id
    shift
    rm -f "$work/slow"
    mkfifo "$work/slow"
    env --default-signal=INT "$tool" "$@" >"$work/slow" 2>"$work/err" &
    id=$!
    {
        for (( ; left > 0; left--)); do IFS= read -r _; done
        kill -INT "$id"
        cat >"$work/rest"
    } <"$work/slow"
    wait "$id"
}
interrupted() {
    local status=0 at
    interrupts_after 3 check "$work"/archive{,,} || status=$?
    # as a program ends that Ctrl-C ends
    [ "$status" -eq 130 ]
    tail -n 1 "$work/rest" | grep -qE '^interrupted after [0-9,]+ of 3,600 files: [0-9,]+ good, [0-9]+ refused$'
    at=$(tail -n 1 "$work/rest" | sed -E 's/interrupted after ([0-9,]+) of .*/\1/; s/,//')
    [ "$at" -lt 3600 ]
    [ "$(wc -l <"$work/rest")" -eq $((at - 3 + 1)) ]
    status=0
    interrupts_after 3 check --json "$work"/archive{,,} || status=$?
    [ "$status" -eq 130 ]
    fits_json "$work/rest" "$(wc -l <"$work/rest")"
}
check "check: Ctrl-C ends it with the summary of what was checked" interrupted

# as in a script, where a command with & has it ignored
not_interrupted() {
    rm -f "$work/slow"
    mkfifo "$work/slow"
    "$tool" check --quiet "$work/archive" >"$work/slow" &
    { kill -INT $!; cat >"$work/rest"; } <"$work/slow"
    wait $! || [ $? -eq 1 ]
    [ "$(tail -n 1 "$work/rest")" = '1,200 files: 1,080 good, 120 refused' ]
}
check "check: where Ctrl-C is to be ignored it is" not_interrupted
rm -rf "$work/archive"
