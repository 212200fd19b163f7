# Places: what is never replaced, or only by --force; what is said at the start; long names, owners, a new log.

# keeps STATUS FILE SENTENCE WORDS..: refused with this sentence about the file, which stays as it is.
keeps() {
    local status=$1 file=$2 sentence=$3
    shift 3
    rm -f "$work/before"
    cp "$file" "$work/before"
    run_tool "$status" "$@"
    grep -qF "snapshot: $file: $sentence" "$work/err"
    cmp "$file" "$work/before"
}

over_input() {
    rm -rf "$work/over"
    mkdir "$work/over"
    local file=$work/over/in.z80 name
    cp samples/museum-48k.z80 "$file"
    ln "$file" "$work/over/hard.z80"
    ln -s in.z80 "$work/over/soft.z80"
    for name in in hard soft; do
        keeps 2 "$work/over/$name.z80" "is the snapshot itself" screen "$file" "$work/over/$name.z80"
    done
    run_tool 0 screen --force "$file" "$work/over/hard.z80"
    run_tool 0 screen "$file" "$work/over/hard.z80"
    cmp samples/museum-48k.z80 "$file"
}
check "a picture does not go over its own snapshot, through links either" over_input

other_kinds() {
    local file
    echo "notes of a curator" >"$work/notes"
    : >"$work/nothing"
    rm -f "$work/k.z80"*
    edits "$work/k.z80" 'byte 9000 01'
    keeps 3 "$work/notes" "is there and is no snapshot" write samples/museum-48k.z80 -o "$work/notes"
    keeps 3 "$work/k.z80.snaplog" "is there and is no snapshot" write samples/museum-48k.z80 -o "$work/k.z80.snaplog"
    keeps 3 "$work/notes" "is there and is no PNG" screen samples/museum-48k.z80 "$work/notes"
    keeps 3 "$work/k.z80" "is there and is no PNG" screen samples/museum-48k.z80 "$work/k.z80"
    lines 'save'
    for file in "$work/notes" "$work/script"; do
        keeps 3 "$file" "is there and is no snapshot" edit samples/museum-48k.z80 -o "$file" --script "$work/script"
    done
    run_tool 0 write samples/museum-48k.z80 -o "$work/nothing"
    run_tool 0 write --force samples/museum-48k.z80 -o "$work/notes"
    cmp samples/museum-48k.z80 "$work/notes"
    run_tool 0 screen --force samples/museum-48k.z80 "$work/notes"
    run_tool 0 screen samples/museum-128k.z80 "$work/notes"
    run_tool 0 edit --force samples/museum-48k.z80 -o "$work/notes" --script "$work/script"
    cmp samples/museum-48k.z80 "$work/notes"
}
check "a file of another kind is replaced only by --force" other_kinds

never_replaced() {
    local words edited="samples/museum-48k.z80 --script $work/script"
    echo "notes of a curator" >"$work/g.z80.snaplog"
    lines 'byte 9000 01' 'save --force'
    keeps 3 "$work/g.z80.snaplog" "is not a correction log" \
        edit --force samples/museum-48k.z80 -o "$work/g.z80" --script "$work/script"
    [ ! -e "$work/g.z80" ]
    mkdir -p "$work/folder"
    [ -p "$work/pipe" ] || mkfifo "$work/pipe"
    for words in "write samples/museum-48k.z80 -o" "screen samples/museum-48k.z80" "edit $edited -o"; do
        says "is a directory" "$work/folder" $words "$work/folder" --force
        says "is a pipe or a device, not a file" "$work/pipe" $words "$work/pipe" --force
    done
    [ -p "$work/pipe" ]
}
check "--force replaces no directory, no pipe, and nothing but a log by a log" never_replaced

read_only() {
    rm -rf "$work/ro"
    mkdir "$work/ro"
    cp samples/museum-128k.z80 "$work/ro/out.z80"
    "$tool" screen samples/museum-128k.z80 "$work/ro/out.png"
    chmod 444 "$work/ro/"*
    lines 'save'
    keeps 3 "$work/ro/out.z80" "may not be written" write samples/museum-48k.z80 -o "$work/ro/out.z80"
    keeps 3 "$work/ro/out.z80" "may not be written" edit samples/museum-48k.z80 -o "$work/ro/out.z80" --script "$work/script"
    keeps 3 "$work/ro/out.png" "may not be written" screen samples/museum-48k.z80 "$work/ro/out.png"
    run_tool 0 write --force samples/museum-48k.z80 -o "$work/ro/out.z80"
    cmp samples/museum-48k.z80 "$work/ro/out.z80"
    [ "$(stat -c %a "$work/ro/out.z80")" = 444 ]
    edits "$work/ro/log.z80" 'byte 9000 01'
    chmod 444 "$work/ro/log.z80.snaplog"
    lines 'undo' 'save'
    keeps 3 "$work/ro/log.z80.snaplog" "may not be written" \
        edit "$work/ro/log.z80" -o "$work/ro/log.z80" --script "$work/script"
}
check "a file that its permissions protect is replaced only by --force, by root too" read_only

# at_start STATUS SENTENCE WORDS..: edit says this before its first line, which would print, and makes nothing.
at_start() {
    local status=$1 sentence=$2
    shift 2
    lines 'list' 'byte 9000 01' 'save'
    run_tool "$status" edit samples/museum-48k.z80 --script "$work/script" "$@"
    grep -qF -- "$sentence" "$work/err"
    [ ! -s "$work/out" ]
    [ ! -e "$work/early.z80" ]
}
no_place_at_start() {
    at_start 3 "$work/absent/o.z80: cannot be written: No such file" -o "$work/absent/o.z80"
    at_start 3 "$work/notes/o.z80: cannot be written: Not a directory" -o "$work/notes/o.z80"
    at_start 3 "the name is empty" -o ""
    at_start 3 "the name of a directory" -o "$work/absent/"
    ln -sf nowhere "$work/dangling"
    at_start 3 "$work/dangling: cannot be written: it is a link that leads to nothing" -o "$work/dangling"
}
no_log_at_start() {
    at_start 3 "$work/absent/l.log: cannot be written: No such file" -o "$work/early.z80" --log "$work/absent/l.log"
    ln -sf nowhere "$work/dangling"
    at_start 3 "$work/dangling: cannot be written: it is a link" -o "$work/early.z80" --log "$work/dangling"
    at_start 2 "-o and --log name the same file" -o "$work/early.z80" --log "$work/early.z80"
    at_start 2 "-o and --log name the same file" -o "$work/early.z80" --log "$work/./folder/../early.z80"
    at_start 2 "is the snapshot itself, and the log would go there" -o "$work/early.z80" --log samples/museum-48k.z80
    lines 'byte 9000 01' "save $work/late.log"
    run_tool 2 edit samples/museum-48k.z80 -o "$work/early.z80" --log "$work/late.log" --script "$work/script"
    [ ! -e "$work/late.log" ]
}
told_once() {
    local name
    mkdir -p "$work/folder"
    for name in "$work/absent/x.z80" "$work/folder" '""'; do
        lines "save $name"
        run_tool 3 edit samples/museum-48k.z80 -o "$work/never.z80" --log "$work/once.log" --script "$work/script"
        [ "$(wc -l <"$work/err")" -eq 1 ]
    done
}
check "a place for the output that cannot be written is told at the start" no_place_at_start
check "a name that cannot be saved under is told once, where --log is given too" told_once
check "a place for the log that cannot be written is told at the start, and nothing is saved" no_log_at_start

# the folder of another user
no_folder_at_start() {
    local status=0
    work_user=$(mktemp -d)
    chmod 755 "$work_user"
    cp "$tool" samples/museum-48k.z80 "$work_user"
    mkdir -m 555 "$work_user/closed"
    printf 'list\nbyte 9000 01\nsave\n' >"$work_user/script"
    as_nobody "$work_user/snapshot" edit "$work_user/museum-48k.z80" -o "$work_user/closed/o.z80" \
        --script "$work_user/script" >"$work/out" 2>"$work/err" || status=$?
    as_nobody "$work_user/snapshot" write "$work_user/museum-48k.z80" -o "$work_user/closed/o.z80" 2>"$work/written" || true
    rm -rf "$work_user"
    [ "$status" -eq 3 ]
    [ "$(cat "$work/err")" = "snapshot: $work_user/closed/o.z80: cannot be written: its folder: Permission denied" ]
    [ ! -s "$work/out" ]
    [ "$(cat "$work/written")" = "$(cat "$work/err")" ]
}
check "a folder that may not be written is told at the start" no_folder_at_start

long_names() {
    local name one two length folder=$work/names
    rm -rf "$folder"
    mkdir "$folder"
    for length in 247 248 249 255; do
        name=$(printf "%${length}s" | tr ' ' n)
        run_tool 0 write samples/museum-48k.z80 -o "$folder/$name"
        rm "$folder/$name"
        edits "$folder/$name" 'byte 9000 01'
        lines 'undo' 'save'
        run_tool 0 edit "$folder/$name" -o "$folder/$name" --script "$work/script"
        cmp samples/museum-48k.z80 "$folder/$name"
    done
    one=$(printf '\xe2\x82\xac%.0s' {1..84})a.z two=${one%z}y
    edits "$folder/$one" 'byte 9000 01'
    edits "$folder/$two" 'byte 9000 02'
    for name in "$one" "$two"; do
        lines 'undo' 'save'
        run_tool 0 edit "$folder/$name" -o "$folder/$name" --script "$work/script"
        [ ! -s "$work/err" ]
        cmp samples/museum-48k.z80 "$folder/$name"
    done
    # the names of the logs are cut between characters
    ls "$folder" | iconv -f UTF-8 -t UTF-8 | grep -c 'snaplog$' >"$work/count"
    [ "$(cat "$work/count")" -eq 6 ]
}
long_paths() {
    local path
    path=$work/$(printf './%.0s' {1..2100})
    rm -f "$work/early.z80"
    run_tool 3 write samples/museum-48k.z80 -o "${path}early.z80"
    grep -qF "too long" "$work/err"
    at_start 3 "too long" -o "${path}early.z80"
    at_start 3 "too long" -o "$work/early.z80" --log "${path}early.log"
    [ "$(wc -l <"$work/err")" -eq 1 ]
}
check "names of up to 255 bytes, each with its own log" long_names
check "a path that is too long is told at the start" long_paths

new_log() {
    { printf 'byte 8000 01\n%.0s' {1..4096}; echo save; } >"$work/full"
    run_tool 0 edit samples/museum-48k.z80 -o "$work/nl.z80" --script "$work/full"
    lines 'byte 9000 01' 'list' 'save'
    run_tool 1 edit "$work/nl.z80" -o "$work/nl.z80" --script "$work/script"
    grep -qF ":1: refused, 26: the log is full; 'snapshot edit --new-log' begins a new one" "$work/err"
    run_tool 0 edit --new-log "$work/nl.z80" -o "$work/nl.z80" --script "$work/script"
    grep -qF "standing: 1, waiting: 0" "$work/out"
    lines 'undo' 'list'
    run_tool 2 edit "$work/nl.z80" -o "$work/nl.z80" --script "$work/script"
    grep -qF "standing: 0, waiting: 1" "$work/out"
}
check "--new-log begins a new log where the kept one is full" new_log

owners() {
    local group
    rm -rf "$work/owned"
    mkdir -m 777 "$work/owned"
    cp samples/museum-128k.z80 "$work/owned/out.z80"
    # root keeps any owner and group, another user a group of his own
    if [ "$(id -u)" -eq 0 ]; then
        chown 1234:2345 "$work/owned/out.z80"
    else
        group=$(id -G | tr ' ' '\n' | tail -n 1)
        chgrp "$group" "$work/owned/out.z80"
    fi
    chmod 6754 "$work/owned/out.z80"
    stat -c %u:%g "$work/owned/out.z80" >"$work/owner"
    run_tool 0 write samples/museum-48k.z80 -o "$work/owned/out.z80"
    [ "$(stat -c %u:%g "$work/owned/out.z80")" = "$(cat "$work/owner")" ]
    [ "$(stat -c %a "$work/owned/out.z80")" = 754 ]
    cmp samples/museum-48k.z80 "$work/owned/out.z80"
}
check "owner, group and permissions are kept, set-id bits are not" owners

owner_of_log() {
    local file=$work/owned/in.z80
    rm -rf "$work/owned"
    mkdir -m 777 "$work/owned"
    cp samples/museum-48k.z80 "$file"
    if [ "$(id -u)" -eq 0 ]; then chown 1234:2345 "$file"; fi
    chmod 600 "$file"
    lines 'byte 9000 01' 'save'
    run_tool 0 edit "$file" -o "$file" --script "$work/script"
    [ "$(stat -c %a "$file.snaplog")" = 600 ]
    [ "$(stat -c %u:%g "$file.snaplog")" = "$(stat -c %u:%g "$file")" ]
    chmod 640 "$file.snaplog"
    run_tool 0 edit "$file" -o "$file" --script "$work/script"
    [ "$(stat -c %a "$file" "$file.snaplog" | paste -s -d ' ')" = "600 640" ]
}
check "a new log has the owner, group and permissions of its snapshot, and then its own" owner_of_log

other_screens() {
    echo "notes of a curator" >"$work/notes"
    rm -f "$work/saved.scr"
    run_tool 0 screen --scr samples/museum-48k.z80 "$work/saved.scr"
    run_tool 0 screen --scr samples/museum-128k.z80 "$work/saved.scr"
    keeps 3 "$work/notes" "is there and is no screen" screen --scr samples/museum-48k.z80 "$work/notes"
    keeps 3 "$work/saved.scr" "is there and is no PNG" screen samples/museum-48k.z80 "$work/saved.scr"
    run_tool 0 screen --scr --force samples/museum-48k.z80 "$work/notes"
    [ "$(stat -c %s "$work/notes")" -eq 6912 ]
}
check "a screen's bytes replace a screen's bytes alone, unless by --force" other_screens

# a folder with the sticky bit, and a file of root in it
sticky_folder() {
    local folder status=0
    folder=$(mktemp -d)
    cp samples/museum-48k.z80 "$folder/a.z80"
    printf 'byte 8000 01\nsave\n' | "$tool" edit "$folder/a.z80" -o "$folder/a.z80"
    cp "$tool" "$folder/tool"
    chmod 1777 "$folder"
    chmod 666 "$folder"/a.z80*
    cp "$folder/a.z80" "$work/before"
    printf 'list\nbyte 8000 02\nsave\n' | as_nobody "$folder/tool" edit "$folder/a.z80" -o "$folder/a.z80" >"$work/out" 2>"$work/err" || status=$?
    if [ "$(id -u)" -eq 0 ]; then
        [ "$status" -eq 3 ]
        grep -qF "cannot be written: it is another user's" "$work/err"
        [ ! -s "$work/out" ]
        cmp "$folder/a.z80" "$work/before"
    else
        [ "$status" -eq 0 ]
    fi
    rm -rf "$folder"
}
check "another user's file in a folder of many users is told at the start" sticky_folder

through_link() {
    rm -rf "$work/linked"
    mkdir "$work/linked"
    cp samples/museum-48k.z80 "$work/linked/a.z80"
    ln -s a.z80 "$work/linked/l.z80"
    edits "$work/linked/a.z80" 'byte 9000 01'
    lines 'byte 9001 02' 'save'
    run_tool 0 edit "$work/linked/l.z80" -o "$work/linked/l.z80" --script "$work/script"
    [ "$(ls "$work/linked")" = "$(printf '%s\n' a.z80 a.z80.snaplog l.z80)" ]
    lines 'undo 2' 'save'
    run_tool 0 edit "$work/linked/a.z80" -o "$work/linked/a.z80" --script "$work/script"
    cmp samples/museum-48k.z80 "$work/linked/a.z80"
}
check "an edit through a link goes on with the log of the file that it leads to" through_link
