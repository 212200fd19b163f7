# Two editors of one file: neither drops what the other saved.

rm -rf "$work/desk"
mkdir "$work/desk"

# another LINE..: another editor corrects and saves the shared file.
another() {
    printf '%s\n' "$@" save >"$work/another"
    "$tool" edit "$work/desk/shared.z80" -o "$work/desk/shared.z80" --script "$work/another" >"$work/another.out" 2>&1
}

shared_file() {
    rm -rf "$work/desk"
    mkdir "$work/desk"
    cp samples/museum-48k.z80 "$work/desk/shared.z80"
}

changed_file() {
    shared_file
    {
        shows 1 'snapshot> '
        printf 'byte 9000 01\n'
        shows 2 'snapshot> '
        another 'byte 9001 02'
        cp "$work/desk/shared.z80" "$work/theirs.z80"
        cp "$work/desk/shared.z80.snaplog" "$work/theirs.log"
        printf 'save\n'
        shows 3 'snapshot> '
        cp "$work/desk/shared.z80" "$work/after.z80"
        cp "$work/desk/shared.z80.snaplog" "$work/after.log"
        printf '%b' "save $work/desk/mine.z80\nsave --force\nsave\nquit\n"
        waits has_ended
    } | at_prompt edit "$work/desk/shared.z80" -o "$work/desk/shared.z80"
    cmp "$work/theirs.z80" "$work/after.z80"
    cmp "$work/theirs.log" "$work/after.log"
    [ "$(grep -cF "shared.z80: was changed since it was opened or saved here; " "$terminal")" -eq 1 ]
    grep -qF "; 'save --force' replaces it, 'save NAME' saves elsewhere" "$terminal"
    [ "$(grep -c '^saved: ' "$terminal")" -eq 3 ]
    [ "$(page_byte "$work/desk/mine.z80" 2 1000) $(page_byte "$work/desk/mine.z80" 2 1001)" = "01 00" ]
    cmp "$work/desk/mine.z80" "$work/desk/shared.z80"
    [ "$(ls "$work/desk" | paste -s -d ' ')" = "mine.z80 mine.z80.snaplog shared.z80 shared.z80.snaplog" ]
}
check "what another editor saved is not dropped, unless by save --force" changed_file

# told_at_save SENTENCE COMMAND..: at the prompt, the command is run between a correction and the save.
told_at_save() {
    local sentence=$1
    shift
    {
        shows 1 'snapshot> '
        printf 'byte 9000 01\n'
        shows 2 'snapshot> '
        "$@"
        ls -l --time-style=full-iso "$work/desk" >"$work/listed"
        printf 'save\n'
        shows 3 'snapshot> '
        ls -l --time-style=full-iso "$work/desk" | diff "$work/listed" -
        printf 'quit\nquit\n'
        waits has_ended
    } | at_prompt edit samples/museum-48k.z80 -o "$work/desk/shared.z80"
    grep -qF "$sentence" "$terminal"
}
appeared_and_gone() {
    shared_file
    told_at_save "shared.z80: is gone since" rm "$work/desk/shared.z80"
    told_at_save "shared.z80: is there and was not opened or saved here" cp samples/museum-128k.z80 "$work/desk/shared.z80"
}
one_bit() {
    shared_file
    edits "$work/one.z80" 'byte 9001 01'
    edits "$work/three.z80" 'byte 9001 03'
    [ "$(wc -c <"$work/one.z80")" -eq "$(wc -c <"$work/three.z80")" ]
    cp "$work/one.z80" "$work/desk/shared.z80"
    told_at_save "shared.z80: was changed since" cp "$work/three.z80" "$work/desk/shared.z80"
}
changed_log() {
    shared_file
    another 'byte 9001 02'
    cp "$work/desk/shared.z80.snaplog" "$work/some.log"
    another 'byte 9002 03'
    told_at_save "shared.z80.snaplog: was changed since" cp "$work/some.log" "$work/desk/shared.z80.snaplog"
    told_at_save "shared.z80.snaplog: is gone since" rm "$work/desk/shared.z80.snaplog"
    told_at_save "shared.z80.snaplog: is there and was not opened" cp "$work/some.log" "$work/desk/shared.z80.snaplog"
}
forced_edit() {
    shared_file
    {
        shows 1 'snapshot> '
        printf 'byte 9000 01\n'
        shows 2 'snapshot> '
        another 'byte 9001 02'
        printf 'save\nquit\n'
        waits has_ended
    } | at_prompt edit --force "$work/desk/shared.z80" -o "$work/desk/shared.z80"
    [ "$(page_byte "$work/desk/shared.z80" 2 1000) $(page_byte "$work/desk/shared.z80" 2 1001)" = "01 00" ]
}
check "an output that appeared or is gone since the start is told, and nothing is written" appeared_and_gone
check "an output of which one bit was changed since the start is told" one_bit
check "a log that was changed, appeared or is gone since the start is told, and nothing is written" changed_log
check "edit --force saves over what was changed" forced_edit

somebodys_file() {
    shared_file
    cp samples/museum-128k.z80 "$work/desk/somebody.z80"
    echo "notes of a curator" >"$work/desk/notes"
    lines 'byte 9000 01' "save $work/desk/somebody.z80"
    keeps 3 "$work/desk/somebody.z80" "is there and was not opened or saved here" \
        edit samples/museum-48k.z80 -o "$work/desk/o.z80" --script "$work/script"
    lines 'byte 9000 01' "save $work/desk/notes"
    keeps 3 "$work/desk/notes" "is there and is no snapshot" \
        edit samples/museum-48k.z80 -o "$work/desk/o.z80" --script "$work/script"
    # what the session opened or saved is its own
    lines 'byte 9000 01' "save $work/desk/new.z80" 'byte 9000 02' "save $work/desk/new.z80" "save $work/desk/shared.z80" \
        "save --force $work/desk/somebody.z80" 'byte 9000 03' "save $work/desk/somebody.z80" 'save'
    run_tool 0 edit "$work/desk/shared.z80" -o "$work/desk/o.z80" --script "$work/script"
    [ "$(page_byte "$work/desk/somebody.z80" 2 1000) $(page_byte "$work/desk/new.z80" 2 1000)" = "03 02" ]
}
check "save NAME does not replace a file that the session has not opened or saved" somebodys_file

both_ready() { [ -e "$work/ready1" ] && [ -e "$work/ready2" ]; }
quit_is_answered() { has_ended || is_shown 1 "'quit' again"; }

# editor N: at a terminal of its own; it saves when both have begun and corrected.
editor() {
    local terminal=$work/terminal$1
    {
        shows 1 'snapshot> '
        printf 'byte 900%d %d\n' "$1" "$1"
        shows 2 'snapshot> '
        : >"$work/ready$1"
        waits both_ready
        printf 'save\n'
        shows 3 'snapshot> '
        printf 'quit\n'
        waits quit_is_answered
        if is_shown 1 "'quit' again"; then printf 'quit\n'; fi
        waits has_ended
    } | at_prompt edit "$work/desk/shared.z80" -o "$work/desk/shared.z80"
}
at_once() {
    local round
    for round in 1 2 3; do
        shared_file
        rm -f "$work"/ready[12]
        editor 1 &
        editor 2 &
        wait
        [ "$(cat "$work"/terminal[12] | grep -c '^saved: ')" -eq 1 ]
        [ "$(ls "$work/desk" | paste -s -d ' ')" = "shared.z80 shared.z80.snaplog" ]
    done
}
check "of two editors that save at once, one is told" at_once

locked() {
    shared_file
    local status=0
    flock "$work/desk" "$tool" write samples/museum-128k.z80 -o "$work/desk/shared.z80" 2>"$work/err" || status=$?
    [ "$status" -eq 3 ]
    grep -qF "another program is saving there" "$work/err"
    cmp samples/museum-48k.z80 "$work/desk/shared.z80"
    [ "$(ls "$work/desk")" = shared.z80 ]
    run_tool 0 write samples/museum-128k.z80 -o "$work/desk/shared.z80"
}
check "while another program saves in a folder, nothing is saved there" locked
