# edit at the prompt: line editing, quit and the keys that end a line, completion and history.

export XDG_STATE_HOME=$work/state
terminal=$work/terminal

# at_prompt WORDS..: the tool at a terminal, its keys from standard input; $terminal has what it showed. No shell stays between the
# terminal and the tool: whichever one SHELL names would be interrupted too.
under=()
at_prompt() {
    local status=0
    timeout 200 script -qfec "exec $(printf '%q ' "${under[@]}" "$tool" "$@")" /dev/null >"$terminal.now" || status=$?
    mv "$terminal.now" "$terminal"
    return "$status"
}

# waits COMMAND..: until the command succeeds, a minute at most.
waits() {
    local tries
    for tries in {1..3000}; do
        if "$@"; then return; fi
        sleep 0.02
    done
    echo "waited in vain: $*" >&2
    return 1
}
is_shown() { [ -e "$terminal.now" ] && [ "$(grep -aoF -- "$2" "$terminal.now" | wc -l)" -ge "$1" ]; }
has_ended() { [ ! -e "$terminal.now" ]; }

# shows COUNT TEXT: waits until the terminal shows a text so many times.
shows() { waits is_shown "$@"; }

# keys KEYS..: types each when one more prompt is there, and waits for the end.
keys() {
    local count=0 some
    for some; do
        count=$((count + 1))
        shows "$count" 'snapshot> '
        printf '%b' "$some"
    done
    waits has_ended
}

# at a terminal: the up arrow brings the last line back, so the byte is corrected twice; then both are taken back
prompt() {
    printf 'byte 8000 01\n\033[A\nundo\nbyte 0 0\nundo\nredo\nsave\nquit\n' |
        at_prompt edit samples/museum-48k.z80 -o "$work/t.z80"
    grep -qF 'refused, 23: ' "$terminal"
    [ "$(grep -cF 'corrected: byte in page 2 at offset 0000' "$terminal")" -eq 2 ]
    [ "$(page_byte "$work/t.z80" 2 0000)" = 01 ]
}
check "at the prompt: line editing, history, and a refused line that does not end it" prompt

# warned COUNT: so many quits were warned.
warned() { [ "$(grep -c "not saved: 'save', or 'quit' again" "$terminal")" -eq "$1" ]; }

quits() {
    keys 'byte 9000 01\n' 'quit\n' 'byte 9001 02\n' 'quit\n' 'list\n' 'quit\n' 'quit\n' |
        at_prompt edit samples/museum-48k.z80 -o "$work/never.z80"
    warned 3
    grep -qF "samples/museum-48k.z80: 1 change is not saved: 'save', or 'quit' again" "$terminal"
    grep -qF "samples/museum-48k.z80: 2 changes are not saved: 'save', or 'quit' again" "$terminal"
    grep -qF 'standing: 2, waiting: 0' "$terminal"
    keys 'byte 9000 01\n' 'quit\n' 'undo\n' 'quit\n' 'redo\n' 'quit\n' 'quit\n' |
        at_prompt edit samples/museum-48k.z80 -o "$work/never.z80"
    warned 3
    keys 'quit\n' | at_prompt edit samples/museum-48k.z80 -o "$work/never.z80"
    warned 0
    [ ! -e "$work/never.z80" ]
}
check "quit warns of what is not saved each time, unless the line before was a quit that did" quits

ends_of_input() {
    keys 'byte 9000 01\n' '\004' 'byte 9001 02\n' '\004' 'save\n' '\004' |
        at_prompt edit samples/museum-48k.z80 -o "$work/d.z80"
    warned 2
    [ "$(page_byte "$work/d.z80" 2 1001)" = 02 ]
    keys 'byte 9000 01\n' '\004' '\004' | at_prompt edit samples/museum-48k.z80 -o "$work/d2.z80"
    warned 1
    [ ! -e "$work/d2.z80" ]
}
check "Ctrl-D is as quit" ends_of_input

interrupts() {
    rm -f "$work/c.z80"
    {
        shows 1 'snapshot> '
        printf 'byte 9000 55'
        shows 1 '9000 55'
        printf '\003'
        shows 2 'snapshot> '
        printf '\003'
        shows 3 'snapshot> '
        printf 'list\n'
        shows 4 'snapshot> '
        printf 'byte 9001 66\nsave\nquit\n'
        waits has_ended
    } | at_prompt edit samples/museum-48k.z80 -o "$work/c.z80"
    grep -qF 'standing: 0, waiting: 0' "$terminal"
    [ "$(page_byte "$work/c.z80" 2 1000) $(page_byte "$work/c.z80" 2 1001)" = "00 66" ]
}
check "Ctrl-C drops the line that is typed, and does not end the tool" interrupts

gcc -std=c99 -Wall -Wextra -Werror -g -shared -fPIC tests/tool/late_reads.c -ldl -o "$work/late_reads.so" || exit 1
late_interrupts() {
    local tool=target/snapshot
    under=(env LD_PRELOAD="$work/late_reads.so")
    interrupts
}
check "Ctrl-C is not lost where it comes before the read" late_interrupts

blocked_interrupts() {
    under=(env --block-signal=INT --block-signal=ALRM)
    interrupts
}
check "Ctrl-C is heard where what started the tool had it blocked" blocked_interrupts

# the place of the log is lost while the tool asks: what NAME is given is saved whole
log_place_lost() {
    rm -rf "$work/lost" "$work/rescued.z80"*
    mkdir "$work/lost"
    {
        shows 1 'snapshot> '
        rm -rf "$work/lost"
        printf 'byte 9000 01\nsave\nsave %s\nquit\n' "$work/rescued.z80"
        waits has_ended
    } | at_prompt edit samples/museum-48k.z80 -o "$work/lost.z80" --log "$work/lost/log"
    [ ! -e "$work/lost.z80" ]
    # the place is told of by the first save alone
    [ "$(grep -cF 'cannot be written' "$terminal")" -eq 1 ]
    [ "$(page_byte "$work/rescued.z80" 2 1000)" = 01 ]
    [ -e "$work/rescued.z80.snaplog" ]
}
check "where the log's place is gone, save NAME still saves both" log_place_lost

# standard output is a pipe: what is answered is in it before the next line is typed
is_piped() { grep -qF -- "$1" "$work/piped"; }
piped_answers() {
    : >"$work/piped"
    {
        printf 'list\n'
        waits is_piped 'standing: 0, waiting: 0'
        printf 'byte 9000 01\n'
        waits is_piped 'corrected: byte in page 2 at offset 1000'
        printf 'quit\nquit\n'
        waits is_piped 'ended'
    } | timeout 200 script -qfec "{ $(printf '%q ' "$tool" edit samples/museum-48k.z80 -o "$work/never.z80"); echo ended; } | tee $work/piped" /dev/null
}
check "through a pipe the answers come line by line" piped_answers

other_names() {
    keys '?\n' 'byte 9000 01\n' 'exit\n' 'q\n' | at_prompt edit samples/museum-48k.z80 -o "$work/never.z80"
    grep -qF 'takes back the last correction' "$terminal"
    warned 1
    lines 'exit' 'save'
    run_tool 0 edit samples/museum-48k.z80 -o "$work/never.z80" --script "$work/script"
    lines 'q' 'save'
    run_tool 0 edit samples/museum-48k.z80 -o "$work/never.z80" --script "$work/script"
    [ ! -e "$work/never.z80" ]
}
check "q, exit and ? are quit and help" other_names

completed() {
    mkdir -p "$work/folder to"
    keys 'by\t9000 77\n' "pair i\tX 1234\n" "pair hl\t' 4321\n" "save \"$work/folder t\tcompleted.z80\"\n" 'qui\t\n' |
        at_prompt edit samples/museum-48k.z80 -o "$work/never.z80"
    [ "$(page_byte "$work/folder to/completed.z80" 2 1000)" = 77 ]
    [ "$("$tool" info --json "$work/folder to/completed.z80" | jq -c '.registers | [.IX, ."HL'\''"]')" = "[4660,17185]" ]
}
check "the tab key completes commands, pairs and file names" completed

kept_history() {
    export XDG_STATE_HOME=$work/kept
    local file=$work/kept/snapshot/history
    keys 'byte 9000 77\n' 'quit\n' 'quit\n' | at_prompt edit samples/museum-48k.z80 -o "$work/never.z80"
    [ "$(stat -c %a "$file")" = 600 ]
    keys '\033[A\033[A\033[A\n' "save $work/h.z80\n" 'quit\n' | at_prompt edit samples/museum-48k.z80 -o "$work/never.z80"
    [ "$(page_byte "$work/h.z80" 2 1000)" = 77 ]
    seq -f 'byte\0409000\040%g' 3000 >>"$file"
    keys 'list\n' 'quit\n' | at_prompt edit samples/museum-48k.z80 -o "$work/never.z80"
    [ "$(wc -l <"$file")" -eq 1000 ]
    [ "$(tail -n 1 "$file")" = quit ]
}
check "history is kept between runs, for its owner alone, 1000 lines at most" kept_history

no_history() {
    (
        unset XDG_STATE_HOME
        export HOME=$work/home
        mkdir -p "$HOME"
        keys 'quit\n' | at_prompt edit samples/museum-48k.z80 -o "$work/never.z80"
        [ -e "$HOME/.local/state/snapshot/history" ]
        unset HOME
        keys 'quit\n' | at_prompt edit samples/museum-48k.z80 -o "$work/never.z80"
        [ "$(grep -c 'snapshot: ' "$terminal")" -eq 0 ]
        # where it cannot be kept, nothing is said
        export XDG_STATE_HOME=$work/t.z80
        keys 'quit\n' | at_prompt edit samples/museum-48k.z80 -o "$work/never.z80"
        [ "$(grep -c 'snapshot: ' "$terminal")" -eq 0 ]
    )
}
check "history is in the home folder, and where it cannot be kept nothing is said" no_history

# a full log of which two steps wait: a line for which there is no room leaves them waiting
all_or_nothing() {
    { printf 'byte 8000 01\n%.0s' {1..4094}; printf 'byte 8000 02\nbyte 8000 03\nsave\n'; } >"$work/script"
    run_tool 0 edit samples/museum-48k.z80 -o "$work/all.z80" --script "$work/script"
    keys 'undo 2\n' 'byte 9000 1 2 3\n' 'text 9000 "abc"\n' 'redo 2\n' 'save\n' 'quit\n' |
        at_prompt edit "$work/all.z80" -o "$work/all2.z80"
    [ "$(grep -cF 'refused, 26: ' "$terminal")" -eq 2 ]
    cmp "$work/all.z80" "$work/all2.z80"
    cmp "$work/all.z80.snaplog" "$work/all2.z80.snaplog"
}
check "several bytes in a line are corrected all or not at all" all_or_nothing
