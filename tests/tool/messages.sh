# What is said to a person: corrections that are dropped, in order with what is printed, and names with odd characters.

dropped() {
    lines 'byte 9000 01' 'pair HL 1' 'undo' 'byte 0 0'
    run_tool 1 edit samples/museum-48k.z80 -o "$work/never.z80" --script "$work/script"
    [ "$(tail -n 1 "$work/err")" = "snapshot: $work/script: 3 changes since the last save are dropped" ]
    lines 'byte 9000 01' "save $work/m.z80" 'byte 9000 02' 'poke'
    run_tool 2 edit samples/museum-48k.z80 -o "$work/never.z80" --script "$work/script"
    [ "$(tail -n 1 "$work/err")" = "snapshot: $work/script: 1 change since the last save is dropped" ]
    lines 'byte 9000 1 2'
    run_tool 2 edit samples/museum-48k.z80 -o "$work/never.z80" --script "$work/script"
    [ "$(cat "$work/err")" = "snapshot: $work/script: ends without 'save': 2 changes since the last save are dropped" ]
    lines 'byte 0 0'
    run_tool 1 edit samples/museum-48k.z80 -o "$work/never.z80" --script "$work/script"
    [ "$(wc -l <"$work/err")" -eq 1 ]
    lines 'byte 9000 01' 'quit'
    run_tool 0 edit samples/museum-48k.z80 -o "$work/never.z80" --script "$work/script"
    [ ! -s "$work/err" ]
    [ ! -e "$work/never.z80" ]
}
check "a script that is refused or ends without save says how many corrections are dropped" dropped

in_order() {
    local status=0
    lines 'byte 9000 01' 'list' 'byte 0 0'
    "$tool" edit samples/museum-48k.z80 -o "$work/never.z80" --script "$work/script" >"$work/both" 2>&1 || status=$?
    [ "$status" -eq 1 ]
    sed -nE 's/^(corrected|standing|snapshot).*/\1/p' "$work/both" | paste -s -d ' ' >"$work/order"
    [ "$(cat "$work/order")" = "corrected standing snapshot snapshot" ]
}
check "what is printed comes before what is said on standard error" in_order

odd_characters() {
    local name=$'a\nb\e[31m\x7f\xff\xc2\x9b\xe2\x80\xae \xc3\xa9\xe2\x82\xac.z80'
    local shown='a\x0Ab\x1B[31m\x7F\xFF\xC2\x9B\xE2\x80\xAE é€.z80'
    run_tool 3 info "$work/$name"
    [ "$(cat "$work/err")" = "snapshot: $work/$shown: cannot be opened: No such file or directory" ]
    echo 'byte 0 0' >"$work/$name"
    run_tool 1 edit samples/museum-48k.z80 -o "$work/never.z80" --script "$work/$name"
    grep -qF "snapshot: $work/$shown:1: refused, 23: " "$work/err"
    echo 'byte 0' >"$work/$name"
    run_tool 2 edit samples/museum-48k.z80 -o "$work/never.z80" --script "$work/$name"
    grep -qF "snapshot: $work/$shown:1: byte takes " "$work/err"
    [ "$(wc -l <"$work/err")" -eq 1 ]
    rm "$work/$name"
    edits "$work/$name" 'byte 9000 01'
    grep -qxF "saved: $work/$shown, log: $work/$shown.snaplog" "$work/out"
    [ -e "$work/$name.snaplog" ]
}
check "names are shown on one line, with control characters escaped" odd_characters
