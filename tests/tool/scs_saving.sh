# SCS files that are written and edited: what they hold, what is lost, what they replace.

# rich OUT FILE BYTE_29 MODE BYTE_37: everything that SCS does not hold, settings, attachment, bytes 36 and 37, the OUT to FFFD, the
# clock, bytes 59 and 61 to 85; and sound registers, which it holds
rich() { with_sound "$1" "$2" "$5"; patched "$work/rich" "$1" 29 "$3" 34 "$4" 36 FF 55 0100 59 FF 61 0011 73 41 85 22; mv "$work/rich" "$1"; }

written_scs() {
    local model size out=00
    rich "$work/rich48.z80" tests/files/48k-text.z80 FE 03 07
    rich "$work/rich128.z80" tests/files/128k-text.z80 6D 05 03
    for model in 48 128; do
        size=$((model * 1024 + 88))
        run_tool 0 write "$work/rich$model.z80" -o "$work/rich$model.scs" --format scs
        [ "$(stat -c %s "$work/rich$model.scs")" -eq "$size" ]
        [ "$(head -c 20 "$work/rich$model.scs" | xxd -p)" = "$(printf 'SamSnap!ASCD\0\x62' | xxd -p)0$((model / 128 + 1))03$(le32 $((model * 1024)) | xxd -p)" ]
        [ "$(tail -c 5 "$work/rich$model.scs" | xxd -p)" = 0000000000 ]
        # the blocks' heads, and the CPU block's clock numbers
        [ "$(tail -c 68 "$work/rich$model.scs" | head -c 5 | xxd -p)" = 0122000000 ]
        [ "$(tail -c 35 "$work/rich$model.scs" | head -c 11 | xxd -p)" = 0000000000000213000000 ]
        # the OUTs and the sound registers
        [ "$(tail -c 23 "$work/rich$model.scs" | head -c 18 | xxd -p)" = "${out}070102030405060708090a0b0c0d0e0f10" ]
        out=13
        # what is read back loses nothing more
        run_tool 0 write "$work/rich$model.scs" -o "$work/twice.scs" --format scs
        [ ! -s "$work/err" ]
        cmp "$work/rich$model.scs" "$work/twice.scs"
        rm "$work/twice.scs"
    done
}
check "write --format scs writes the one SCS file, and loses nothing twice" written_scs

# what_stays FILE: what info --json says of a machine but the file, and what SCS does not hold.
what_stays() {
    run_tool 0 info --json "$1"
    jq 'del(.file, .format, .version, .length, .unwrapped, .attachment, .clock.position, .settings, .emulation)
        | if .ports then .ports.FFFD %= 16 else . end' "$work/out"
}
kept_and_lost() {
    local model page emulation=4 out=null
    for model in 48 128; do
        what_stays "$work/rich$model.z80" >"$work/before"
        what_stays "$work/rich$model.scs" | diff "$work/before" -
        [ "$(jq '.registers | length' "$work/before")" -eq 14 ]
        run_tool 0 info --json "$work/rich$model.scs"
        [ "$(jq -c '[.attachment, .clock.position, .settings[]]' "$work/out")" = '["none",0,false,false,"normal","Cursor"]' ]
        [ "$(jq -c '[.emulation.byte_36, .emulation.byte_37, (.emulation.bytes_59_61_85 | add, .[1], .[2])]' "$work/out")" = "[0,$emulation,510,255,255]" ]
        [ "$(jq -c '.ports | [."7FFD", .FFFD, .sound[15]]' "$work/out")" = "[$out,7,16]" ]
        emulation=0 out=19
    done
    run_tool 0 info --json "$work/rich128.z80"
    [ "$(jq -c '[.ports.FFFD, .attachment, .settings.joystick]' "$work/out")" = '[247,"Interface I","Kempston"]' ]
    for page in {0..7}; do
        "$tool" view "$work/rich128.z80" "$page" --raw | cmp - <("$tool" view "$work/rich128.scs" "$page" --raw)
    done
}
check "registers, ports and memory come back from an SCS file, and the rest is as in the manual" kept_and_lost

# tells FILE LINE..: what is said when it is written as SCS, also where it is edited; nothing is said otherwise.
tells() {
    local line
    : >"$work/told"
    for line in "${@:2}"; do echo "snapshot: $1: $line" >>"$work/told"; done
    run_tool 0 write "$1" -o - --format scs
    diff "$work/told" "$work/err"
    lines 'list'
    run_tool 0 edit "$1" -o "$work/never.scs" --format scs --script "$work/script"
    diff "$work/told" "$work/err"
    run_tool 0 write "$1" -o - --format z80
    [ ! -s "$work/err" ]
}
# loses NAMES FILE: the one line with these names, or none.
loses() { tells "$2" ${1:+"an SCS file does not hold all of it; lost: $1"}; }
# each_loses FILE: changes one by one, from a machine that loses nothing.
each_loses() {
    local names change
    while IFS='|' read -r names change; do
        patched "$work/changed.z80" "$1" $change
        loses "$names" "$work/changed.z80"
    done
}
others='settings, byte 36, byte 37, byte 59, bytes 61 to 85'
losses() {
    local model
    for model in 48 128; do
        loses "attachment, clock, $others, upper four bits of the last OUT to FFFD" "$work/rich$model.z80"
        loses '' "$work/$model.scs"
        loses '' "$work/from$model.z80"
    done
    each_loses "$work/from48.z80" <<'CHANGES'
attachment|34 03
byte 37|37 05
byte 37|37 06
upper four bits of the last OUT to FFFD|38 17
|35 01
|37 44
|38 08
|39 77
CHANGES
    each_loses "$work/from128.z80" <<'CHANGES'
attachment|34 06
clock|57 02
clock|55 00
settings|29 06
settings|29 82
byte 36|36 01
byte 37|37 01
byte 59|59 01
bytes 61 to 85|61 FE
bytes 61 to 85|85 01
upper four bits of the last OUT to FFFD|38 17
|37 04
|38 08
|35 01
|39 77
|12 0C
CHANGES
}
check "what is lost is told in one line, each part by its name, and nothing else is" losses

# of an SCS file that holds more than its machine, what is written is that of one that does not, in both formats, without a line
not_kept() {
    local cpu=$cpu ports=$ports format
    { memory_block 48 5 2 0; cpu_block; ports_block; } | scs 1 >"$work/less.scs"
    # mode, IFFs and clock numbers; border, OUT to 7FFD of a 48K and upper bits of that to FFFD; each block longer than is due
    cpu=${cpu:0:52}020200000000000055
    ports=050007${ports:6}55
    { cat "$work"/page48.{5,2,0} <(echo more) | block 3; : | block 4; cpu_block; ports_block; echo air | block 33; printf '\0\1\2'; } |
        scs 1 | sed '1s/TEST/ASCD/' >"$work/more.scs"
    for format in scs z80; do
        run_tool 0 write "$work/less.scs" -o "$work/less" --format $format --force
        run_tool 0 write "$work/more.scs" -o "$work/more" --format $format --force
        [ ! -s "$work/err" ]
        cmp "$work/less" "$work/more"
    done
}
check "what is not kept of an SCS file is what the manual says" not_kept

scs_replaces() {
    rm -rf "$work/kinds"
    mkdir "$work/kinds"
    local z80=$work/kinds/a.z80 scs=$work/kinds/a.scs file
    cp "$work/48.scs" "$scs"
    cp "$work/48.scs.gz" "$scs.gz"
    cp samples/museum-48k.z80 "$z80"
    gzip -kc "$z80" >"$z80.gz"
    echo "notes of a curator" >"$work/kinds/notes"
    lines 'byte 8000 01' 'save'
    for file in "$scs" "$scs.gz"; do
        keeps 3 "$file" "is there and is an SCS file; '--format scs' saves one" write "$z80" -o "$file"
        keeps 3 "$file" "is there and is an SCS file; '--format scs' saves one" edit "$file" -o "$file" --script "$work/script"
        [ ! -s "$work/out" ]
    done
    for file in "$z80" "$z80.gz"; do
        keeps 3 "$file" "is there and is a .Z80 file; only --force" write "$scs" -o "$file" --format scs
        keeps 3 "$file" "is there and is a .Z80 file; only --force" edit "$file" -o "$file" --format scs --script "$work/script"
    done
    for file in z80 scs; do
        keeps 3 "$work/kinds/notes" "is there and is no snapshot" write "$scs" -o "$work/kinds/notes" --format "$file"
    done
    # its own format it replaces; by --force anything
    run_tool 0 write "$work/128.scs" -o "$scs" --format scs
    run_tool 0 write "$scs" -o "$z80"
    run_tool 0 write "$scs" -o "$z80" --format scs --force
    cmp "$scs" "$z80"
    run_tool 0 write "$scs" -o "$z80" --force
    cmp "$z80" "$work/from128.z80"
}
check "of the two formats neither replaces the other but by --force" scs_replaces

# what is saved is not wrapped: over a file in gzip only by --force, in both commands, also over the input itself
over_wrapped() {
    local format file sentence='is there and is in gzip; what is saved is not, so only --force replaces it'
    rm -rf "$work/kinds"
    mkdir "$work/kinds"
    for format in scs z80; do
        file=$work/kinds/a.$format.gz
        gzip -c "$work/from48.z80" >"$work/kinds/a.z80.gz"
        cp "$work/48.scs.gz" "$work/kinds/a.scs.gz"
        keeps 3 "$file" "$sentence" write "$work/128.scs" -o "$file" --format $format
        keeps 3 "$file" "$sentence" write "$file" -o "$file" --format $format
        lines 'byte 8000 01' 'save'
        keeps 3 "$file" "$sentence" edit "$file" -o "$file" --format $format --script "$work/script"
        keeps 3 "$file" "$sentence" edit "$work/128.scs" -o "$file" --format $format --script "$work/script"
        [ ! -s "$work/out" ]
        lines 'byte 8000 01' "save $file"
        keeps 3 "$file" "$sentence" edit "$work/128.scs" -o "$work/kinds/out" --format $format --script "$work/script"
        [ ! -e "$file.snaplog" ]
        [ ! -e "$work/kinds/out" ]
        lines 'byte 8000 01' "save --force $file"
        run_tool 0 edit "$work/48.scs" -o "$work/kinds/out" --format $format --script "$work/script"
        mv "$file" "$work/edited"
        gzip -c "$work/edited" >"$file"
        lines 'undo' 'save'
        run_tool 0 edit "$file" -o "$file" --format $format --force --script "$work/script"
        run_tool 0 write "$work/48.scs" -o - --format $format
        cmp "$work/out" "$file"
        # no longer wrapped, it is replaced as any file of its format
        run_tool 0 write "$work/128.scs" -o "$file" --format $format
        rm "$file.snaplog"
    done
}
check "what stands in gzip is replaced only by --force" over_wrapped

# a name does not choose the format: of an SCS file that is saved without one a line says so, in both commands
scs_as_z80() {
    local file name line
    line="is an SCS file; it is saved as a .Z80 file, and '--format scs' keeps it one"
    for file in "$work/48.scs" "$work/128.scs.gz"; do
        rm -f "$work/copy.scs" "$work/copy.scs.snaplog"
        run_tool 0 write "$file" -o "$work/copy.scs"
        [ "$(cat "$work/err")" = "snapshot: $file: $line" ]
        name=${file##*/}
        cmp "$work/copy.scs" "$work/from${name%%.*}.z80"
        lines 'list'
        run_tool 0 edit "$file" -o "$work/copy.scs" --script "$work/script"
        [ "$(cat "$work/err")" = "snapshot: $file: $line" ]
        as_input 0 "$file" write - -o -
        [ "$(cat "$work/err")" = "snapshot: standard input: $line" ]
        for name in z80 scs; do
            run_tool 0 write "$file" -o - --format $name
            [ ! -s "$work/err" ]
        done
    done
    run_tool 0 write "$work/from48.z80" -o -
    [ ! -s "$work/err" ]
}
check "an SCS file that is written without --format becomes a .Z80 file, and a line says so" scs_as_z80

edited_scs() {
    local model ending file=$work/edited.scs place
    for model in 48 128; do
        for ending in scs scs.gz; do
            rm -f "$file" "$file.snaplog"
            run_tool 0 write "$work/$model.$ending" -o "$work/plain.scs" --format scs --force
            lines 'byte 8000 5A' 'pair HL BEEF' 'save'
            run_tool 0 edit "$work/$model.$ending" -o "$file" --format scs --script "$work/script"
            [ ! -s "$work/err" ]
            [ "$(cmp -l "$file" "$work/plain.scs" | wc -l)" -eq 3 ]
            # the byte is in page 2, of a 48K the second in the file; HL stands high byte first, 6 bytes into the CPU block
            place=$((model == 48 ? 16384 : 32768))
            [ "$(xxd -s $((20 + place)) -l 1 -p "$file") $(xxd -s $((25 + model * 1024 + 6)) -l 2 -p "$file")" = "5a beef" ]
            # another day, by the log beside it
            lines 'list' 'undo' 'save' 'undo' 'save'
            run_tool 0 edit "$file" -o "$file" --format scs --script "$work/script"
            [ ! -s "$work/err" ]
            grep -qxF 'standing: 2, waiting: 0' "$work/out"
            cmp "$file" "$work/plain.scs"
        done
    done
}
check "an SCS file is edited, undone on another day and is as it was, byte for byte" edited_scs

# the log belongs to what the SCS file gives back, not to the machine that it was made of
edited_into_scs() {
    local file=$work/into.scs
    rm -f "$file"*
    lines 'out 04' 'byte C000 5A' 'save'
    run_tool 0 edit "$work/rich128.z80" -o "$file" --format scs --script "$work/script"
    lines 'undo 2' 'save'
    run_tool 0 edit "$file" -o "$file" --format scs --script "$work/script"
    [ ! -s "$work/err" ]
    cmp "$file" "$work/rich128.scs"
    # and the other way, into a .Z80 file
    lines 'redo 2' 'save'
    rm -f "$work/out-of.z80"*
    run_tool 0 edit "$file" -o "$work/out-of.z80" --format z80 --script "$work/script"
    [ ! -s "$work/err" ]
    run_tool 0 edit "$file" -o "$work/out-of.z80" --script "$work/script"
    [ "$(cat "$work/err")" = "snapshot: $file: is an SCS file; it is saved as a .Z80 file, and '--format scs' keeps it one" ]
    [ "$(page_byte "$work/out-of.z80" 4 0000)" = 5A ]
    lines 'undo 2' 'save'
    run_tool 0 edit "$work/out-of.z80" -o "$work/out-of.z80" --script "$work/script"
    run_tool 0 write "$work/rich128.scs" -o -
    cmp "$work/out" "$work/out-of.z80"
}
check "a log goes on through a file of the other format" edited_into_scs
