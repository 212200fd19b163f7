# The sound chip: which machines have it, its registers through both formats, and the 48K that gains it.

# shows_sound FILE 7FFD BYTE_37: the registers of with_sound in both forms; beside them this OUT to 7FFD and this byte 37.
shows_sound() {
    run_tool 0 info "$1"
    [ "$(grep -A 1 '^Sound ' "$work/out")" = 'Sound      AY chip, last OUT to FFFD F7
           registers 01 02 03 04 05 06 07 08 09 0A 0B 0C 0D 0E 0F 10' ]
    [ "$(grep -c '^Paging ' "$work/out")" -eq "$([ "$2" = null ] && echo 0 || echo 1)" ]
    run_tool 0 info --json "$1"
    [ "$(jq -c '[.ports, .emulation.byte_37]' "$work/out")" = '[{"7FFD":'"$2"',"FFFD":247,"sound":[1,2,3,4,5,6,7,8,9,10,11,12,13,14,15,16]},'"$3]" ]
}
shows_no_sound() {
    run_tool 0 info "$1"
    if grep -E '^Sound |FFFD|registers [0-9]' "$work/out"; then return 1; fi
    run_tool 0 info --json "$1"
    [ "$(jq -c '[.ports, .emulation.byte_37]' "$work/out")" = "[null,$2]" ]
}
# a 48K has the chip by bit 2 of byte 37, a 128K with or without it; the bits above are dropped
sound_chip() {
    local bits
    for bits in 04 06 44 FF; do
        with_sound "$work/chip3.z80" samples/museum-48k.z80 $bits
        as_version_2 "$work/chip2.z80" "$work/chip3.z80" 00
        shows_sound "$work/chip3.z80" null $((16#$bits & 7))
        shows_sound "$work/chip2.z80" null $((16#$bits & 7))
        with_sound "$work/other3.z80" samples/museum-128k.z80 $bits
        as_version_2 "$work/other2.z80" "$work/other3.z80" 03
        shows_sound "$work/other3.z80" 19 $((16#$bits & 3))
        shows_sound "$work/other2.z80" 19 $((16#$bits & 3))
    done
    for bits in 00 02 40 FB; do
        with_sound "$work/no_chip3.z80" samples/museum-48k.z80 $bits
        as_version_2 "$work/no_chip2.z80" "$work/no_chip3.z80" 01
        shows_no_sound "$work/no_chip3.z80" $((16#$bits & 3))
        shows_no_sound "$work/no_chip2.z80" $((16#$bits & 3))
        with_sound "$work/other3.z80" samples/museum-128k.z80 $bits
        shows_sound "$work/other3.z80" 19 $((16#$bits & 3))
    done
    as_version_1 "$work/plain1.z80" samples/museum-48k.z80
    with_sound "$work/no_chip1.z80" "$work/plain1.z80" 04
    shows_no_sound "$work/no_chip1.z80" 0
    # with every register 0 it is still there
    patched "$work/silent.z80" samples/museum-48k.z80 37 04
    run_tool 0 info "$work/silent.z80"
    grep -qxF 'Sound      AY chip, last OUT to FFFD 00' "$work/out"
}
check "the sound chip of a 48K by bit 2 of byte 37, in versions 2 and 3, and of every 128K" sound_chip

# libspectrum has it as a Melodik, or as a Fuller box
chip_agrees() {
    local file chips=0
    for file in $(accepted_files | grep /48k-) "$work/silent.z80" "$work/chip2.z80" "$work/chip3.z80" "$work/no_chip2.z80"; do
        run_tool 0 info --json "$file"
        snapdump "$file" >"$work/dump"
        if grep -qE '^Peripherals: .*(Melodik|Fuller box)' "$work/dump"; then
            [ "$(jq .ports.FFFD "$work/out")" -eq "$(($(sed -n 's/^AY: //p' "$work/dump")))" ]
            [ "$(jq -c .ports.sound "$work/out")" = "$(dumped_registers)" ]
            chips=$((chips + 1))
        else
            [ "$(jq .ports "$work/out")" = null ]
        fi
    done
    [ "$chips" -ge 12 ]
}
check "the sound chip of 48K machines and its registers as libspectrum says" chip_agrees

# saves FILE BYTE_35 BYTES: what is written of it has this byte 35 and these bytes 37 to 54; written again it is the same file.
saves() {
    run_tool 0 write "$1" -o "$work/saved.z80"
    [ "$(xxd -s 35 -l 1 -p "$work/saved.z80") $(xxd -s 37 -l 18 -p "$work/saved.z80")" = "$2 $3" ]
    run_tool 0 write "$work/saved.z80" -o "$work/saved_again.z80"
    cmp "$work/saved.z80" "$work/saved_again.z80"
}
# both_save FILE MODE BYTE_35 BYTES: the same of a version 3 file and of one of version 2 with this mode.
both_save() {
    as_version_2 "$work/saving2.z80" "$1" "$2"
    saves "$1" "$3" "$4"
    saves "$work/saving2.z80" "$3" "$4"
}
sound_saved() {
    local bits kept silent registers=f70102030405060708090a0b0c0d0e0f10
    silent=$(printf '%034d' 0)
    for bits in 00 03 40 7B 04 07 44 7F; do
        kept=$([ $((16#$bits & 4)) -eq 0 ] && echo "$silent" || echo "$registers")
        with_sound "$work/saving3.z80" samples/museum-48k.z80 $bits
        both_save "$work/saving3.z80" 00 00 "0$((16#$bits & 7))$kept"
        with_sound "$work/saving3.z80" samples/museum-128k.z80 $bits
        both_save "$work/saving3.z80" 03 13 "0$((16#$bits & 3))$registers"
    done
    saves "$work/no_chip1.z80" 00 "00$silent"
}
check "what is saved of a 48K has its sound chip or none of it, and of a 128K no mark of the chip" sound_saved

# the chip and its registers stay through corrections, and through an undo on another day
sound_edited() {
    with_sound "$work/chip.z80" samples/museum-48k.z80 06
    run_tool 0 write "$work/chip.z80" -o "$work/chip_saved.z80"
    lines 'byte 8000 01' 'pair HL 1234' 'save'
    run_tool 0 edit "$work/chip.z80" -o "$work/chip_edited.z80" --script "$work/script"
    shows_sound "$work/chip_edited.z80" null 6
    lines 'undo 2' 'save'
    run_tool 0 edit "$work/chip_edited.z80" -o "$work/chip_edited.z80" --script "$work/script"
    [ ! -s "$work/err" ]
    cmp "$work/chip_saved.z80" "$work/chip_edited.z80"
    lines 'out 00'
    run_tool 1 edit "$work/chip.z80" -o "$work/never.z80" --script "$work/script"
    grep -qF 'refused, 24: ' "$work/err"
}
check "a 48K with the sound chip is corrected and undone, and has no paging" sound_edited

# a 48K has the sound chip whatever its Ports block holds; the .Z80 file that is written of it says so
scs_chip() {
    local length
    for length in 0 1 2 3 19; do
        { memory_block 48 5 2 0; cpu_block; xxd -r -p <<<"${ports:0:2*length}" | block 2; } | scs 1 >"$work/chip.scs"
        run_tool 0 info "$work/chip.scs"
        grep -qxF "Sound      AY chip, last OUT to FFFD $([ "$length" -lt 3 ] && echo 00 || echo 07)" "$work/out"
        grep -qxF "           registers$([ "$length" -lt 19 ] && printf ' 00%.0s' {1..16} || printf ' %02X' {48..63})" "$work/out"
        if grep '^Paging' "$work/out"; then return 1; fi
        run_tool 0 write "$work/chip.scs" -o - --format z80
        [ "$(xxd -s 35 -l 1 -p "$work/out") $(xxd -s 37 -l 1 -p "$work/out")" = "00 04" ]
    done
    [ "$(xxd -s 38 -l 17 -p "$work/out")" = 07303132333435363738393a3b3c3d3e3f ]
}
check "a 48K of an SCS file always has the sound chip, also where its Ports block is short or empty" scs_chip

# a 48K without the sound chip has it in an SCS file and in what is written of that; nothing else changes
gained_chip() {
    local gained='an SCS file gives every 48K the sound chip; this one had none' file=$work/gained.scs
    patched "$work/silent48.z80" "$work/from48.z80" 38 "$(printf '%034d' 0)"
    patched "$work/chipless.z80" "$work/silent48.z80" 37 00
    loses '' "$work/silent48.z80"
    tells "$work/chipless.z80" "$gained"
    tells "$work/no_chip1.z80" "$gained"
    rich "$work/chipless_rich.z80" tests/files/48k-text.z80 FE 03 03
    tells "$work/chipless_rich.z80" "an SCS file does not hold all of it; lost: attachment, clock, $others" "$gained"
    shows_no_sound "$work/chipless.z80" 0
    run_tool 0 write "$work/chipless.z80" -o "$file" --format scs
    run_tool 0 info "$file"
    grep -qxF 'Sound      AY chip, last OUT to FFFD 00' "$work/out"
    grep -qxF "           registers$(printf ' 00%.0s' {1..16})" "$work/out"
    run_tool 0 write "$file" -o - --format z80
    [ ! -s "$work/err" ]
    cmp "$work/silent48.z80" "$work/out"
    # a log goes on through it
    lines 'byte 8000 5A' 'save'
    run_tool 0 edit "$work/chipless.z80" -o "$work/chip_edited.scs" --format scs --script "$work/script"
    [ "$(cat "$work/err")" = "snapshot: $work/chipless.z80: $gained" ]
    lines 'undo' 'save'
    run_tool 0 edit "$work/chip_edited.scs" -o "$work/chip_edited.scs" --format scs --script "$work/script"
    [ ! -s "$work/err" ]
    cmp "$file" "$work/chip_edited.scs"
}
check "a 48K without the sound chip gains it in an SCS file, and a line says so" gained_chip

chip_and_back() {
    patched "$work/chip48.z80" "$work/from48.z80" 38 0D 39 FFEEDDCCBBAA99887766554433221100
    run_tool 0 write "$work/chip48.z80" -o "$work/chip48.scs" --format scs
    [ ! -s "$work/err" ]
    run_tool 0 write "$work/chip48.scs" -o - --format z80
    cmp "$work/chip48.z80" "$work/out"
}
check "the sound chip of a 48K and its registers come back from an SCS file" chip_and_back
