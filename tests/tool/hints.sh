# Hints after a refusal's sentence, in text and in JSON; the number and the status stay.

# hints NUMBER FILE HINT: both forms of the refusal carry the hint.
hints() {
    refuses "$1" "$2" info "$2"
    grep -qF " ($3)" "$work/err"
    [ "$(tail -c 2 "$work/err")" = ")" ]
    run_tool 1 info --json "$2"
    [ "$(jq -r '"\(.refused) \(.hint)"' "$work/out")" = "$1 $3" ]
    [ ! -s "$work/err" ]
}

other_headers() {
    local long='a version 3 file with the 55-byte header, saved with the last OUT to 1FFD, as of a +3 or +2A'
    long="$long, which is not read"
    hints 3 tests/files/plus3.z80 "$long; mode 7, +3"
    hints 3 tests/files/plus2a.z80 "$long; mode 13"
    hints 3 tests/files/pentagon.z80 "$long; mode 9, Pentagon"
    hints 3 tests/files/scorpion.z80 "$long; mode 10, Scorpion"
    patched "$work/word.z80" samples/museum-48k.z80 30 3930
    hints 3 "$work/word.z80" 'the word at 30 is 12345; it is 23 in version 2 and 54 in version 3'
    # the file may end before its mode
    head -c 32 tests/files/plus3.z80 >"$work/short.z80"
    hints 3 "$work/short.z80" "$long"
}
check "number 3 says which header it is" other_headers

other_machines() {
    hints 4 tests/files/plus2.z80 'mode 12'
    hints 4 tests/files/timex-ts2068.z80 'mode 128, Timex 2068'
    patched "$work/sam3.z80" samples/museum-48k.z80 34 02
    hints 4 "$work/sam3.z80" 'mode 2, SamRam'
    as_version_2 "$work/sam2.z80" samples/museum-48k.z80 02
    hints 4 "$work/sam2.z80" 'mode 2, SamRam'
    as_version_2 "$work/five2.z80" samples/museum-48k.z80 05
    hints 4 "$work/five2.z80" 'mode 5'
    as_version_1 "$work/plain1.z80" samples/museum-48k.z80
    patched "$work/sam1.z80" "$work/plain1.z80" 12 12
    hints 4 "$work/sam1.z80" 'SamRom is switched in: a SamRam'
}
check "number 4 names the mode, and the machine where the description does" other_machines

sixteen() {
    as_version_2 "$work/say2.z80" tests/files/16k.z80 00
    patched "$work/say3.z80" samples/museum-48k.z80 34 03 37 80
    local file
    for file in tests/files/16k.z80 "$work/say2.z80" "$work/say3.z80"; do
        run_tool 0 info "$file"
        grep -qF "Machine    48K (the file says 16K), attachment: " "$work/out"
        run_tool 0 info --json "$file"
        [ "$(jq -c '[.machine, .hardware]' "$work/out")" = '["48K","16K"]' ]
        run_tool 0 write "$file" -o "$work/sixteen.z80"
        [ "$(cat "$work/err")" = "snapshot: $file: says 16K; it is written as a 48K" ]
        echo info >"$work/script"
        run_tool 0 edit "$file" -o "$work/never.z80" --script "$work/script"
        [ "$(cat "$work/err")" = "snapshot: $file: says 16K; it is written as a 48K" ]
        grep -qF "Machine    48K, attachment: " "$work/out"
        # to look at it is to save nothing
        run_tool 0 view "$file" 5
        [ ! -s "$work/err" ]
    done
    # what was written says 48K, as do a 128K and a version 1 file with that bit
    patched "$work/not128.z80" samples/museum-128k.z80 37 80
    as_version_1 "$work/plain1.z80" tests/files/16k.z80
    patched "$work/not1.z80" "$work/plain1.z80" 37 80
    for file in "$work/sixteen.z80" "$work/not128.z80" "$work/not1.z80"; do
        run_tool 0 info --json "$file"
        jq -e '.machine == .hardware' "$work/out"
        run_tool 0 write "$file" -o "$work/says16.z80"
        [ ! -s "$work/err" ]
    done
}
check "a file that says 16K is told, and is written as a 48K" sixteen

byte_at() { xxd -s "$1" -l 1 -p "$work/whole.z80"; }
# the blocks 4 and 5 left out, as a 16K saves itself
sixteen_alone() {
    local at=86 length size
    patched "$work/whole.z80" samples/museum-48k.z80 37 80
    size=$(stat -c %s "$work/whole.z80")
    head -c 86 "$work/whole.z80" >"$work/alone.z80"
    while [ "$at" -lt "$size" ]; do
        length=$((16#$(byte_at $((at + 1)))$(byte_at "$at") + 3))
        if [ "$(byte_at $((at + 2)))" = 08 ]; then
            head -c $((at + length)) "$work/whole.z80" | tail -c "$length" >>"$work/alone.z80"
        fi
        at=$((at + length))
    done
    hints 13 "$work/alone.z80" 'the file says 16K, which has no memory from 8000 upwards; it is read as a 48K'
    patched "$work/alone48.z80" "$work/alone.z80" 37 00
    refuses 13 "$work/alone48.z80" info "$work/alone48.z80"
    [ "$(cat "$work/err")" = "snapshot: $work/alone48.z80: refused, 13: a block is missing" ]
}
check "number 13 of a file that says 16K says so" sixteen_alone
