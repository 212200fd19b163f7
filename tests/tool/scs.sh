# SCS files: made here from the description, a block at a time; every command on them; refusals; what is written and lost.

# le32 NUMBER: its four bytes, the low one first. block NUMBER [SIZE]: standard input as a block, of another size where it says so.
le32() { printf "$(printf '\\x%02x' $(($1 & 255)) $(($1 >> 8 & 255)) $(($1 >> 16 & 255)) $(($1 >> 24 & 255)))"; }
block() {
    cat >"$work/data"
    printf "\\x$(printf %02x "$1")"
    le32 "${2:-$(stat -c %s "$work/data")}"
    cat "$work/data"
}
# scs HARDWARE: a header before the blocks of standard input. Its emulator is not ASCD: that does not count.
scs() { printf "SamSnap!TEST\\x7\\x8\\x$(printf %02x "$1")"; cat; }

# each register another value; bits that do not count are set: of the interrupt mode, the IFFs, the border and the OUT to FFFD
cpu=0102030405060708111213141516171820212223248126913FC5FE0AAAAABBBBCCCC
ports=FD13F7303132333435363738393A3B3C3D3E3F
cpu_block() { xxd -r -p <<<"$cpu" | block 1; }
ports_block() { xxd -r -p <<<"$ports" | block 2; }
memory_block() { cat $(printf "$work/page$1.%s " ${*:2}) | block 3; }

make_scs_files() {
    local page model
    for page in 0 2 5; do "$tool" view tests/files/48k-text.z80 "$page" --raw >"$work/page48.$page"; done
    for page in {0..7}; do "$tool" view tests/files/128k-text.z80 "$page" --raw >"$work/page128.$page"; done
    { memory_block 48 5 2 0; cpu_block; ports_block; printf '\0'; } | scs 1 >"$work/48.scs"
    # in another order, with blocks that are skipped, and an end that something follows
    { memory_block 128 {0..7}; echo air | block 33; ports_block; : | block 255; cpu_block; printf '\0\1\2\3'; } | scs 2 >"$work/128.scs"
    for model in 48 128; do
        gzip -c "$work/$model.scs" >"$work/$model.scs.gz"
        "$tool" write "$work/$model.scs" -o "$work/from$model.z80" --format z80 2>"$work/err"
        [ ! -s "$work/err" ]
    done
    [ "$(stat -c %s "$work/48.scs" "$work/128.scs" | paste -s -d ' ')" = "$((15 + 15 + 49152 + 34 + 19 + 1)) $((15 + 25 + 131072 + 34 + 19 + 4 + 4))" ]
}
check "SCS files of a 48K and a 128K, and the .Z80 files that are written of them" make_scs_files

scs_machine() {
    local model ending registers out=null
    registers='[258,772,1286,1800,4370,4884,5398,5912,8480,8994,37158,33060,63,197]'
    for model in 48 128; do
        for ending in scs scs.gz; do
            run_tool 0 info --json "$work/$model.$ending"
            [ ! -s "$work/err" ]
            [ "$(jq -c '[.machine, .hardware, .attachment, .registers[]]' "$work/out")" = "[\"${model}K\",\"${model}K\",\"none\",${registers#[}" ]
            [ "$(jq -c '[.interrupts[], .border]' "$work/out")" = '[2,false,true,5]' ]
            [ "$(jq -c .ports "$work/out")" = '{"7FFD":'$out',"FFFD":7,"sound":[48,49,50,51,52,53,54,55,56,57,58,59,60,61,62,63]}' ]
            [ "$(jq -c '[.clock.position, .emulation.bytes_59_61_85]' "$work/out")" = '[0,[0,255,255,0,0,0,0,0,0,0,0,0,0,0,0,0,0,0,0,0,0,0,0,0,0,0]]' ]
        done
        out=19
    done
}
check "the machine of an SCS file, each register and port by the description" scs_machine

scs_format() {
    local model length wrapped
    for model in 48 128; do
        length=$(stat -c %s "$work/$model.scs") wrapped=$(stat -c %s "$work/$model.scs.gz")
        run_tool 0 info "$work/$model.scs"
        [ "$(sed -n 2p "$work/out")" = "Format     SCS, $length bytes" ]
        sed 1,2d "$work/out" >"$work/machine"
        run_tool 0 info "$work/$model.scs.gz"
        [ "$(sed -n 2p "$work/out")" = "Format     SCS in gzip, $wrapped bytes, $length unwrapped" ]
        sed 1,2d "$work/out" | diff "$work/machine" -
        run_tool 0 info "$work/from$model.z80"
        sed 1,2d "$work/out" | diff "$work/machine" -
        run_tool 0 info --json "$work/$model.scs"
        [ "$(jq -c '[.format, .version, .length, .unwrapped]' "$work/out")" = "[\"SCS\",null,$length,null]" ]
        run_tool 0 info --json "$work/$model.scs.gz"
        [ "$(jq -c '[.format, .version, .length, .unwrapped]' "$work/out")" = "[\"SCS\",null,$wrapped,$length]" ]
    done
    run_tool 0 info --json samples/museum-48k.z80
    [ "$(jq -c '[.format, .version, .length, .unwrapped]' "$work/out")" = '["Z80",3,3621,null]' ]
}
check "info tells an SCS file, in gzip or not, and its length" scs_format

scs_pages() {
    local model page count=0
    for model in 48 128; do
        for page in $(cd "$work" && ls page$model.? | sed 's/.*\.//'); do
            run_tool 0 view "$work/$model.scs" "$page" --raw
            cmp "$work/page$model.$page" "$work/out"
            run_tool 0 view "$work/$model.scs.gz" "$page" --raw
            cmp "$work/page$model.$page" "$work/out"
            count=$((count + 1))
        done
    done
    [ "$count" -eq 11 ]
    refuses 30 "$work/48.scs" view "$work/48.scs" 1
    # short memory is filled with zeros, the rest of a long one is left out
    { { cat "$work/page128.0"; head -c 616 "$work/page128.1"; } | block 3; cpu_block; ports_block; } | scs 1 >"$work/short.scs"
    run_tool 0 view "$work/short.scs" 8000..BFFF --raw
    { head -c 616 "$work/page128.1"; head -c 15768 /dev/zero; } | cmp - "$work/out"
    { cat "$work"/page128.? | block 3; cpu_block; ports_block; } | scs 1 >"$work/long.scs"
    run_tool 0 view "$work/long.scs" 0 --raw
    cmp "$work/page128.2" "$work/out"
}
check "every page of an SCS file is its part of the Memory block" scs_pages

# every_command FILE MODEL: what each command makes of it is what it makes of the .Z80 file.
every_command() {
    local words file=$1 z80=$work/from$2.z80
    for words in 'view 5' 'view 7FF0..8010' 'find the' 'find --hex 7468'; do
        set -- $words
        run_tool 0 "$1" "$z80" "${@:2}"
        [ -s "$work/out" ]
        mv "$work/out" "$work/shown"
        run_tool 0 "$1" "$file" "${@:2}"
        sed "s|$z80|$file|" "$work/shown" | diff - "$work/out"
        as_input 0 "$file" "$1" - "${@:2}"
        sed "s|$z80|standard input|" "$work/shown" | diff - "$work/out"
    done
    rm -f "$work/scs.png" "$work/input.png" "$work/again.z80"
    run_tool 0 screen "$file" "$work/scs.png"
    "$work/pixels" "$work/scs.png" "$z80"
    as_input 0 "$file" screen - "$work/input.png"
    cmp "$work/scs.png" "$work/input.png"
    run_tool 0 write "$file" -o "$work/again.z80"
    cmp "$z80" "$work/again.z80"
    as_input 0 "$file" write - -o -
    cmp "$z80" "$work/out"
    as_input 0 "$file" write - -o - --format scs
    [ ! -s "$work/err" ]
    mv "$work/out" "$work/expected"
    run_tool 0 write "$z80" --format scs -o -
    cmp "$work/expected" "$work/out"
}
scs_commands() {
    local model
    for model in 48 128; do
        every_command "$work/$model.scs" "$model"
        every_command "$work/$model.scs.gz" "$model"
    done
}
check "view, find, screen and write of an SCS file, from standard input too, are those of the .Z80 file" scs_commands

# refuses_scs NUMBER SENTENCE [OFFSET BLOCK]: standard input is a file that is refused so, with this hint or none, in gzip and by
# every command.
refuses_scs() {
    local file words place number
    cat >"$work/bad.scs"
    gzip -c "$work/bad.scs" >"$work/bad.scs.gz"
    for file in "$work/bad.scs" "$work/bad.scs.gz"; do
        place=$([ "$file" = "$work/bad.scs" ] || echo " of the unwrapped file")
        number=$1${3:+ at byte $3$place (block $4)}
        refuses "$number" "$file" info "$file"
        [ "$(cat "$work/err")" = "snapshot: $file: refused, $number: $2" ]
        run_tool 1 info --json "$file"
        [ "$(jq -r '"\(.refused): \(.sentence)\(if .hint then " (\(.hint))" else "" end)"' "$work/out")" = "$1: $2" ]
        [ "$(jq -c '[.offset, .block]' "$work/out")" = "[${3:-0},${4:-0}]" ]
    done
    for words in "view $file 5" "find $file the" "screen $file $work/never.png" "write $file -o $work/never.z80" "edit $file -o $work/never.z80"; do
        refuses "$number" "$file" $words
    done
    [ ! -e "$work/never.png" ]
    [ ! -e "$work/never.z80" ]
}
scs_refusals() {
    local none='the file is no SCS file of a 48K or 128K Spectrum' first='the first block is not the Memory block'
    local twice='the CPU, Ports or Memory block comes twice' missing='the CPU block or the Ports block is missing'
    head -c 14 "$work/48.scs" | refuses_scs 2 'the file is shorter than its header'
    head -c 8 "$work/48.scs" | refuses_scs 2 'the file is shorter than its header'
    : | scs 0 | refuses_scs 40 "$none (hardware number 0, the Sam itself)"
    : | scs 3 | refuses_scs 40 "$none (hardware number 3; it is 1 for a 48K and 2 for a 128K)"
    : | scs 2 | refuses_scs 43 "$first (the file ends after its header)"
    printf '\0' | scs 1 | refuses_scs 43 "$first (the first block has number 0, the end; it is 3 for Memory)"
    { cpu_block; : | block 3; ports_block; } | scs 1 | refuses_scs 43 "$first (the first block has number 1, CPU; it is 3 for Memory)"
    { : | block 32; : | block 3; } | scs 1 | refuses_scs 43 "$first (the first block has number 32; it is 3 for Memory)"
    { : | block 3; cpu_block; : | block 3; } | scs 1 | refuses_scs 42 "$twice (its number is 3, Memory)" 59 3
    { : | block 3; ports_block; ports_block; cpu_block; } | scs 1 | refuses_scs 42 "$twice (its number is 2, Ports)" 44 3
    : | block 3 | scs 1 | refuses_scs 41 "$missing (there is neither)"
    { : | block 3; cpu_block; } | scs 2 | refuses_scs 41 "$missing (there is no Ports block)"
    # behind the end nothing is read
    { : | block 3; ports_block; printf '\0'; cpu_block; } | scs 2 | refuses_scs 41 "$missing (there is no CPU block)"
    { : | block 3; cpu_block; ports_block; } | scs 1 >"$work/whole.scs"
    patched "$work/mode3.scs" "$work/whole.scs" 51 FF
    refuses_scs 5 'the interrupt mode is 3' <"$work/mode3.scs"
}
scs_cut() {
    local cut='a block is cut short'
    head -c 19 "$work/48.scs" | refuses_scs 8 "$cut (its number is 3, Memory, and its head is cut)" 15 1
    head -c 100 "$work/48.scs" | refuses_scs 8 "$cut (its number is 3, Memory; it says 49152 bytes and has 80)" 15 1
    # before it could be seen that the block comes twice
    { : | block 3; cpu_block; : | block 1 1; } | scs 1 | refuses_scs 8 "$cut (its number is 1, CPU; it says 1 bytes and has 0)" 59 3
    { : | block 3; echo air | block 33 4294967295; } | scs 1 | refuses_scs 8 "$cut (its number is 33; it says 4294967295 bytes and has 4)" 20 2
}
check "each refusal of an SCS file, by every command, with what helps" scs_refusals
check "a block that is cut is told by its place, its number and its length" scs_cut
