# info: held to what libspectrum's snapdump says of the same files.

accepted_files() {
    awk '$2 == 0 { print "tests/files/" $1 }' tests/files/expected.txt
}

# What both programs say, a line a fact, numbers in decimal.
facts_of_snapdump() {
    snapdump "$1" | sed -nE \
        -e "s/^(PC|SP|AF|AF'|BC|BC'|DE|DE'|HL|HL'|IX|IY|I|R): +(0x[0-9A-F]+)$/\1 \2/p" \
        -e 's/^(IFF1|IFF2|IM): +([0-9])$/\1 \2/p' \
        -e 's/^ULA: 0?([0-9A-F]+)$/border 0x\1/p' |
        while read -r name value; do echo "$name $((value))"; done | sort
}
facts_of_info() {
    "$tool" info --json "$1" | jq -r '
        (.registers | to_entries[] | "\(.key) \(.value)"),
        "IFF1 \(if .interrupts.iff1 then 1 else 0 end)", "IFF2 \(if .interrupts.iff2 then 1 else 0 end)",
        "IM \(.interrupts.mode)", "border \(.border)"' | sort
}
info_agrees() {
    local file count=0
    for file in $(accepted_files) samples/*.z80; do
        facts_of_snapdump "$file" >"$work/theirs"
        facts_of_info "$file" >"$work/ours"
        [ "$(wc -l <"$work/ours")" -eq 18 ]
        diff "$work/theirs" "$work/ours"
        count=$((count + 1))
    done
    [ "$count" -ge 20 ]
}
check "registers, interrupts and border as libspectrum says, in every stored file" info_agrees

# dumped_registers: the sound registers in $work/dump, as JSON.
dumped_registers() { echo "[$(printf '%d,' $(sed -n 's/^AY registers: //p' "$work/dump" | sed -E 's/[^ ]+/0x&/g') | sed 's/,$//')]"; }
ports_agree() {
    local file count=0
    for file in $(accepted_files | grep /128k-) samples/museum-128k.z80; do
        "$tool" info --json "$file" >"$work/json"
        snapdump "$file" >"$work/dump"
        [ "$(jq '.ports."7FFD"' "$work/json")" -eq "$(($(sed -nE 's/^128 mem: //p' "$work/dump")))" ]
        [ "$(jq '.ports.FFFD' "$work/json")" -eq "$(($(sed -nE 's/^AY: //p' "$work/dump")))" ]
        [ "$(jq -c '.ports.sound' "$work/json")" = "$(dumped_registers)" ]
        [ "$(jq '.clock.position' "$work/json")" -eq "$(sed -nE 's/^tstates: //p' "$work/dump")" ]
        count=$((count + 1))
    done
    [ "$count" -ge 10 ]
}
check "ports and clock of 128K machines as libspectrum says" ports_agree

info_text() {
    run_tool 0 info samples/museum-48k.z80
    grep -qF "Machine    48K, attachment: none" "$work/out"
    grep -qF "IX  0000   IY  5C3A   SP  BFF0   PC  8000" "$work/out"
    grep -qF "Border     1, blue" "$work/out"
    grep -qF "2  at 8000-BFFF     34 bytes not zero" "$work/out"
    run_tool 0 info samples/museum-128k.z80
    grep -qF "last OUT to 7FFD 18, not locked" "$work/out"
    grep -qF "page 0 at C000, screen in page 7, ROM 1" "$work/out"
    run_tool 0 info --json samples/museum-48k.z80
    [ "$(jq -c '.ports, .pages[2]' "$work/out" | paste -s -d ' ')" = 'null {"page":5,"addresses":[16384],"not_zero":3140}' ]
}
check "info as text and as JSON, 48K and 128K" info_text

odd_names() {
    local name=$'a"b\\c\td\xff\xe2\x82\xac.z80'
    cp samples/museum-48k.z80 "$work/$name"
    run_tool 0 info --json "$work/$name"
    iconv -f UTF-8 -t UTF-8 "$work/out" >"$work/text"
    [ "$(jq -r .file "$work/out")" = "$work/"$'a"b\\c\td\xef\xbf\xbd\xe2\x82\xac.z80' ]
    # what ends a line, moves the cursor or turns the direction is escaped; what stands beside it is not
    name=$'\x7f\xc2\x80\xc2\x9f\xe2\x80\xa8\xe2\x80\xa9\xe2\x80\xaa\xe2\x80\xae\xe2\x81\xa6\xe2\x81\xa9'
    local beside=$'\xc2\xa0\xe2\x80\xa7\xe2\x80\xaf\xe2\x81\xa5\xe2\x81\xaa.z80'
    local escaped='\u007f\u0080\u009f\u2028\u2029\u202a\u202e\u2066\u2069'
    cp samples/museum-48k.z80 "$work/$name$beside"
    names_file 0
    : >"$work/$name$beside"
    names_file 1
    rm "$work/$name$beside"
    names_file 3
}
# names_file STATUS: info ends with it, and has the name escaped.
names_file() {
    run_tool "$1" info --json "$work/$name$beside"
    grep -qF "\"file\": \"$work/$escaped$beside\"" "$work/out"
    [ "$(jq -r .file "$work/out")" = "$work/$name$beside" ]
}
check "JSON stays well formed for every file name" odd_names

refused_files() {
    local file number rest count=0
    while read -r file number rest; do
        if [ "$number" = 0 ]; then continue; fi
        refuses "$number" "tests/files/$file" info "tests/files/$file"
        count=$((count + 1))
    done < <(grep -E '^[^ ]+\.z80 ' tests/files/expected.txt)
    [ "$count" -ge 5 ]
}
check "every refused stored file with its number" refused_files

# patched OUT FILE PLACE HEX..: a copy of a file with other bytes from a place on, as often as there are two words.
patched() {
    local out=$1
    cp "$2" "$out"
    shift 2
    while [ $# -gt 0 ]; do
        xxd -r -p <<<"$2" | dd of="$out" bs=1 seek="$1" conv=notrunc status=none
        shift 2
    done
}
# as_version_2 OUT FILE MODE: a version 3 file as one of version 2; as_version_1 OUT FILE: its registers over empty memory.
as_version_2() {
    {
        head -c 30 "$2"
        printf '\x17\0'
        head -c 34 "$2" | tail -c 2
        xxd -r -p <<<"$3"
        head -c 55 "$2" | tail -c 20
        tail -c +87 "$2"
    } >"$1"
}
as_version_1() {
    { head -c 6 "$2"; head -c 34 "$2" | tail -c 2; head -c 30 "$2" | tail -c 22; head -c 49152 /dev/zero; } >"$1"
}

versions() {
    local version
    # its memory begins as the second part of a version 3 header does
    as_version_1 "$work/plain1.z80" samples/museum-48k.z80
    patched "$work/version1.z80" "$work/plain1.z80" 30 3600
    as_version_2 "$work/version2.z80" samples/museum-128k.z80 03
    cp samples/museum-48k.z80 "$work/version3.z80"
    for version in 1 2 3; do
        run_tool 0 info "$work/version$version.z80"
        [ "$(sed -n 2p "$work/out")" = "Format     version $version, $(stat -c %s "$work/version$version.z80") bytes" ]
        sed 2d "$work/out" >"$work/machine"
        run_tool 0 info --json "$work/version$version.z80"
        [ "$(jq -c '[.version, .length]' "$work/out")" = "[$version,$(stat -c %s "$work/version$version.z80")]" ]
        # what is edited is a machine, not a file
        echo info >"$work/script"
        run_tool 0 edit "$work/version$version.z80" -o "$work/never.z80" --script "$work/script"
        diff "$work/machine" "$work/out"
    done
    [ "$(stat -c %s "$work/version1.z80")" -eq 49182 ]
}
check "the version and length of the file, in info and not in an edited machine" versions

# with_sound OUT FILE BYTE_37: a file with sound registers, a last OUT to 7FFD and this byte 37.
with_sound() { patched "$1" "$2" 35 13 37 "$3" 38 F7 39 0102030405060708090A0B0C0D0E0F10; }

two_places() {
    patched "$work/five.z80" samples/museum-128k.z80 35 05
    patched "$work/two.z80" samples/museum-128k.z80 35 02
    run_tool 0 info "$work/five.z80"
    grep -qxE ' +5  at 4000-7FFF and C000-FFFF +33 bytes not zero' "$work/out"
    grep -qxE ' +2  at 8000-BFFF +34 bytes not zero' "$work/out"
    grep -qxE 'Pages +0  not paged in +33 bytes not zero' "$work/out"
    run_tool 0 info "$work/two.z80"
    grep -qxE ' +2  at 8000-BFFF and C000-FFFF +34 bytes not zero' "$work/out"
    run_tool 0 info --json "$work/five.z80"
    [ "$(jq -c '[.pages[] | .addresses]' "$work/out")" = "[[],[],[32768],[],[],[16384,49152],[],[]]" ]
    run_tool 0 info --json "$work/two.z80"
    [ "$(jq -c '[.pages[] | .addresses]' "$work/out")" = "[[],[],[32768,49152],[],[],[16384],[],[]]" ]
}
check "both addresses of a page that is seen twice" two_places

narrow() {
    local file
    # the longest names of settings, page 5 at two places, a number of five digits in each page
    patched "$work/wide.z80" tests/files/128k-noise.z80 29 9D 34 06 35 25 59 FF
    for file in "$work/wide.z80" $(accepted_files) samples/*.z80; do
        run_tool 0 info "$file"
        sed 1d "$work/out" >"$work/lines"
        [ "$(wc -l <"$work/lines")" -ge 16 ]
        if grep -E '.{81}' "$work/lines"; then false; fi
    done
}
check "no line of info is wider than 80 columns" narrow

json_refusals() {
    local file number rest count=0
    while read -r file number rest; do
        if [ "$number" = 0 ]; then continue; fi
        run_tool 1 info "tests/files/$file"
        mv "$work/err" "$work/told"
        run_tool 1 info --json "tests/files/$file"
        [ ! -s "$work/err" ]
        # the same in both forms
        jq -r '"snapshot: \(.file): refused, \(.refused): \(.sentence)\(if .hint then " (\(.hint))" else "" end)"' \
            "$work/out" | diff "$work/told" -
        [ "$(jq .refused "$work/out")" -eq "$number" ]
        count=$((count + 1))
    done < <(grep -E '^[^ ]+\.z80 ' tests/files/expected.txt)
    [ "$count" -ge 5 ]
    head -c 100 samples/museum-48k.z80 >"$work/cut.z80"
    run_tool 1 info "$work/cut.z80" --json
    [ "$(cat "$work/out")" = '{"refused": 8, "offset": 86, "block": 1, "found": 0, "due": 0, "unwrapped": null, "sentence": "a block is cut short", "explanation": "block 1, at byte 86: the file ends inside it", "file": "'"$work"'/cut.z80"}' ]
    [ ! -s "$work/err" ]
}
check "a refusal under --json is JSON, alone" json_refusals

json_errors() {
    run_tool 3 info --json "$work/absent"
    [ "$(cat "$work/out")" = '{"error": "cannot be opened: No such file or directory", "file": "'"$work"'/absent"}' ]
    [ ! -s "$work/err" ]
    run_tool 3 info --json "$work"
    [ "$(jq -r .error "$work/out")" = "is a directory" ]
    head -c 524383 /dev/zero >"$work/longest"
    run_tool 3 info --json "$work/longest"
    [ "$(jq -r .error "$work/out")" = "longer than any file of its kind" ]
    [ ! -s "$work/err" ]
}
check "a system error under --json is JSON, alone" json_errors
