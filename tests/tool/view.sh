# view: the dump gives every byte of the page or range, held to libspectrum's sums of the same pages.

# The bytes of a dump: rows, and for a star the row before up to the next offset.
bytes_of_dump() {
    local offset text row="" at=""
    while read -r offset text; do
        case $offset in Page | Addresses | "*") continue ;; esac
        at=${at:-$((16#$offset))}
        while [ $at -lt $((16#$offset)) ]; do echo "$row"; at=$((at + 16)); done
        row=${text%%|*}
        echo "$row"
        at=$((at + 16))
    done | xxd -r -p
}

pages_agree() {
    local file page sum count=0
    for file in tests/files/128k-text.z80 tests/files/48k-mixed-pages.z80 tests/files/128k-zero-pages.z80; do
        while read -r page sum; do
            run_tool 0 view "$file" "$page"
            [ "$(bytes_of_dump <"$work/out" | sha1sum)" = "$sum  -" ]
            run_tool 0 view "$file" "$page" --raw
            [ "$(sha1sum <"$work/out")" = "$sum  -" ]
            count=$((count + 1))
        done < <(snapdump "$file" | sed -nE 's/^ram_page_([0-9]) size: 0x4000, sha1: ([0-9a-f]+)$/\1 \2/p')
    done
    [ "$count" -ge 19 ]
}
check "every page as libspectrum has it, as hex and as bytes" pages_agree

rom_pages() {
    head -c 16384 /dev/urandom >"$work/rom0"
    head -c 16384 /dev/urandom >"$work/rom1"
    cat "$work/rom0" "$work/rom1" >"$work/rom01"
    run_tool 0 view samples/museum-48k.z80 8 --rom "$work/rom0"
    bytes_of_dump <"$work/out" | cmp - "$work/rom0"
    run_tool 0 view samples/museum-128k.z80 9 --rom "$work/rom01"
    bytes_of_dump <"$work/out" | cmp - "$work/rom1"
    run_tool 2 view samples/museum-48k.z80 8
    grep -qF -- "--rom" "$work/err"
    refuses 31 "$work/rom01" view samples/museum-48k.z80 8 --rom "$work/rom01"
    refuses 31 "$work/rom0" view samples/museum-128k.z80 9 --rom "$work/rom0"
}
check "ROM pages from a ROM file, and a ROM of the wrong length" rom_pages

lacking_pages() {
    local page
    for page in 1 3 4 6 7 9; do
        refuses 30 samples/museum-48k.z80 view samples/museum-48k.z80 "$page"
        grep -qE ' page$' "$work/err"
    done
    for page in 10 255 256 4000 4294967296 99999999999999999999; do
        refuses 30 samples/museum-48k.z80 view samples/museum-48k.z80 "$page"
        grep -qE ' page \(pages are 0 to 9; addresses are a range, as in 4000\.\.40FF\)$' "$work/err"
    done
    refuses 30 samples/museum-128k.z80 view samples/museum-128k.z80 10
}
check "a page that the machine does not have is refused as 30" lacking_pages

left_column() {
    run_tool 0 view samples/museum-128k.z80 5
    [ "$(sed -n 1p "$work/out")" = "Page 5 of samples/museum-128k.z80, RAM, at 4000-7FFF" ]
    [ "$(sed -n '2p;$p' "$work/out" | cut -d ' ' -f 1 | paste -s -d ' ')" = "4000 7FF0" ]
    run_tool 0 view samples/museum-128k.z80 0
    [ "$(sed -n '2p;$p' "$work/out" | cut -d ' ' -f 1 | paste -s -d ' ')" = "C000 FFF0" ]
    run_tool 0 view samples/museum-128k.z80 3
    [ "$(sed -n 1p "$work/out")" = "Page 3 of samples/museum-128k.z80, RAM, not paged in: offsets in it" ]
    [ "$(sed -n '2p;$p' "$work/out" | cut -d ' ' -f 1 | paste -s -d ' ')" = "0000 3FF0" ]
    patched "$work/twice.z80" samples/museum-128k.z80 35 05
    run_tool 0 view "$work/twice.z80" 5
    [ "$(sed -n 1p "$work/out")" = "Page 5 of $work/twice.z80, RAM, at 4000-7FFF and C000-FFFF" ]
}
check "the left column of a page has addresses where it is paged in, offsets where not" left_column

# shows_range FILE RANGE FIRST LAST: the range as hex and as bytes is that part of $work/memory, which holds 4000 upwards.
shows_range() {
    head -c $((16#$4 - 16#4000 + 1)) "$work/memory" | tail -c $((16#$4 - 16#$3 + 1)) >"$work/part"
    run_tool 0 view "$1" "$2"
    bytes_of_dump <"$work/out" | cmp - "$work/part"
    [ "$(sed -n 2p "$work/out" | cut -d ' ' -f 1)" = "${3:0:3}0" ]
    run_tool 0 view "$1" "$2" --raw
    cmp "$work/out" "$work/part"
}
ranges() {
    local page
    patched "$work/paged.z80" tests/files/128k-text.z80 35 03
    for page in 5 2 3; do "$tool" view "$work/paged.z80" "$page" | bytes_of_dump; done >"$work/memory"
    [ "$(stat -c %s "$work/memory")" -eq 49152 ]
    shows_range "$work/paged.z80" 4000..57FF 4000 57FF
    shows_range "$work/paged.z80" 0x4000..0xffff 4000 FFFF
    shows_range "$work/paged.z80" '$7ff9..#c006' 7FF9 C006
    shows_range "$work/paged.z80" 8000..8000 8000 8000
    shows_range "$work/paged.z80" 0XABCD..abd1 ABCD ABD1
    shows_range "$work/paged.z80" FFFF..FFFF FFFF FFFF
    for page in 5 2 0; do "$tool" view tests/files/48k-zero-pages.z80 "$page" | bytes_of_dump; done >"$work/memory"
    shows_range tests/files/48k-zero-pages.z80 4003..FFFC 4003 FFFC
}
check "a range of addresses, as paging is now, over the borders of pages, to the byte" ranges

padded_rows() {
    run_tool 0 view samples/museum-48k.z80 7FFE..8013
    cat >"$work/expected" <<'ROWS'
Addresses 7FFE-8013 of samples/museum-48k.z80, page 5, page 2
7FF0                                             00 00  |              ..|
8000  21 11 80 7E D3 FE 3C E6  07 77 06 19 76 10 FD 18  |!..~..<..w..v...|
8010  EF 02 41 20                                       |..A             |
ROWS
    diff "$work/expected" "$work/out"
}
check "partial rows are padded, so that a byte's column is the last digit of its address" padded_rows

wrong_ranges() {
    local range
    for range in 4000.. ..4000 .. 4000..10000 4000..57FG 4000-57FF 4000...57FF 0x..4000 4000..0x '4000.. 5000' \
        -1..4000 4000..5000..6000 '$$4000..5000'; do
        run_tool 2 view samples/museum-48k.z80 -- "$range"
        grep -qF "'$range' is neither a page, as in 5, nor a range of addresses, as in 4000..57FF" "$work/err"
        [ ! -s "$work/out" ]
    done
    for range in 4001..4000 0xC00F..C000; do
        run_tool 2 view samples/museum-48k.z80 "$range"
        [ "$(cat "$work/err")" = "snapshot: '$range' is no range of addresses: the first is above the last" ]
        [ ! -s "$work/out" ]
    done
}
check "what is no page and no range is named" wrong_ranges

rom_ranges() {
    "$tool" view samples/museum-48k.z80 5 | bytes_of_dump >"$work/ram"
    { tail -c 16 "$work/rom0"; head -c 16 "$work/ram"; } >"$work/part"
    run_tool 0 view samples/museum-48k.z80 3FF0..400F --raw --rom "$work/rom0"
    cmp "$work/part" "$work/out"
    run_tool 0 view samples/museum-48k.z80 0..3fff --rom "$work/rom0"
    bytes_of_dump <"$work/out" | cmp - "$work/rom0"
    # bit 4 of the last OUT to 7FFD
    run_tool 0 view samples/museum-128k.z80 0..3FFF --raw --rom "$work/rom01"
    cmp "$work/rom1" "$work/out"
    patched "$work/bit4.z80" samples/museum-128k.z80 35 08
    run_tool 0 view "$work/bit4.z80" 0..3FFF --raw --rom "$work/rom01"
    cmp "$work/rom0" "$work/out"
    run_tool 2 view samples/museum-48k.z80 3FFF..4000
    grep -qF -- "--rom" "$work/err"
    [ ! -s "$work/out" ]
    refuses 31 "$work/rom01" view samples/museum-48k.z80 3FFF..4000 --rom "$work/rom01"
}
check "addresses below 4000 are in the ROM that is paged in, and need it" rom_ranges
