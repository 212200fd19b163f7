# screen: every pixel of the picture, held to the screen memory by way of libpng's reader.

gcc "${strict[@]}" "${sanitized[@]}" tests/tool/pixels.c "$lib" -lpng -o "$work/pixels" || exit 1

pictures() {
    local file
    for file in samples/museum-48k.z80 samples/museum-128k.z80 tests/files/48k-screens.z80 tests/files/128k-screens.z80 tests/files/128k-noise.z80; do
        run_tool 0 screen "$file" "$work/screen.png"
        "$work/pixels" "$work/screen.png" "$file"
    done
}
check "every pixel of screen and border" pictures

second_screen() {
    echo 'out 00
byte 4000 FF
out 08
save' >"$work/script"
    run_tool 0 edit samples/museum-128k.z80 -o "$work/two.z80" --script "$work/script"
    run_tool 0 screen "$work/two.z80" "$work/seven.png"
    "$work/pixels" "$work/seven.png" "$work/two.z80"
    echo 'out 00
save' >"$work/script"
    run_tool 0 edit "$work/two.z80" -o "$work/two.z80" --script "$work/script"
    run_tool 0 screen "$work/two.z80" "$work/five.png"
    "$work/pixels" "$work/five.png" "$work/two.z80"
    ! cmp "$work/seven.png" "$work/five.png"
}
check "page 7 is shown exactly where bit 3 of the last OUT says so" second_screen

scaled() {
    local scale
    for scale in 1 2 3 8; do
        run_tool 0 screen tests/files/128k-screens.z80 "$work/scaled.png" --scale "$scale"
        "$work/pixels" "$work/scaled.png" tests/files/128k-screens.z80 "$scale"
    done
    run_tool 0 screen samples/museum-48k.z80 "$work/plain.png"
    run_tool 0 screen samples/museum-48k.z80 "$work/one.png" --scale 1
    cmp "$work/plain.png" "$work/one.png"
}
check "--scale: every dot of every pixel" scaled

chosen_page() {
    local page
    for page in 5 7; do
        run_tool 0 screen tests/files/128k-screens.z80 "$work/chosen.png" --page "$page"
        "$work/pixels" "$work/chosen.png" tests/files/128k-screens.z80 1 "$page"
    done
    run_tool 0 screen samples/museum-48k.z80 "$work/chosen.png" --page 5
    rm -f "$work/chosen.png"
    refuses 30 samples/museum-48k.z80 screen samples/museum-48k.z80 "$work/chosen.png" --page 7
    [ ! -e "$work/chosen.png" ]
}
check "--page: the screen in page 5 or 7, and page 7 refused as 30 on a 48K" chosen_page

screen_bytes() {
    local page
    for page in 5 7; do
        "$tool" view tests/files/128k-screens.z80 "$page" | bytes_of_dump >"$work/page"
        head -c 6912 "$work/page" >"$work/part"
        run_tool 0 screen tests/files/128k-screens.z80 "$work/bytes.scr" --scr --page "$page"
        cmp "$work/part" "$work/bytes.scr"
    done
    # without --page it is the one that is shown
    "$tool" view samples/museum-128k.z80 7 | bytes_of_dump >"$work/page"
    head -c 6912 "$work/page" >"$work/part"
    run_tool 0 screen samples/museum-128k.z80 "$work/bytes.scr" --scr
    cmp "$work/part" "$work/bytes.scr"
}
check "--scr: the 6,912 bytes of the screen" screen_bytes

wrong_screens() {
    local value
    for value in 0 9 10 -1 two 1.5 ''; do
        run_tool 2 screen samples/museum-48k.z80 "$work/wrong.png" --scale "$value"
        grep -qF "'--scale' takes 1..8, not '$value'" "$work/err"
    done
    for value in 0 6 8 57 ''; do
        run_tool 2 screen samples/museum-48k.z80 "$work/wrong.png" --page "$value"
        grep -qF "'--page' takes 5|7, not '$value'" "$work/err"
    done
    run_tool 2 screen samples/museum-48k.z80 "$work/wrong.png" --scr --scale 2
    grep -qF "'--scr' and '--scale'" "$work/err"
    [ ! -e "$work/wrong.png" ]
}
check "values of --scale and --page that are none are named" wrong_screens
