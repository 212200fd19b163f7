# The examples, with the archive under the sanitizers and with the installed library, from this folder and from another.

examples=(server_slots corrections)

example() {
    local name
    for name in "${examples[@]}"; do
        gcc "${strict[@]}" "${sanitized[@]}" "examples/$name.c" "$lib" -o "$work/$name"
        "$work/$name" >"$work/$name.out"
        diff "examples/$name.out" "$work/$name.out"
    done
    grep -qF 'museum-48k.z80 page 1: refused, 30: ' "$work/server_slots.out"
    grep -qE '^one: undo +page 3 is at C000; 0 says "This is page 0", 3 says "This is page 3"$' "$work/corrections.out"
}
check "the example prints what is stored, and so does the other, under the sanitizers" example

# the programs that README has people build
example_elsewhere() {
    local name root=$PWD
    use_installed "$work/usr"
    mkdir -p "$work/elsewhere"
    cd "$work/elsewhere"
    for name in "${examples[@]}"; do
        gcc "$root/examples/$name.c" $(pkg-config --cflags --libs snapshot) -o shared
        gcc -static "$root/examples/$name.c" $(pkg-config --static --cflags --libs snapshot) -o static
        needs_shared shared
        if needs_shared static; then return 1; fi
        ./shared "$root/samples" | diff "$root/examples/$name.out" -
        ./static "$root/samples" | diff "$root/examples/$name.out" -
        "$work/$name" "$root/samples" | diff "$root/examples/$name.out" -
    done
}
check "the examples from another folder, with the installed library, shared and static" example_elsewhere

missing_or_short() {
    local folder=$work/few status=0
    mkdir -p "$folder"
    cp samples/museum-128k.z80 "$folder"
    head -c 10 samples/picture.txt >"$folder/picture.txt"
    "$work/server_slots" "$folder" >"$work/out" || status=$?
    [ "$status" -eq 1 ]
    [ "$(grep -cF 'museum-48k.z80 page 2: cannot be read: No such file or directory' "$work/out")" -eq 1 ]
    grep -qF 'picture.txt page 5: refused, 2: the file is shorter than its header, 10 found, 30 due; bytes left in its place: 0' "$work/out"
    rm "$folder/museum-128k.z80"
    status=0
    "$work/corrections" "$folder" 2>"$work/err" || status=$?
    [ "$status" -eq 1 ]
    grep -qF "$folder/museum-128k.z80: cannot be read: No such file or directory" "$work/err"
}
check "an example tells a missing file from a short one" missing_or_short

# its last bytes are lost: the place is where its last block begins
cut_file() {
    local folder=$work/cut status=0 place
    mkdir -p "$folder"
    head -c 5000 samples/museum-128k.z80 >"$folder/museum-128k.z80"
    run_tool 1 info --json "$folder/museum-128k.z80"
    [ "$(jq .block "$work/out")" -eq 8 ]
    place=$(jq .offset "$work/out")
    "$work/corrections" "$folder" 2>"$work/err" || status=$?
    [ "$status" -eq 1 ]
    printf 'museum-128k.z80: %s\n' "at byte $place" 'refused, 8: a block is cut short' | diff - "$work/err"
    "$work/server_slots" "$folder" >"$work/out" || true
    grep -qF "museum-128k.z80 page 0: refused, 8 in block 8, at byte $place: a block is cut short" "$work/out"
}
check "an example tells where a file is cut" cut_file
