# make demo, and what it shows while the library is proved.

demo() {
    local picture
    bash tools/demo >"$work/demo" 2>&1
    [ "$(tail -n 1 "$work/demo")" = "make demo: done" ]
    grep -qF "refused, 30: " "$work/demo"
    grep -qxF 'target/demo/cut.z80: refused, 8: block 3, at byte 646: the file ends inside it' "$work/demo"
    picture=$(sed -n 's/^the picture: //p' "$work/demo")
    [ "${picture:0:1}" = / ]
    "$work/pixels" "$picture" samples/museum-48k.z80
}
check "the demo runs to its end and shows the refusal" demo

# has_lines FILE OTHER: every line of FILE is one of OTHER.
has_lines() {
    local line
    while IFS= read -r line; do grep -qxF -- "$line" "$2"; done <"$1"
}

accidents() {
    sed -n '/^== The first accident/,/^== The second accident/p' "$work/demo" >"$work/first"
    sed -n '/^== The second accident/,$p' "$work/demo" >"$work/second"
    grep -qF 'The old portal' "$work/first"
    grep -qF 'snapshot: samples/museum-48k.z80: refused, 30: ' "$work/first"
    has_lines examples/server_slots.out "$work/first"
    grep -qF 'The old portal' "$work/second"
    grep -qxF 'undone: byte in page 3 at offset 000D: 58 -> 33' "$work/second"
    has_lines examples/corrections.out "$work/second"
}
check "the demo plays both accidents: what the old portal did, and what happens now" accidents

# A tree of four crates to prove and one that the library does not need, with a stand-in for rt.
small_tree() {
    rm -rf "$work/tree"
    mkdir -p "$work/tree/crates" "$work/tree/tests" "$work/tree/bin"
    cp -r Makefile tools include examples samples "$work/tree"
    cp tests/need.sh "$work/tree/tests"
    mkdir "$work/tree/crates/snapshot_c"
    printf '%s\n' 'low: bytes' 'left: low' 'beside: low' 'right: low # last' 'snapshot_c staticlib: left right' >"$work/tree/crates.txt"
    cat >"$work/tree/bin/rt" <<RT
#!/bin/sh
[ "\$*" = lib ] || exit 2
printf 'crate low: modules loaded=0 checked=9\nlogic=proved functions=1\ncrate left: modules loaded=9 checked=0\nlogic=proved functions=2\n'
$1
printf 'crate right: modules loaded=0 checked=9\nlogic=proved functions=3\ncrate snapshot_c: modules loaded=0 checked=9\nlogic=proved functions=9\n'
mkdir -p out
cp '$PWD/$lib' out/libsnapshot_c.a
RT
    chmod 755 "$work/tree/bin/rt"
}
small_demo() { env -u MAKEFLAGS CFLAGS=-O0 PATH="$work/tree/bin:$PATH" bash "$work/tree/tools/demo"; }

progress() {
    small_tree :
    small_demo >"$work/out" 2>&1
    [ "$(grep '^\[' "$work/out" | paste -s -d ' ')" = "[0/4] begun [1/4] low [2/4] left [3/4] right [4/4] snapshot" ]
    [ "$(tail -n 1 "$work/out")" = "make demo: done" ]
    script -qec "bash $work/tree/tools/progress snapshot <$work/tree/target/demo/log" /dev/null >"$work/terminal" </dev/null
    [ "$(wc -l <"$work/terminal")" -eq 1 ]
    grep -qF $'\r\033[K[3/4] right\r\033[K[4/4] snapshot' "$work/terminal"
}
check "the demo shows how far the proof is: a line each, or one line at a terminal" progress

no_proof() {
    small_tree "echo 'rt: right NOT PROVED (exit 1, 3 s)' >&2; exit 1"
    if small_demo >"$work/out" 2>&1; then return 1; fi
    [ "$(grep '^\[' "$work/out" | tail -n 1)" = "[2/4] left" ]
    grep -qxF 'rt: right NOT PROVED (exit 1, 3 s)' "$work/out"
    [ "$(tail -n 1 "$work/out")" = "make demo: FAILED: the tool could not be built" ]
}
check "a proof that fails ends the demo where it is, with what rt said" no_proof
