# edit: the words of a line, several bytes and texts in one line, saving under another name, and what is no script.

# edits FILE LINES..: these lines, saved as FILE.
edits() {
    local file=$1
    shift
    lines "$@" 'save'
    run_tool 0 edit samples/museum-48k.z80 -o "$file" --script "$work/script"
}

# misuses SENTENCE LINE: the line is wrong use, and nothing of it is done.
misuses() {
    lines "$2" 'save'
    run_tool 2 edit samples/museum-48k.z80 -o "$work/never.z80" --script "$work/script"
    grep -qF "snapshot: $work/script:1: $1" "$work/err"
    [ ! -s "$work/out" ]
    [ ! -e "$work/never.z80" ]
}

# page_bytes FILE PAGE OFFSET COUNT: so many bytes as view shows them.
page_bytes() {
    "$tool" view "$1" "$2" | bytes_of_dump >"$work/page"
    tail -c "+$((16#$3 + 1))" "$work/page" | head -c "$4"
}

save_elsewhere() {
    lines 'byte 9000 01' "save $work/other.z80" 'byte 9001 02' "save \"$work/an other.z80\" ; with a comment"
    run_tool 0 edit samples/museum-48k.z80 -o "$work/first.z80" --script "$work/script"
    [ ! -e "$work/first.z80" ]
    [ "$(page_byte "$work/other.z80" 2 1000) $(page_byte "$work/other.z80" 2 1001)" = "01 00" ]
    [ "$(page_byte "$work/an other.z80" 2 1001)" = 02 ]
    grep -qxF "saved: $work/other.z80, log: $work/other.z80.snaplog" "$work/out"
    [ -e "$work/an other.z80.snaplog" ]
    lines 'undo 2' 'save'
    run_tool 0 edit "$work/an other.z80" -o "$work/first.z80" --script "$work/script"
    cmp samples/museum-48k.z80 "$work/first.z80"
    lines 'byte 9000 01' "save $work/third.z80"
    run_tool 0 edit samples/museum-48k.z80 -o "$work/first.z80" --log "$work/third.log" --script "$work/script"
    [ ! -e "$work/third.log" ]
    [ -e "$work/third.z80.snaplog" ]
}
check "save NAME saves there, with its log, and counts as saved" save_elsewhere

extra_words() {
    local line
    for line in 'save a b' 'save --force a b' 'save --force --force a' 'list 1' 'info 5' 'quit now' 'exit now' 'q 1' \
        'help me' '? me' 'undo 1 2' 'redo 1 2' 'out 1 2' 'pair HL 1 2' 'view 5 5' 'text 8000 "a" "b"'; do
        misuses "${line%% *} takes " "$line"
    done
}
check "words that a command does not take are wrong use, with what it takes" extra_words

named_words() {
    local byte='; byte takes an address and 1 to 64 values, as in: byte 8000 7E'
    misuses "'100' is no value from 0 to FF$byte" 'byte 8000 100'
    misuses "'xx' is no value from 0 to FF$byte" 'byte 8000 1 xx'
    misuses "'18000' is no address, 0 to FFFF$byte" 'byte 18000 1'
    misuses "'g' is no address, 0 to FFFF; text takes " 'text g "a"'
    misuses "'ZZ' is no register pair; pair takes " 'pair ZZ 1'
    misuses "'10000' is no value from 0 to FFFF; pair takes " 'pair HL 10000'
    misuses "'100' is no value from 0 to FF; out takes " 'out 100'
    misuses "'x' is no count up to 4096; undo takes " 'undo x'
    misuses "there is no command 'frob'; see 'help'" 'frob 1'
    misuses "there is no command 'a\x1Bb'; see 'help'" $'a\eb'
    misuses "there is no command '$(printf 'x%.0s' {1..40})...'; see 'help'" "$(printf 'x%.0s' {1..41})"
}
check "a wrong word of a line is named, before what its command takes" named_words

quotes() {
    misuses "the closing quote is missing" 'save "a'
    misuses "between quotes a backslash stands before" 'text 8000 "a\n"'
    misuses "after a closing quote comes a blank" 'text 8000 "a"b'
    misuses "text takes " 'text 8000 abc'
    misuses "text takes " 'text 8000 ""'
    misuses "a text has characters 32 to 126" $'text 8000 "a\tb"'
    misuses "a text has characters 32 to 126" $'text 8000 "\xe2\x82\xac"'
}
check "quotes that do not close, and texts that are none, are wrong use" quotes

several_bytes() {
    local values
    values=$(seq -s ' ' 10 73)
    edits "$work/b.z80" 'byte FFFE 1 0x2' "byte 9000 $values"
    [ "$(page_bytes "$work/b.z80" 2 1000 64 | xxd -p -c 64)" = "${values// /}" ]
    [ "$(grep -c '^corrected: byte in page' "$work/out")" -eq 66 ]
    lines 'undo 65' 'list' 'save'
    run_tool 0 edit "$work/b.z80" -o "$work/b2.z80" --script "$work/script"
    grep -qF 'standing: 1, waiting: 65' "$work/out"
    [ "$(page_byte "$work/b2.z80" 0 3FFE) $(page_byte "$work/b2.z80" 0 3FFF)" = "01 00" ]
    misuses "byte takes " "byte 9000 $values 74"
    misuses "the last byte would be past FFFF" 'byte FFFE 1 2 3'
    refuses_line 23 samples/museum-48k.z80 'byte 3FFF 1 2'
}
check "byte takes up to 64 values, each a step of its own; none wraps past FFFF" several_bytes

texts() {
    edits "$work/x.z80" 'TEXT 8100 "Say \"hi\"; \\ ~ and  end" ; a comment'
    [ "$(page_bytes "$work/x.z80" 2 0100 22)" = 'Say "hi"; \ ~ and  end' ]
    lines 'undo 22' 'save'
    run_tool 0 edit "$work/x.z80" -o "$work/x2.z80" --script "$work/script"
    cmp samples/museum-48k.z80 "$work/x2.z80"
    misuses "the last byte would be past FFFF" 'text FFFE "abc"'
    refuses_line 23 samples/museum-48k.z80 'text 3FFF "ab"'
}
check "text takes what is between quotes, a step for each byte" texts

full_for_bytes() {
    { printf 'byte 8000 01\n%.0s' {1..4094}; echo 'byte 8000 1 2 3'; } >"$work/full"
    run_tool 1 edit samples/museum-48k.z80 -o "$work/r.z80" --script "$work/full"
    grep -qF "$work/full:4095: refused, 26: " "$work/err"
    [ "$(grep -c '^corrected' "$work/out")" -eq 4094 ]
    { printf 'byte 8000 01\n%.0s' {1..4094}; echo 'byte 8000 1 2'; echo quit; } >"$work/full"
    run_tool 0 edit samples/museum-48k.z80 -o "$work/r.z80" --script "$work/full"
}
check "bytes for which the log has no room are refused before the first" full_for_bytes

# no_script SENTENCE: what is in $work/bad.txt is no script, from a file or from standard input; nothing is done.
no_script() {
    local status=0
    says "$1" "$work/bad.txt" edit samples/museum-48k.z80 -o "$work/never.z80" --script "$work/bad.txt"
    [ ! -s "$work/out" ]
    "$tool" edit samples/museum-48k.z80 -o "$work/never.z80" <"$work/bad.txt" 2>"$work/err" || status=$?
    [ "$status" -eq 3 ]
    grep -qF "snapshot: standard input: $1" "$work/err"
    [ ! -e "$work/never.z80" ]
}
no_scripts() {
    printf 'byte 9000 01\nsave\0\n' >"$work/bad.txt"
    says "holds a zero byte" "$work/bad.txt" edit samples/museum-48k.z80 -o "$work/never.z80" --script "$work/bad.txt"
    [ ! -s "$work/out" ]
    printf 'save\0 x\n' >"$work/bad.txt"
    no_script "holds a zero byte"
    printf '\xef\xbb\xbfbyte 9000 01\nsave\n' >"$work/bad.txt"
    no_script "begins with a byte order mark"
    printf '\xff\xfes\0a\0v\0e\0\n\0' >"$work/bad.txt"
    no_script "begins with a byte order mark"
    says "is a directory" "$work" edit samples/museum-48k.z80 -o "$work/never.z80" --script "$work"
}
check "zero bytes, a byte order mark, a directory: no script, exit status 3" no_scripts

pipe_script() {
    mkfifo "$work/script.pipe"
    exec 9<>"$work/script.pipe"
    echo quit >&9
    says "is a pipe or a device, not a file; '--script -' reads standard input" "$work/script.pipe" \
        edit samples/museum-48k.z80 -o "$work/never.z80" --script "$work/script.pipe"
}
check "a script that is a pipe is refused" pipe_script

long_lines() {
    local status=0
    { printf 'byte 9000 01 ; '; head -c 200000 /dev/zero | tr '\0' x; printf '\r\nsave\r\n'; } >"$work/script"
    run_tool 0 edit samples/museum-48k.z80 -o "$work/long.z80" --script "$work/script"
    "$tool" edit samples/museum-48k.z80 -o "$work/long2.z80" <"$work/script"
    cmp "$work/long.z80" "$work/long2.z80"
    head -c 1048577 /dev/zero | tr '\0' ' ' >"$work/script"
    says "longer than any file of its kind" "$work/script" \
        edit samples/museum-48k.z80 -o "$work/never.z80" --script "$work/script"
    "$tool" edit samples/museum-48k.z80 -o "$work/never.z80" <"$work/script" 2>"$work/err" || status=$?
    [ "$status" -eq 2 ]
    grep -qF "snapshot: standard input:1: the line is too long" "$work/err"
    # lines that end in a carriage return alone are one line, and not the first of many
    printf 'byte 9000 01\rsave\r' >"$work/script"
    run_tool 2 edit samples/museum-48k.z80 -o "$work/never.z80" --script "$work/script"
}
check "lines of every length up to the bound on scripts" long_lines

viewed_lines() {
    lines 'byte 9000 AB' 'view 9000..9001' 'view 2' 'quit'
    run_tool 0 edit samples/museum-48k.z80 -o "$work/never.z80" --script "$work/script"
    grep -qE '^9000  AB 00 ' "$work/out"
    [ "$(grep -cE '^9000  AB 00 ' "$work/out")" -eq 2 ]
    misuses "'9000..8FFF' is no range of addresses: the first is above the last" 'view 9000..8FFF'
    misuses "'five' is neither a page, as in 5, nor a range of addresses, as in 4000..57FF" 'view five'
}
check "view takes a page or a range, as the memory is now" viewed_lines

moved_lines() {
    lines 'byte 8000 01' 'byte 8001 02' 'undo 3' 'save'
    run_tool 1 edit samples/museum-48k.z80 -o "$work/never.z80" --script "$work/script"
    grep -qE ':3: refused, 27: there is nothing to undo or redo \(2 stand\)$' "$work/err"
    [ "$(grep -c '^undone' "$work/out" || true)" -eq 0 ]
    lines 'byte 8000 01' 'byte 8001 02' 'undo 2' 'redo 3' 'save'
    run_tool 1 edit samples/museum-48k.z80 -o "$work/never.z80" --script "$work/script"
    grep -qE ' \(2 wait\)$' "$work/err"
    [ "$(grep -c '^redone' "$work/out" || true)" -eq 0 ]
    lines 'byte 8000 01' 'undo 2'
    run_tool 1 edit samples/museum-48k.z80 -o "$work/never.z80" --script "$work/script"
    grep -qE ' \(1 stands\)$' "$work/err"
    lines 'byte 8000 01' 'undo' 'redo 2'
    run_tool 1 edit samples/museum-48k.z80 -o "$work/never.z80" --script "$work/script"
    grep -qE ' \(1 waits\)$' "$work/err"
    lines 'undo 2'
    run_tool 1 edit samples/museum-48k.z80 -o "$work/never.z80" --script "$work/script"
    grep -qE ': there is nothing to undo or redo$' "$work/err"
    [ ! -e "$work/never.z80" ]
}
check "undo and redo of more than there are change nothing" moved_lines

save_options() {
    local word
    for word in --frce --force=yes -f -; do
        lines 'byte 9000 01' "save $word"
        run_tool 2 edit samples/museum-48k.z80 -o "$work/never.z80" --script "$work/script"
        [ ! -e "$word" ]
    done
    lines 'byte 9000 01' 'save --force --force'
    run_tool 2 edit samples/museum-48k.z80 -o "$work/never.z80" --script "$work/script"
    run_tool 2 edit samples/museum-48k.z80 -o "$work/never.z80" --log -
    [ ! -e "$work/never.z80" ]
}
check "save takes no word with a dash but --force" save_options

script_of_dash() {
    printf 'byte 9000 01\nsave\n' | "$tool" edit samples/museum-48k.z80 -o "$work/dashed.z80" --script -
    [ "$(page_byte "$work/dashed.z80" 2 1000)" = 01 ]
}
check "a script called - is standard input" script_of_dash
