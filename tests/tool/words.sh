# The words of the command line: help, and what is wrong called by its name.

# form_of COMMAND HELP: the lines of its form, down to what it is about.
form_of() { sed -n "/^snapshot $1 /,/^    [^ ]/p" "$2"; }

helps() {
    local command option
    run_tool 0 --help
    cp "$work/out" "$work/help"
    run_tool 0 -h
    diff "$work/help" "$work/out"
    run_tool 0 help
    diff "$work/help" "$work/out"
    for command in info check view find screen edit write; do
        run_tool 0 "$command" --help
        [ ! -s "$work/err" ]
        cp "$work/out" "$work/one"
        head -n 1 "$work/one" | grep -qE "^snapshot $command FILE"
        # the form is the one of the whole help, and each option of the form is explained
        form_of "$command" "$work/one" >"$work/form"
        form_of "$command" "$work/help" | diff "$work/form" -
        for option in $(tr -d '[]' <"$work/form" | tr ' ' '\n' | sed -n '/^-/p'); do
            grep -qE -- "^    $option( |\$)" "$work/one"
        done
        run_tool 0 "$command" samples/museum-48k.z80 -h
        diff "$work/one" "$work/out"
        run_tool 0 help "$command"
        diff "$work/one" "$work/out"
    done
    if grep -E '.{81}' "$work/help"; then false; fi
}
check "--help and -h, of the tool and of each command" helps

version_words() {
    run_tool 0 -V
    [ "$(cat "$work/out")" = "snapshot test" ]
    run_tool 0 --version
    [ "$(cat "$work/out")" = "snapshot test" ]
}
check "--version and -V" version_words

named_mistakes() {
    local words sentence
    while IFS='|' read -r words sentence; do
        run_tool 2 $words
        [ ! -s "$work/out" ]
        [ "$(wc -l <"$work/err")" -eq 1 ]
        grep -qF -- "snapshot: $sentence" "$work/err"
    done <<'WORDS'
info --xml a.z80|'snapshot info' does not know '--xml'
info a.z80 -x|'snapshot info' does not know '-x'
info a.z80 -xyz|'snapshot info' does not know '-xyz'
view a.z80 -1|'snapshot view' does not know '-1'
info --json=1 a.z80|'--json' takes no value
info a.z80 --rom b.rom|'snapshot info' does not take '--rom'; 'snapshot view' does
info a.z80 --rom|'snapshot info' does not take '--rom'; 'snapshot view' does
info a.z80 -o b.z80|'snapshot info' does not take '-o'; 'snapshot edit' does
write a.z80 -o b.z80 --json|'snapshot write' does not take '--json'; 'snapshot info' does
info a.z80 --format scs|'snapshot info' does not take '--format'; 'snapshot edit' does
write a.z80 -o b.z80 --format|'--format' needs a value: --format z80|scs
write a.z80 -o b.z80 --format sna|'--format' takes z80|scs, not 'sna'
write a.z80 -o b.z80 --format=|'--format' takes z80|scs, not ''
edit a.z80 -o b.z80 --format SCS|'--format' takes z80|scs, not 'SCS'
view a.z80 5 --rom|'--rom' needs a value: --rom ROM
write a.z80 -o|'-o' needs a value: -o OUT
write a.z80 --output|'-o' needs a value: -o OUT
info --json a.z80 --json|'--json' is given twice
write -o a.z80 b.z80 -o c.z80|'-o' is given twice
write -o a.z80 b.z80 --output=c.z80|'-o' is given twice
info a.z80 b.z80 c.z80|'b.z80' is one name too many for 'snapshot info'
screen a.z80 b.png c.png|'c.png' is one name too many for 'snapshot screen'
info|'snapshot info' needs FILE
check|'snapshot check' needs FILE
check --json --quiet|'snapshot check' needs FILE
check a.z80 -o b.z80|'snapshot check' does not take '-o'; 'snapshot edit' does
check a.z80 --quiet=1|'--quiet' takes no value
check - a.z80 -|'-' is given twice
info a.z80 --quiet|'snapshot info' does not take '--quiet'; 'snapshot check' does
view|'snapshot view' needs FILE
view a.z80|'snapshot view' needs PAGE|ADDRESS..ADDRESS
find a.z80|'snapshot find' needs TEXT|HEX
screen a.z80|'snapshot screen' needs OUT
write a.z80|'snapshot write' needs -o OUT
edit a.z80|'snapshot edit' needs -o OUT
look a.z80|there is no command 'look'
--json a.z80|there is no command '--json'
--version x|'x' is one name too many for 'snapshot --version'
-V info|'info' is one name too many for 'snapshot -V'
--help x|'x' is one name too many for 'snapshot --help'
-h info|'info' is one name too many for 'snapshot -h'
help info x|'x' is one name too many for 'snapshot help'
help look|there is no command 'look'
WORDS
}
check "a wrong word is named, in one line, with exit status 2" named_mistakes
