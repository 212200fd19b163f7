# Completion in bash, without the bash-completion package: the function is called as bash calls it.

# offers WORD..: what is offered for the last of these words, in one line.
offers() {
    bash --norc -c '. "$0" && COMP_WORDS=("$@") COMP_CWORD=$(($# - 1)) && _snapshot && printf "%s\n" "${COMPREPLY[@]}"' \
        "$PWD/tools/completion.bash" "$@" | sort | paste -s -d ' '
}

completed_words() {
    local command
    [ "$(offers snapshot '')" = "--help --version check edit find help info screen view write" ]
    [ "$(offers snapshot --)" = "--help --version" ]
    [ "$(offers snapshot e)" = edit ]
    for command in info check view find screen edit write; do
        # the options that the tool's own help has
        run_tool 0 "$command" --help
        { sed -nE 's/^    (-[-a-z]+).*$/\1/p' "$work/out"; echo --help; } | sort | paste -s -d ' ' >"$work/options"
        [ "$(offers snapshot "$command" -)" = "$(cat "$work/options")" ]
    done
    [ "$(offers snapshot screen a.z80 --sc)" = "--scale --scr" ]
    [ "$(offers snapshot screen a.z80 --page '')" = "5 7" ]
    [ "$(offers snapshot screen a.z80 --scale = '')" = "1 2 3 4 5 6 7 8" ]
    [ "$(offers snapshot write a.z80 --format '')" = "scs z80" ]
    [ "$(offers snapshot edit a.z80 --format = s)" = scs ]
    bash --norc -c '. tools/completion.bash && complete -p snapshot' | grep -qxF "complete -F _snapshot snapshot"
}
check "bash is offered the commands, and of each the options that its help has" completed_words

completed_names() {
    [ "$(offers snapshot info samples/mu)" = "samples/museum-128k.z80 samples/museum-48k.z80" ]
    [ "$(offers snapshot write a.z80 -o samples/museum-4)" = samples/museum-48k.z80 ]
    [ "$(offers snapshot view a.z80 8 --rom = samples/museum-4)" = samples/museum-48k.z80 ]
    mkdir -p "$work/names"
    : >"$work/names/a game.z80"
    [ "$(offers snapshot info "$work/names/a")" = "$work/names/a game.z80" ]
    [ -z "$(offers snapshot info "$work/names/b")" ]
}
check "bash is offered file names" completed_names
