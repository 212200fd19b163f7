# completion.bash: what bash offers after snapshot: commands, the options of each, values and file names.
_snapshot() {
    local word=${COMP_WORDS[COMP_CWORD]} before=${COMP_WORDS[COMP_CWORD - 1]} offered=""
    # bash takes --rom=FILE apart at the =
    if [ "$word" = "=" ]; then
        word=""
    elif [ "$before" = "=" ]; then
        before=${COMP_WORDS[COMP_CWORD - 2]}
    fi
    case $before in
        --scale) offered="1 2 3 4 5 6 7 8" ;;
        --page) offered="5 7" ;;
        --format) offered="z80 scs" ;;
        -o | --output | --rom | --script | --log) ;;
        *)
            if [ "$COMP_CWORD" -eq 1 ]; then
                offered="info check view find screen edit write help --help --version"
            elif [[ $word == -* ]]; then
                case ${COMP_WORDS[1]} in
                    info) offered="--json --verbose" ;;
                    check) offered="--json --quiet --verbose" ;;
                    view) offered="--rom --raw --verbose" ;;
                    find) offered="--text --hex --verbose" ;;
                    screen) offered="--scale --page --scr --force --verbose" ;;
                    edit) offered="-o --format --script --log --new-log --force --verbose" ;;
                    write) offered="-o --format --force --verbose" ;;
                esac
                offered="$offered --help"
            fi
            ;;
    esac
    if [ -n "$offered" ]; then
        mapfile -t COMPREPLY < <(compgen -W "$offered" -- "$word")
    else
        mapfile -t COMPREPLY < <(compgen -f -- "$word")
        # only while bash completes: spaces are quoted, folders get a slash
        compopt -o filenames 2>/dev/null
    fi
    return 0
}
complete -F _snapshot snapshot
