# README's first screen: its picture and the output that it quotes.

readme_picture() {
    grep -qF '](docs/screen.png)' README.md
    "$work/pixels" docs/screen.png samples/museum-48k.z80
}
check "README's picture is what the tool makes of the sample" readme_picture

# quoted WORDS..: the lines on standard input are what the tool prints, in order; '..' stands for lines left out.
quoted() {
    local real at=0 line gap=no
    PATH="$work:$PATH" "$@" >"$work/real" 2>&1 || true
    mapfile -t real <"$work/real"
    while IFS= read -r line; do
        if [ "$line" = .. ]; then gap=yes; continue; fi
        while [ $at -lt ${#real[@]} ] && [ "${real[at]}" != "$line" ] && [ $gap = yes ]; do at=$((at + 1)); done
        [ $at -lt ${#real[@]} ] && [ "${real[at]}" = "$line" ] || { echo "not printed: $line"; return 1; }
        at=$((at + 1)) gap=no
    done
    [ $at -eq ${#real[@]} ] || [ $gap = yes ]
}

# the block of README that begins with a command of the tool, each command with its lines
readme_output() {
    local count=0 line number
    awk '/^    \$ snapshot / { inside = 1 } !/^    / { inside = 0 } inside { print substr($0, 5) }' README.md >"$work/block"
    rm -f "$work"/quoted.*
    while IFS= read -r line; do
        case $line in
        '$ '*) count=$((count + 1)); echo "${line#\$ }" >"$work/quoted.$count.command"; : >"$work/quoted.$count" ;;
        *) echo "$line" >>"$work/quoted.$count" ;;
        esac
    done <"$work/block"
    [ "$count" -ge 2 ]
    for number in $(seq "$count"); do
        quoted $(cat "$work/quoted.$number.command") <"$work/quoted.$number"
    done
}
check "every line of output that README quotes is printed so" readme_output

# the kit: which one, and that nothing here brings it
readme_kit() {
    tr -s ' \n' ' ' <README.md >"$work/readme"
    grep -qF 'The kit is the one that the file `KIT` names' "$work/readme"
    grep -qF 'it is not in this repository, nothing here fetches it' "$work/readme"
    [ "$(rt version | sed -E 's/[^ ]+/x/g')" = "$(sed -E 's/[^ ]+/x/g' KIT)" ]
}
check "README says which kit is needed and where it is to be had, and rt version prints a line as KIT has it" readme_kit
