# What is no file to read, and wrong use of the command line.

# answers SENTENCE FILE: every command says this of the file, with exit status 3, and makes nothing.
answers() {
    local file=$2
    says "$@" info "$file"
    says "$@" view "$file" 5
    says "$@" screen "$file" "$work/never.png"
    says "$@" write "$file" -o "$work/never.z80"
    says "$@" edit "$file" -o "$work/never.z80"
    says "$@" view samples/museum-48k.z80 8 --rom "$file"
    [ ! -e "$work/never.png" ]
    [ ! -e "$work/never.z80" ]
}
says() {
    local sentence=$1 file=$2
    shift 2
    run_tool 3 "$@"
    grep -qF "snapshot: $file: $sentence" "$work/err"
}

no_files() {
    truncate -s 4G "$work/huge"
    answers "longer than any file of its kind" "$work/huge"
    rm "$work/huge"
    answers "is a directory" "$work"
    mkfifo "$work/pipe"
    answers "is a pipe or a device, not a file" "$work/pipe"
    answers "is a pipe or a device, not a file" /dev/zero
    answers "cannot be opened: No such file or directory" "$work/absent"
    answers "cannot be read: Input/output error" /proc/self/mem
    answers "cannot be opened: File name too long" "$(printf 'x%.0s' {1..300})"
}
check "4 GB, a directory, a pipe, a device, nothing, an unreadable file: a sentence and exit status 3" no_files

bounds() {
    head -c 524382 /dev/zero >"$work/longest"
    refuses 3 "$work/longest" info "$work/longest"
    head -c 524383 /dev/zero >"$work/longest"
    run_tool 3 info "$work/longest"
    : >"$work/empty"
    refuses 2 "$work/empty" info "$work/empty"
}
check "the bound on input is the longest file that can be accepted" bounds

# a user without rights: root becomes one, anybody else is one
as_nobody() { if [ "$(id -u)" -eq 0 ]; then setpriv --reuid=65534 --regid=65534 --clear-groups "$@"; else "$@"; fi; }
user_folder() {
    work_user=$(mktemp -d)
    chmod 755 "$work_user"
    cp "$tool" samples/museum-48k.z80 "$work_user"
    chmod 000 "$work_user/museum-48k.z80"
    local status=0
    as_nobody "$work_user/snapshot" info "$work_user/museum-48k.z80" 2>"$work/err" || status=$?
    rm -rf "$work_user"
    [ "$status" -eq 3 ]
    grep -qF "Permission denied" "$work/err"
}
check "a file that may not be read" user_folder

no_places() {
    mkdir -p "$work/folder"
    says "is a directory" "$work/folder" write samples/museum-48k.z80 -o "$work/folder"
    says "is a pipe or a device, not a file" "$work/pipe" write samples/museum-48k.z80 -o "$work/pipe"
    says "is a pipe or a device, not a file" "$work/pipe" screen samples/museum-48k.z80 "$work/pipe"
    [ -p "$work/pipe" ]
    run_tool 3 write samples/museum-48k.z80 -o "$work/absent/out.z80"
    run_tool 3 write samples/museum-48k.z80 -o ""
}
check "a place that cannot be written is exit status 3, and a pipe stays one" no_places

wrong_use() {
    local words
    while read -r words; do
        run_tool 2 $words
        [ ! -s "$work/out" ]
        [ "$(wc -l <"$work/err")" -eq 1 ]
    done <<'WORDS'

look samples/museum-48k.z80
info
info samples/museum-48k.z80 samples/museum-48k.z80
info --xml samples/museum-48k.z80
info -o out.z80 samples/museum-48k.z80
view samples/museum-48k.z80
view samples/museum-48k.z80 five
view samples/museum-48k.z80 -1
view samples/museum-48k.z80 5x
view samples/museum-48k.z80 5 --rom
screen samples/museum-48k.z80
edit samples/museum-48k.z80
write samples/museum-48k.z80
write samples/museum-48k.z80 -o
WORDS
    run_tool 0 --help
    grep -qF "snapshot edit FILE -o OUT" "$work/out"
}
check "wrong use is one line and exit status 2" wrong_use
