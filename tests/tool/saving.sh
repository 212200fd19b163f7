# Saving: a full disk or a kill, at every call that saves, leaves the old file whole.

gcc -std=c99 -Wall -Wextra -Werror -g -shared -fPIC tests/tool/failing_disk.c -ldl -o "$work/failing_disk.so" || exit 1
make target/snapshot >"$work/log" 2>&1 || { tail "$work/log"; exit 1; }

# with_fault KIND N WORDS..: the tool with that fault at the Nth call; prints its exit status.
with_fault() {
    local kind=$1 at=$2 status=0
    shift 2
    FAULT=$kind FAULT_AT=$at LD_PRELOAD=$work/failing_disk.so target/snapshot "$@" >"$work/out" 2>"$work/err" </dev/null || status=$?
    echo "$status"
}

# 60 is more calls than saving takes; what stands at the place is the old file, or the new one and then only whole
every_fault() {
    local kind=$1 expected=$2 at status faults=0 folder
    folder=$work/disk
    for at in $(seq 1 60); do
        rm -rf "$folder"
        mkdir "$folder"
        cp samples/museum-128k.z80 "$folder/out.z80"
        status=$(with_fault "$kind" "$at" write tests/files/48k-text.z80 -o "$folder/out.z80" 2>/dev/null)
        if [ "$status" -eq 0 ]; then
            cmp "$folder/out.z80" "$work/whole.z80"
            continue
        fi
        faults=$((faults + 1))
        [ "$status" -eq "$expected" ]
        cmp "$folder/out.z80" samples/museum-128k.z80 || cmp "$folder/out.z80" "$work/whole.z80"
        [ "$kind" = kill ] || [ "$(ls "$folder")" = out.z80 ]
    done
    [ "$faults" -ge 15 ]
}
full_disk() {
    target/snapshot write tests/files/48k-text.z80 -o "$work/whole.z80"
    every_fault full 3
    with_fault full 3 write tests/files/48k-text.z80 -o "$work/whole.z80"
    grep -qF "No space left on device" "$work/err"
}
killed() { every_fault kill 137; }
check "a full disk, at every call: the old file is whole, exit status 3, nothing left behind" full_disk
check "a kill, at every call: the old file is whole, or the new one" killed

# a snapshot and its log: before both are on the disk neither is new, and where only one is, it is said
pair_of_files() {
    local at status faults=0 folder=$work/disk
    rm -rf "$work/pair"
    mkdir "$work/pair"
    lines 'byte 9000 01' 'save'
    target/snapshot edit samples/museum-48k.z80 -o "$work/pair/out.z80" --script "$work/script"
    lines 'byte 9001 02' 'save'
    for at in $(seq 1 40); do
        rm -rf "$folder"
        cp -r "$work/pair" "$folder"
        status=$(with_fault full "$at" edit "$folder/out.z80" -o "$folder/out.z80" --script "$work/script" 2>/dev/null)
        [ "$(ls "$folder" | paste -s -d ' ')" = "out.z80 out.z80.snaplog" ]
        if [ "$status" -eq 0 ]; then continue; fi
        faults=$((faults + 1))
        [ "$status" -eq 3 ]
        cmp "$folder/out.z80.snaplog" "$work/pair/out.z80.snaplog"
        cmp "$folder/out.z80" "$work/pair/out.z80" || grep -qF "out.z80: is saved, but $folder/out.z80.snaplog is still" "$work/err"
    done
    [ "$faults" -ge 20 ]
}
second_rename() {
    local folder=$work/disk
    rm -rf "$folder"
    cp -r "$work/pair" "$folder"
    lines 'byte 9001 02' 'save'
    [ "$(with_fault rename 2 edit "$folder/out.z80" -o "$folder/out.z80" --script "$work/script")" -eq 3 ]
    grep -qF "snapshot: $folder/out.z80.snaplog: cannot be written: No space left on device" "$work/err"
    grep -qxF "snapshot: $folder/out.z80: is saved, but $folder/out.z80.snaplog is still as it was" "$work/err"
    [ "$(page_byte "$folder/out.z80" 2 1001)" = 02 ]
    cmp "$folder/out.z80.snaplog" "$work/pair/out.z80.snaplog"
    [ "$(with_fault rename 1 edit "$work/pair/out.z80" -o "$folder/out.z80" --script "$work/script")" -eq 3 ]
    [ "$(ls "$folder" | paste -s -d ' ')" = "out.z80 out.z80.snaplog" ]
    cmp "$folder/out.z80.snaplog" "$work/pair/out.z80.snaplog"
}
check "a full disk, at every call: snapshot and log are both as they were, or it is said which is not" pair_of_files
check "where the second rename fails it is said which file is new" second_rename

limit() {
    local status=0
    cp samples/museum-128k.z80 "$work/limited.z80"
    (ulimit -f 1; target/snapshot write tests/files/48k-noise.z80 -o "$work/limited.z80") || status=$?
    [ "$status" -eq 3 ]
    cmp samples/museum-128k.z80 "$work/limited.z80"
}
check "a file past the size limit is an error, not a death" limit

output_full() {
    local status words
    for words in 'info samples/museum-48k.z80' 'view samples/museum-48k.z80 5'; do
        status=0
        "$tool" $words >/dev/full 2>"$work/err" || status=$?
        [ "$status" -eq 3 ]
        [ "$(cat "$work/err")" = "snapshot: standard output: cannot be written: No space left on device" ]
    done
}
check "standard output that cannot be written is exit status 3" output_full

same_file() {
    cp tests/files/48k-text.z80 "$work/same.z80"
    run_tool 0 write "$work/same.z80" -o "$work/same.z80"
    cmp "$work/same.z80" "$work/whole.z80"
    ln -sf same.z80 "$work/link.z80"
    run_tool 0 write samples/museum-48k.z80 -o "$work/link.z80"
    [ -L "$work/link.z80" ]
    cmp "$work/same.z80" samples/museum-48k.z80
    chmod 640 "$work/same.z80"
    run_tool 0 write samples/museum-128k.z80 -o "$work/same.z80"
    [ "$(stat -c %a "$work/same.z80")" = 640 ]
}
check "a file over itself, a link and the permissions stay" same_file

written_files() {
    local file count=0
    for file in $(accepted_files | grep -E '/(48k|128k)-'); do
        run_tool 0 write "$file" -o "$work/v3.z80"
        run_tool 0 write "$work/v3.z80" -o "$work/again.z80"
        cmp "$work/v3.z80" "$work/again.z80"
        snapdump "$file" | sed '/^filename/d' | grep -E '^(machine|[A-Z]+.?:|ram_page)' | grep -vE '^(ULA|AY)' >"$work/theirs"
        snapdump "$work/v3.z80" | sed '/^filename/d' | grep -E '^(machine|[A-Z]+.?:|ram_page)' | grep -vE '^(ULA|AY)' >"$work/ours"
        diff "$work/theirs" "$work/ours"
        count=$((count + 1))
    done
    [ "$count" -ge 20 ]
}
check "what write makes is the one file, and libspectrum reads it as the same machine and memory" written_files
