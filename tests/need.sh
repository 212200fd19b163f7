# need FILE PACKAGE..: installs Debian packages where a file of theirs is missing; its status says whether the file is there.
need() {
    local file=$1
    shift
    [ -e "$file" ] && return
    { [ -n "${updated:-}" ] || apt-get update && updated=yes && apt-get install -y "$@"; } >/dev/null 2>&1 || true
    [ -e "$file" ] || { echo "$* could not be installed"; return 1; }
}

# tool_packages: what the tool's checks need.
tool_packages() {
    local package
    for package in g++ jq xxd pkg-config mandoc pasmo; do need "/usr/bin/$package" "$package" || return; done
    need /usr/bin/snapdump fuse-emulator-utils
}
