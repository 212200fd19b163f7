# make install and uninstall: the shared library, the archive, pkg-config and the manual pages.

cat >"$work/linked.c" <<'C'
#include <snapshot.h>
#include <stdio.h>
int main(void)
{
    uint8_t log[SNAP_LOG_STEP];
    uint64_t standing = 7, total = 7;
    uint32_t number = snap_log_start(log, sizeof log, &standing, &total);
    printf("%u %u %u\n", (unsigned)number, (unsigned)standing, (unsigned)total);
    return 0;
}
C

# use_installed PREFIX: what follows finds the library that is installed there.
use_installed() { export PKG_CONFIG_PATH=$1/lib/pkgconfig LD_LIBRARY_PATH=$1/lib; }

# The shared library's name for the dynamic linker: while the major number is 0, with the minor one.
text=$(sed -n 's/^#define SNAP_VERSION_TEXT "\(.*\)"$/\1/p' include/snapshot.h)
soname=libsnapshot.so.${text%.*}
[[ $text == 0.* ]] || soname=libsnapshot.so.${text%%.*}

# needs_shared PROGRAM: whether it needs the shared library when it runs.
needs_shared() { readelf -d "$1" | grep -qF "Shared library: [$soname]"; }

installed() {
    make install PREFIX="$work/usr" >"$work/install"
    use_installed "$work/usr"
    gcc $(pkg-config --cflags snapshot) "$work/linked.c" $(pkg-config --libs snapshot) -o "$work/linked"
    [ "$("$work/linked")" = "0 0 0" ]
    needs_shared "$work/linked"
    gcc -static "$work/linked.c" $(pkg-config --static --cflags --libs snapshot) -o "$work/linked_static"
    [ "$("$work/linked_static")" = "0 0 0" ]
    if needs_shared "$work/linked_static"; then return 1; fi
    [ "$("$work/usr/bin/snapshot" --version)" = "snapshot $(pkg-config --modversion snapshot)" ]
    cmp tools/completion.bash "$work/usr/share/bash-completion/completions/snapshot"
}
check "installed: a program links by pkg-config, shared and static, and the tool runs" installed

exports() {
    local shared=$work/usr/lib/libsnapshot.so
    [ "$("$work/usr/bin/snapshot" --version)" = "snapshot $text" ]
    [ "$(readlink "$shared") $(readlink "$work/usr/lib/$soname")" = "$soname libsnapshot.so.$text" ]
    readelf -d "$shared" | grep -qF "soname: [$soname]"
    nm -D --defined-only "$shared" | awk '{ print $3 }' | sort >"$work/exported"
    declared | diff - "$work/exported"
}
check "the shared library exports the functions that the header declares, and nothing else" exports

# A program that was built with another minor version of 0 finds no library here, since a function may have other parameters.
sonames() {
    local version
    for version in 0.12.3 1.2.3; do
        make -n install VERSION=$version PREFIX=/absent >"$work/$version"
    done
    grep -qxF 'ln -sf libsnapshot.so.0.12.3 "/absent/lib/libsnapshot.so.0.12"' "$work/0.12.3"
    grep -qF -- '-soname,libsnapshot.so.0.12 ' "$work/0.12.3"
    grep -qxF 'ln -sf libsnapshot.so.1.2.3 "/absent/lib/libsnapshot.so.1"' "$work/1.2.3"
    [ "$(cd "$work/usr/lib" && ls -d libsnapshot.so* | paste -s -d ' ')" = "libsnapshot.so $soname libsnapshot.so.$text" ]
}
check "the name that programs ask for has the minor number while the major one is 0" sonames

# in_words FILE: text on one line, each run of spaces as one
in_words() { tr -s ' \n' ' ' <"$1"; }

manual_pages() {
    local name page declaration
    rm -rf "$work/pages"
    mkdir "$work/pages"
    cp -L "$work"/usr/share/man/man[13]/* "$work/pages"
    (cd "$work/pages" && mandoc -T lint -- *)
    for name in $(functions); do grep -qE "^\.(Fn|Fo) $name( |$)" "$work/pages/$name.3"; done
    in_words include/snapshot.h >"$work/declarations"
    for name in $(declared); do
        mandoc -T utf8 -O width=1000 "$work/pages/$name.3" | sed 's/.\x08//g' >"$work/page"
        declaration=$(in_words "$work/page" | grep -oE "uint32_t $name\([^)]*\);")
        grep -qF "$declaration" "$work/declarations"
    done
}
check "every function has a page that declares it as the header does, and mandoc finds no fault" manual_pages

uninstalled() {
    make install PREFIX="$work/gone" >"$work/install"
    echo kept >"$work/gone/lib/another"
    [ "$(find "$work/gone" ! -type d | wc -l)" -ge 20 ]
    make uninstall PREFIX="$work/gone" >"$work/install"
    [ "$(find "$work/gone" ! -type d)" = "$work/gone/lib/another" ]
}
check "uninstall removes what install put, and nothing else" uninstalled

destdir() {
    make install DESTDIR="$work/dest" PREFIX=/absent/usr >"$work/install"
    [ "$(find "$work/dest" ! -type d ! -path "$work/dest/absent/usr/*")" = "" ]
    grep -qx "prefix=/absent/usr" "$work/dest/absent/usr/lib/pkgconfig/snapshot.pc"
    [ ! -e /absent ]
    make uninstall DESTDIR="$work/dest" PREFIX=/absent/usr >"$work/install"
    [ "$(find "$work/dest" ! -type d)" = "" ]
}
check "DESTDIR goes before PREFIX, and stands in no file" destdir

with_space() {
    local prefix="$work/a prefix"
    make install PREFIX="$prefix" >"$work/install"
    use_installed "$prefix"
    [ "$(pkg-config --variable=prefix snapshot)" = "$prefix" ]
    eval "gcc $(pkg-config --cflags snapshot) '$work/linked.c' $(pkg-config --libs snapshot) -o '$work/linked'"
    [ "$("$work/linked")" = "0 0 0" ]
    "$prefix/bin/snapshot" info samples/museum-48k.z80
    make uninstall PREFIX="$prefix" >"$work/install"
    [ "$(find "$prefix" ! -type d)" = "" ]
}
check "a PREFIX with a space: installed, linked and removed" with_space

flags() {
    local given=(LDFLAGS=-Wl,-O1 CPPFLAGS=-DMARK)
    make -n -W include/snapshot.h tool "${given[@]}" | grep -E -- '-DMARK .*-Wl,-O1 .* -o target/snapshot$'
    make -n -W include/snapshot.map "target/libsnapshot.so.$text" "${given[@]}" | grep -E -- '-shared -Wl,-O1 '
}
check "LDFLAGS and CPPFLAGS are honoured" flags

make_alone() {
    local name
    rm -rf "$work/bare"
    mkdir -p "$work/bare/include" "$work/bare/crates"
    cp Makefile "$work/bare"
    cp include/snapshot.h "$work/bare/include"
    env -u MAKEFLAGS make --no-print-directory -C "$work/bare" >"$work/out"
    [ ! -e "$work/bare/target" ]
    if grep -E '.{81}' "$work/out"; then return 1; fi
    for name in $(sed -n 's/^\.PHONY: help //p' Makefile); do grep -qE "^make $name .*[a-z]" "$work/out"; done
    [ "$(wc -l <"$work/out")" -eq "$(sed -n 's/^\.PHONY: help //p' Makefile | wc -w)" ]
}
check "make alone lists every target with a line, and builds nothing" make_alone
