#!/bin/sh
# What `make install-test` runs: installs the library in a temporary folder, builds README.md's C program in
# another with the flags that the installed opl.pc gives, and runs it. Then it looks whether DESTDIR is heeded and
# whether `make uninstall` leaves nothing behind.
set -eu
cd "$(dirname "$0")/.."
unset MAKEFLAGS MFLAGS MAKELEVEL

temp=$(mktemp -d)
trap 'rm -rf "$temp"' EXIT
trap 'exit 1' HUP INT TERM
prefix=$temp/prefix
mkdir "$temp/program"
program=$temp/program/word

fail() {
    echo "install-test: $*" >&2
    exit 1
}

installed() { # FOLDER: what is in it, name by name
    (cd "$1" && find . ! -type d | LC_ALL=C sort | tr '\n' ' ')
}

# pkg-config's answer; where it is not installed, what it would read out of opl.pc, whose lines are a shell's too
flags() { # --cflags Cflags | --libs Libs
    if command -v pkg-config >/dev/null; then
        PKG_CONFIG_PATH=$prefix/lib/pkgconfig pkg-config "$1" opl
    else
        eval "$(sed -n '/^[a-z]*=/p' "$prefix/lib/pkgconfig/opl.pc"); echo \"$(sed -n "s/^$2: //p" "$prefix/lib/pkgconfig/opl.pc")\""
    fi
}

all='./include/opl.h ./include/opl_text.h ./lib/libopl.a ./lib/pkgconfig/opl.pc '
make --no-print-directory install PREFIX="$prefix" DESTDIR= >/dev/null
[ "$(installed "$prefix")" = "$all" ] || fail "make install put other files in place: $(installed "$prefix")"

version=$(echo OPL_VERSION | gcc -E -P -include "$prefix/include/opl.h" -x c - | tail -n 1 | tr -d '" ')
grep -qx "Version: $version" "$prefix/lib/pkgconfig/opl.pc" || fail "opl.pc and opl.h, $version, have different versions"

command -v pkg-config >/dev/null || echo 'install-test: pkg-config is not installed; the flags are read out of opl.pc'
cflags=$(flags --cflags Cflags)
libs=$(flags --libs Libs)

awk '/^```c$/ { code = 1; next } code && /^```$/ { exit } code' README.md >"$program.c"
grep -q '^int main' "$program.c" || fail 'README.md has no C program'
OPL_CFLAGS=$cflags OPL_LIBS=$libs sh tools/x86-64.sh build "$program" "$program.c" ||
    fail "README.md's program was not built with $cflags $libs"
sh tools/x86-64.sh run "$program" >/dev/null || fail "README.md's program ended with exit status $?"

make --no-print-directory install PREFIX=/opt/opl DESTDIR="$temp/stage" >/dev/null
[ "$(installed "$temp/stage/opt/opl")" = "$all" ] || fail 'make install does not heed DESTDIR'
grep -qx 'prefix=/opt/opl' "$temp/stage/opt/opl/lib/pkgconfig/opl.pc" || fail 'opl.pc names DESTDIR, or not PREFIX'
make --no-print-directory uninstall PREFIX=/opt/opl DESTDIR="$temp/stage" >/dev/null
[ -z "$(installed "$temp/stage")" ] || fail "make uninstall leaves $(installed "$temp/stage")"

echo 'install-test: the installed library serves the program of README.md, and is gone after make uninstall'
