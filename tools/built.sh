#!/bin/sh
# Proves a crate and those that it stands on, builds it, and puts what is built in its place:
#
#   tools/built.sh CRATE FILE     the library (a static one) or the program of crates/CRATE
#
# Where the crate was not built here before, all crates are proved first, as many side by side as there are processors,
# and a line tells how far that is. Where a crate is not proved, all that the toolchain said follows.
set -eu

crate=$1
file=$2
cd "$(dirname "$0")/.."
said=$(mktemp)
running=''
ended() {
    status=$?
    [ -z "$running" ] || kill "$running" 2>/dev/null || true
    rm -f "$said"
    exit "$status"
}
trap ended EXIT
trap 'exit 1' HUP INT TERM

failed() {
    cat "$said" >&2
    echo "built: $crate was not built" >&2
    exit 1
}

count() { # PATTERN..: of files and folders
    ls -d "$@" 2>/dev/null | wc -l
}

if [ ! -d "crates/$crate/out/incremental" ]; then
    total=$(count crates/*/src)
    echo "proving the $total crates, which takes some minutes where nothing is proved yet"
    rt all check --jobs "$(nproc)" </dev/null >"$said" 2>&1 &
    running=$!
    while kill -0 "$running" 2>/dev/null; do
        printf '\r%s of %s crates' "$(count crates/*/out/incremental)" "$total" >&2
        sleep 2
    done
    echo >&2
    wait "$running" || failed
    running=''
fi

# a program is run once as it is built, on nothing
if [ -f "crates/$crate/src/main.rt" ]; then
    made=crates/$crate/out/$crate
    verb=run
else
    made=crates/$crate/out/lib$crate.a
    verb=lib
fi
echo "building $crate"
(cd "crates/$crate" && rt "$verb") </dev/null >"$said" 2>&1 || failed
[ -f "$made" ] || failed
mkdir -p "$(dirname "$file")"
cp "$made" "$file"
