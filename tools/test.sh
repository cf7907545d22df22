#!/usr/bin/env bash
# What `make test` runs: the names in the documents and the C headers, which are quick; then the whole of `rt ci`,
# what the library that it proved asks of its users, compare's tests over that library, the C example, and a program
# that is built against the installed library. It exits 0, with `rt ci`'s own 'N passed, 0 failed' as its very last
# line, only if all of it passed; after any failure the last line names the step that failed.
set -euo pipefail
cd "$(dirname "$0")/.."
unset MAKEFLAGS MFLAGS MAKELEVEL

step='the start'
verdict=''
said=''

ended() {
    status=$?
    [ -z "$said" ] || rm -f "$said"
    if [ -n "$verdict" ]; then
        echo "$verdict"
        exit 0
    fi
    echo "test: FAILED at $step"
    if [ "$status" -eq 0 ]; then status=1; fi
    exit "$status"
}
trap ended EXIT
said=$(mktemp)

begin() {
    step=$1
    echo "test: $step ..."
}

begin 'the names in the documents'
python3 tools/names.py

begin 'the C headers'
sh tools/headers.sh

# an edit that cannot be tried shows nothing, nor does one that is refused only since a proof names what it took away:
# they fail here too; what rt ci says is kept for who asks
begin 'rt ci'
proved=0
rt ci 2>&1 | tee "$said" || proved=$?
mkdir -p target
cp "$said" target/ci.out
[ "$proved" -eq 0 ]
last=$(tail -n 1 "$said")
[[ $last =~ ^[0-9]+' passed, 0 failed'$ ]]
if grep -E '^rt: ok.*, [1-9][0-9]* bad|refused, as it must be \(only because' "$said"; then
    false
fi

# no older ones: what is tested is built from what was just proved
begin 'the library and the listing program'
rm -f target/staticlib/libopl.a target/bin/listing
make --no-print-directory lib target/bin/listing

begin "the library's symbols"
sh tools/symbols.sh target/staticlib/libopl.a

begin 'compare'
(cd compare && cargo test --release --offline --locked)

begin 'the C example'
make --no-print-directory demo

begin 'the installed library'
make --no-print-directory install-test

verdict=$last
