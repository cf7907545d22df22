#!/usr/bin/env bash
# What `make soak` runs, after `make test`'s shorter tests: the fuzz mode of compare/ over the library for a given
# number of seconds, then the C head-end and compare's tests under valgrind, which sees each read and write outside
# what was lent. A checker cannot look into an emulated program, so both are built for the machine at hand
# (tools/native.sh).
#
#   tools/soak.sh SECONDS NATIVE-ARCHIVE
set -euo pipefail
cd "$(dirname "$0")/.."
unset MAKEFLAGS MFLAGS MAKELEVEL

seconds=$1
native=$2
checker='valgrind --quiet --error-exitcode=9'
step='the start'
trap 'status=$?; [ $status -eq 0 ] || echo "soak: FAILED at $step"' EXIT

begin() {
    step=$1
    echo "soak: $step ..."
}

begin "fuzz, $seconds seconds"
(cd compare && cargo run --release --offline --locked --quiet --bin fuzz -- "$seconds" "${SEED:-$(date +%s)}")

begin 'the C head-end under valgrind'
gcc -std=c11 -Wall -Wextra -Werror -g -O1 -Iinclude -o target/native/headend examples/*.c "$native"
$checker target/native/headend --ip examples/streams/story.ip target/native/packets.ip \
    examples/sheets/story.sheet README.md target/native/frames.bin examples/streams/story.ts >target/native/headend.out

begin "compare's tests under valgrind"
host=$(rustc -vV | sed -n 's/^host: //p' | tr 'a-z-' 'A-Z_')
(
    cd compare
    export OPL_ARCHIVE=$native OPL_BARE=1 CARGO_TARGET_DIR=target/bare "CARGO_TARGET_${host}_RUNNER=$checker"
    cargo test --release --offline --locked --tests
)
echo 'soak: all well'
