#!/bin/sh
# The library for the machine at hand, to measure it and to run it under a memory checker.
#
#   tools/native.sh ARCHIVE     after `make lib`, from the top of the repository
#
# The library is compiled for x86-64, and so it is the library itself, on such a machine; the toolchain compiles it for
# no other.
set -eu

machine=$(uname -m)
made=$1
if [ "$machine" != x86_64 ]; then
    echo "native: the Rattle toolchain compiles the library for x86-64 alone, and this machine is $machine" >&2
    exit 1
fi
mkdir -p "$(dirname "$made")"
cp target/staticlib/libopl.a "$made"
