#!/bin/sh
# The library is compiled for x86-64 Linux, and so is a C program that links it.
#
#   tools/x86-64.sh build PROGRAM FILE..    compile the files and link them with the library; each becomes
#                                           PROGRAM-FILE.o, and such an object may stand for its file in another build
#   tools/x86-64.sh run PROGRAM WORD..      run what was built
#
# On an x86-64 machine gcc builds it and the machine runs it. On an Arm machine the compiler, the C
# library and the emulator that the Rattle toolchain brings for its own programs do that, over the
# machine's C headers.
#
# The library is that of this repository, or where OPL_CFLAGS and OPL_LIBS are set the one that these
# flags of compiler and linker name. The files are C11, or where OPL_STANDARD is set what that flag names, which for
# C++ (FILE.cc) takes g++ besides gcc.
set -eu

cflags="${OPL_STANDARD--std=c11} -Wall -Wextra -Werror -O2 ${OPL_CFLAGS--Iinclude}"
libs=${OPL_LIBS-target/staticlib/libopl.a}
machine=$(uname -m)

find_toolchain() {
    own=$(dirname "$(dirname "$(rt doc)")")/on/$machine
    parts=$own/toolchain
    for part in "$own/bin/rattle-link" "$parts/bin/clang" "$parts/bin/ld.lld" "$parts/bin/qemu-x86_64"; do
        [ -x "$part" ] || { echo "x86-64: the Rattle toolchain has no $(basename "$part") for this machine, $machine" >&2; exit 1; }
    done
}

# on an Arm machine gcc looks for faults too, beside the other compiler, as it is what builds on an x86-64 machine
compile() { # FILE OBJECT
    if [ "$machine" = x86_64 ]; then
        # shellcheck disable=SC2086
        gcc $cflags -c -o "$2" "$1"
        return
    fi
    # shellcheck disable=SC2086
    gcc $cflags -S -o /dev/null "$1" &
    looking=$!
    # shellcheck disable=SC2086
    "$parts/bin/clang" --target=x86_64-linux-gnu $cflags -isystem "$(gcc -print-file-name=include)" \
        -isystem "/usr/include/$(gcc -print-multiarch)" -c -o "$2" "$1"
    wait "$looking"
}

# objects and library are made one object first: rattle-link takes no flags such as -lopl
link_objects() { # PROGRAM OBJECT..
    program=$1
    shift
    if [ "$machine" = x86_64 ]; then
        # shellcheck disable=SC2086
        gcc $cflags -o "$program" "$@" $libs
        return
    fi
    # shellcheck disable=SC2086
    "$parts/bin/ld.lld" -m elf_x86_64 -r -o "$program.o" "$@" $libs
    said=$("$own/bin/rattle-link" --target x86_64-unknown-linux-gnu --toolchain "$parts" -o "$program" "$program.o" 2>&1) ||
        { printf '%s\n' "$said" >&2; exit 1; }
}

build() { # PROGRAM FILE.., from the top of the repository or in full
    cd "$(dirname "$0")/.."
    program=$1
    shift
    if [ "$machine" != x86_64 ]; then find_toolchain; fi
    for file in "$@"; do
        shift
        case $file in
        *.o) object=$file ;;
        *)
            object=$program-$(basename "$file").o
            compile "$file" "$object"
            ;;
        esac
        set -- "$@" "$object"
    done
    link_objects "$program" "$@"
}

run() { # PROGRAM WORD..
    if [ "$machine" = x86_64 ]; then exec "$@"; fi
    find_toolchain
    exec "$parts/bin/qemu-x86_64" "$parts/lib/ld-linux-x86-64.so.2" --library-path "$parts/lib" "$@"
}

case ${1:-} in
build | run) "$@" ;;
*) echo 'usage: tools/x86-64.sh build PROGRAM FILE.. | run PROGRAM WORD..' >&2; exit 2 ;;
esac
