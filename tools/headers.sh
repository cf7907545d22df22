#!/bin/sh
# Looks whether programs in C and in C++ include the C headers without a warning: one that includes each header and uses
# nothing of it, and compare/text.c, which is C and C++ at once and uses what the headers have besides prototypes. They
# are compiled and not linked, so that no library need be there; compare/tests/text.rs runs the second.
set -eu
cd "$(dirname "$0")/.."

strict='-Wall -Wextra -pedantic -Wconversion -Wcast-qual -Werror -O2 -Iinclude'

compile() { # WORD..: compiler, language, standard, and what else it is given
    # shellcheck disable=SC2086
    "$@" $strict -S -o /dev/null || { echo "headers: not without a warning: $*" >&2; exit 1; }
}

check() { # WORD..: compiler, language and standard
    for header in include/*.h; do
        compile "$@" -include "$header" /dev/null
    done
    compile "$@" compare/text.c
}

for standard in c99 c11 c17; do
    check gcc -x c "-std=$standard"
done
for standard in c++98 c++11 c++17; do
    check g++ -x c++ "-std=$standard" -Wold-style-cast
done
