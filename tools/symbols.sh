#!/bin/sh
# Looks at what a library asks of whoever links it, and at what it adds to their names:
#
#   tools/symbols.sh ARCHIVE
#
# It must need no function from outside but memcpy and memset, which opl.h names, and define no name for others but
# those that begin with opl_. Each function must stand in a section of its own, so that a linker can leave out those
# that are not called, as README.md says.
set -eu

archive=$1
listed=$(nm -P -g "$archive") || { echo "symbols: nm cannot read $archive" >&2; exit 1; }

# a line of a symbol: its name, its kind (U, or w and v: from outside), and of one that is defined its value
printf '%s\n' "$listed" | awk -v archive="$archive" '
    $2 ~ /^[Uwv]$/ { needed[$1]; next }
    $2 ~ /^[A-Za-z]$/ { defined[$1] }
    END {
        for (name in needed)
            if (!(name in defined) && name != "memcpy" && name != "memset")
                faults = faults "\n  it needs " name
        for (name in defined) {
            ours += name ~ /^opl_/
            if (name !~ /^opl_/)
                faults = faults "\n  it defines " name
        }
        if (!ours)
            faults = faults "\n  it defines no function of opl.h"
        if (faults) {
            print "symbols: " archive ":" faults
            exit 1
        }
    }' >&2

# a line of a symbol: name|value|class|type|size|line|section
nm -f sysv "$archive" | awk -F ' *[|] *' -v archive="$archive" '
    $4 ~ /FUNC/ {
        functions++
        if ($7 in first)
            faults = faults "\n  " $7 " has " first[$7] " and " $1
        else
            first[$7] = $1
    }
    END {
        if (!functions)
            faults = "\n  no function was found"
        if (faults) {
            print "symbols: " archive ": a section is to have one function:" faults
            exit 1
        }
    }' >&2
