#!/bin/sh
# symbols.sh [ARCHIVE..]: what the libraries ask of the board (each ARCHIVE as seen from this folder). Lists the symbols that they do not
# define themselves, and fails where one is not among memcpy, memmove, memset, memcmp; fails as well where there is writable data, or
# where they export other names together than the five of resheftal.h.
# symbols.sh refused: shows that it fails so, on objects made for it.
set -eu
cd "$(dirname "$0")"
. ./tools.sh
need "${prefix}nm" "binutils for x86-64"

if [ "${1:-}" = refused ]; then
    t=$(mktemp -d)
    trap 'rm -rf "$t"' EXIT
    # An object with the five functions, or those that are named, and with these words of C beside them.
    object() {
        printf '%s\n' "$2" >"$t/$1.c"
        for f in ${3:-step cold_start interface reads standing}; do echo "int resheftal_$f(void) { return 0; }" >>"$t/$1.c"; done
        "$gcc" -O1 -fno-pic -c -o "$t/$1.o" "$t/$1.c"
    }
    object good 'void *memcpy(void *, const void *, unsigned long);
        __attribute__((used)) static void *copies(char *p) { return memcpy(p, p + 9, p[0]); }'
    sh ./symbols.sh "$t/good.o" >"$t/said"
    object asks 'void abort(void); __attribute__((used)) static void ends(void) { abort(); }'
    object keeps '__attribute__((used)) static int count;'
    object exports 'int sixth(void) { return 1; }'
    object lacks '' 'step cold_start interface reads'
    for name in asks keeps exports lacks; do
        if sh ./symbols.sh "$t/$name.o" >"$t/said" 2>&1; then
            echo "not refused: $name" >&2
            exit 1
        fi
        tail -n 1 "$t/said"
    done
    echo "refused, as they must be: an object that asks for abort, one with writable data, one with a sixth name, one without a fifth"
    exit 0
fi

if [ $# -eq 0 ]; then
    library
    set -- "$archive" "$asks"
fi
"${prefix}nm" "$@" | awk '
    NF < 2 { next }
    { type = $1 ~ /^[0-9a-f]+$/ && NF > 2 ? $2 : $1; name = $NF }
    type ~ /^[Uwv]$/ { asked[name] = 1; next }
    type ~ /^[bBdDsSgGC]$/ { print "writable data: " name; bad = 1 }
    type ~ /^[TWRVi]$/ { exported[name] = 1 }
    END {
        split("memcpy memmove memset memcmp", names, " ")
        for (i in names) allowed[names[i]] = 1
        for (name in asked) if (!(name in exported)) { list = list " " name; if (!(name in allowed)) { print "not allowed: " name; bad = 1 } }
        five = "resheftal_cold_start resheftal_interface resheftal_reads resheftal_standing resheftal_step"
        n = split(five, names, " ")
        for (i = 1; i <= n; i++) { ours[names[i]] = 1; if (!(names[i] in exported)) { print "not exported: " names[i]; bad = 1 } }
        for (name in exported) if (!(name in ours)) { print "exported besides: " name; bad = 1 }
        if (!bad) print "undefined:" (list == "" ? " none" : list) "; exported: " five "; writable data: none"
        exit bad
    }'
