#!/bin/sh
# What the libraries take: bytes of code and of constants, the deepest stack of each function, and the instructions of a step beside the
# independent model's, which reads the image, steps and writes it with its own functions (by_model.c, compiled at -O3).
# Instructions are counted exactly: by valgrind on an x86-64, elsewhere by qemu-x86_64 (7 or 8) with the plugin qemu_count.c. The walk
# along the log, the call itself, and all that comes before and after are subtracted.
set -eu
cd "$(dirname "$0")"
. ./tools.sh
. ./stack.sh
model=../independent-model
need "${prefix}objdump" "binutils for x86-64"
need make "builds bench and classes of independent-model, which make the logs"
if [ "$(uname -m)" = x86_64 ]; then
    need valgrind "counts instructions"
else
    need cc "a C compiler for this processor"
fi
library
t=$(mktemp -d)
trap 'rm -rf "$t"' EXIT
if [ "$(uname -m)" = x86_64 ]; then
    counted() { valgrind --tool=callgrind --callgrind-out-file=/dev/null "$@"; }
else
    cc -shared -fPIC -O2 -o "$t/count.so" "$model/qemu_count.c"
    counted() { qemu-x86_64 -L "$sysroot" -plugin "$t/count.so" "$@"; }
fi
make -s -C "$model" bench classes
"$gcc" -O3 -std=c11 -Wall -Wextra -o "$t/count_calls" count_calls.c by_model.c "$model/model.c" "$archive" \
    -Wl,--whole-archive "$asks" -Wl,--no-whole-archive

# Leaves in $collected the instructions of the program with this word on this file; what it prints goes to $t/WORD.
count() {
    LD_BIND_NOW=1 counted "$t/count_calls" "$1" <"$2" 2>"$t/said" >"$t/$1" || { cat "$t/said" >&2; exit 1; }
    collected=$(sed -n 's/.*Collected : *\([0-9]*\).*/\1/p' "$t/said")
    [ -n "$collected" ] || { cat "$t/said" >&2; exit 1; }
}

# Counts a log through the library, the model and nothing, and requires that the first two leave the same.
count_all() {
    count none "$1"
    none=$collected
    count library "$1"
    ours=$collected
    count model "$1"
    peer=$collected
    cmp "$t/library" "$t/model"
}

"${prefix}objdump" -d --no-show-raw-insn "$t/count_calls" >"$t/code"
# Bytes of the functions, or of the constants, of the model that a program for its two calls keeps.
kept() {
    "${prefix}nm" -S "$t/alone" | awk -v kinds="$1" '
        function hex(x,  v, i) { for (i = 1; i <= length(x); i++) v = v * 16 + index("0123456789abcdef", substr(x, i, 1)) - 1; return v }
        FNR == NR { own[$1]; next }
        NF == 4 && $3 ~ kinds && $4 in own { n += hex($2) }
        END { print n + 0 }' "$t/own" -
}
for source in by_model.c "$model/model.c"; do
    "$gcc" -O3 -std=c11 -ffunction-sections -fdata-sections -c -o "$t/$(basename "$source" .c).o" "$source"
done
echo '#include "by_model.h"
int main(void) { static uint8_t b[64]; return model_cold_start(1, 2, 3, b, 42) + model_step(b, 42, b, 1, b + 42, 20); }' >"$t/alone.c"
"$gcc" -O3 -std=c11 -I. -Wl,--gc-sections -o "$t/alone" "$t/alone.c" "$t/by_model.o" "$t/model.o"
"${prefix}nm" --defined-only "$t/by_model.o" "$t/model.o" | awk 'NF == 3 { print $3 }' >"$t/own"
sections() { "${prefix}size" -A "$1" | awk -v name="$2" '$1 ~ name { n += $2 } END { print n + 0 }'; }
echo "| bytes | \`libfirmware.a\` | model | \`libasks.a\` |"
echo "|---|---|---|---|"
echo "| code | $(sections "$archive" '^[.]text') | $(kept '^[Tt]$') | $(sections "$asks" '^[.]text') |"
echo "| constants | $(sections "$archive" '^[.]rodata') | $(kept '^[Rr]$') | $(sections "$asks" '^[.]rodata') |"
writable='^[.](data|bss|tdata|tbss)'
echo "| writable data | $(sections "$archive" "$writable") | $(kept '^[DdBb]$') | $(sections "$asks" "$writable") |"
echo
echo "| deepest stack, bytes | library | model |"
echo "|---|---|---|"
echo "| \`resheftal_step\` | $(stack "$t/code" resheftal_step) | $(stack "$t/code" model_step memcpy) |"
echo "| \`resheftal_cold_start\` | $(stack "$t/code" resheftal_cold_start) | $(stack "$t/code" model_cold_start memcpy) |"
for function in resheftal_interface resheftal_reads resheftal_standing; do
    echo "| \`$function\` | $(stack "$t/code" $function) | |"
done

echo
echo "| log of 1 MiB | records | refused | instructions a call, library | model | library / model |"
echo "|---|---|---|---|---|---|"
for mix in deep even; do
    "$model/bench" $mix log 1 >"$t/log"
    count_all "$t/log"
    records=$(printf '%d' "0x$(head -n 1 "$t/library" | cut -d ' ' -f 2)")
    refused=$(printf '%d' "0x$(head -n 1 "$t/library" | cut -d ' ' -f 4)")
    awk -v mix=$mix -v r="$records" -v f="$refused" -v n="$none" -v l="$ours" -v m="$peer" 'BEGIN {
        printf "| %s | %d | %d | %.1f | %.1f | %.2f |\n", mix, r, f, (l - n) / r, (m - n) / r, (l - n) / (m - n) }'
done

# Every phase (0: no place held) with every event, alone and with three other RBCs in Open.
for others in 0 3; do
    for phase in 0 1 2 3 4 5; do
        "$model/classes" $others $phase >"$t/log"
        count_all "$t/log"
        ours_before=$((ours - none))
        peer_before=$((peer - none))
        for event in 0 1 2 3 4 5 6 7 8 9 10 11 12 13 14 15; do
            "$model/classes" $others $phase $event >"$t/log"
            count_all "$t/log"
            echo "$others $phase $event $((ours - none - ours_before)) $((peer - none - peer_before))" >>"$t/classes"
        done
    done
done
echo
awk '{ p += $4; m += $5; at = "others " $1 ", phase " $2 ", event " $3 }
    $4 > top { top = $4; top_at = at }
    $5 > peer { peer = $5; peer_at = at }
    END {
        printf "A call, one event, over %d classes of (others, phase, event):\n\n", NR
        print "| | library | model |\n|---|---|---|"
        printf "| mean, instructions | %.1f | %.1f |\n| dearest, instructions | %d | %d |\n| its class in classes.c | %s | %s |\n", p / NR, m / NR, top, peer, top_at, peer_at
    }' "$t/classes"
