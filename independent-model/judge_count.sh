#!/bin/sh
# Instructions a byte and a record of the judge, by callgrind, over random sheets of a quarter, half and all of the longest: the model's, and
# where the program `resheftal` stands built that of the proved judge, an empty sheet's subtracted.
cd "$(dirname "$0")" || exit 1
program=../crates/resheftal/out/resheftal
t=$(mktemp -d) || exit 1
trap 'rm -rf "$t"' EXIT
# counted WORDS..: leaves the instructions in $ir, and what the program prints in $t/out
counted() {
    LD_BIND_NOW=1 valgrind --tool=callgrind --callgrind-out-file=/dev/null "$@" >"$t/out" 2>"$t/said" || { cat "$t/said" >&2; exit 1; }
    ir=$(sed -n 's/.*Collected : *\([0-9]*\).*/\1/p' "$t/said")
}
# said WHO LOG BYTES RECORDS INSTRUCTIONS
said() { awk -v who="$1" -v mix="$2" -v n="$3" -v r="$4" -v ir="$5" 'BEGIN { printf "%s, %s: %d bytes, %d records: %d instructions, %.3f a byte, %.2f a record\n", who, mix, n, r, ir, ir / n, ir / r }'; }
: >"$t/empty"
[ ! -x $program ] || { counted $program judge "$t/empty" 3>/dev/null; none=$ir; }
for log in deep even; do
    for most in 262144 524288 1048576; do
        ./random_sheet $log sheet $most 1 >"$t/sheet" || exit 1
        bytes=$(wc -c <"$t/sheet")
        counted --toggle-collect=judge ./judge_bench "$t/sheet"
        grep -q 'code 0 fault 0 ' "$t/out" || { cat "$t/out" >&2; exit 1; }
        records=$(sed 's/.* records \([0-9]*\) .*/\1/' "$t/out")
        said model $log "$bytes" "$records" "$ir"
        [ -x $program ] || continue
        counted $program judge "$t/sheet" 3>/dev/null
        grep -q "^accepted: $records event records, $bytes bytes" "$t/out" || { cat "$t/out" >&2; exit 1; }
        said proved $log "$bytes" "$records" $((ir - none))
    done
done
