#!/bin/sh
# compare.sh [COUNT [SEED]]: the proved `sheet` and the model's on COUNT random logs; needs rt, make and a C compiler.
cd "$(dirname "$0")" || exit 1
count=${1:-2000}
seed=${2:-1}
../run-program --build sheet || { echo "sheet is not proved" >&2; exit 1; }
make -s sheet_model random_log || exit 1
t=$(mktemp -d) || exit 1
trap 'rm -rf "$t"' EXIT
bad=0
i=0
while [ "$i" -lt "$count" ]; do
    ./random_log $((seed + i)) >"$t/log"
    ../run-program --built sheet <"$t/log" >"$t/proved"
    ./sheet_model <"$t/log" >"$t/model"
    cmp -s "$t/proved" "$t/model" || { echo "seed $((seed + i)): the sheets differ"; bad=$((bad + 1)); }
    tail -n 1 "$t/model" | cut -d ' ' -f 1,2 >>"$t/ends"
    i=$((i + 1))
done
echo "$count logs, $bad differ; how they ended:"
sort "$t/ends" | uniq -c
[ "$bad" -eq 0 ]
