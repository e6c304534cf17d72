#!/bin/sh
# Instructions of building, extending, looking up and the model's run, by callgrind, over a log of just under 1 MiB.
cd "$(dirname "$0")" || exit 1
t=$(mktemp -d) || exit 1
trap 'rm -rf "$t"' EXIT
count() {
    function=$1
    shift
    line=$(valgrind --tool=callgrind --callgrind-out-file=/dev/null --toggle-collect="$function" ./marks_bench "$@" 2>"$t/said") || exit 1
    ir=$(sed -n 's/.*Collected : *\([0-9]*\).*/\1/p' "$t/said")
    echo "$*: $ir instructions; ${line% state *}"
}
count marks_build build
count marks_extend extend 600
for n in 30000 170032 30207; do
    count marks_lookup lookup $n
    count run_once run $n
done
