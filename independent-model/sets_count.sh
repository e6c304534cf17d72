#!/bin/sh
# Instructions a record of the set engine's run and step and of the place engine's, by callgrind, over a log of just under 1 MiB and over the
# benchmark's two logs: the model's, and where the programs sets_run, sets_steps, report and steps stand built those of the proved code, an
# empty log's subtracted.
cd "$(dirname "$0")" || exit 1
t=$(mktemp -d) || exit 1
trap 'rm -rf "$t"' EXIT
instructions() { sed -n 's/.*Collected : *\([0-9]*\).*/\1/p' "$t/said"; }
count() { # FUNCTION WHAT: over $t/log, named $log
    line=$(valgrind --tool=callgrind --callgrind-out-file=/dev/null --toggle-collect="$1" ./sets_bench "$2" "$t/log" 2>"$t/said") || exit 1
    records=$(echo "$line" | sed 's/.*records \([0-9]*\) .*/\1/')
    awk -v mix="$log" -v what="$2" -v ir="$(instructions)" -v n="$records" -v line="$line" \
        'BEGIN { printf "model, %s, %s: %d instructions, %.2f a record; %s\n", mix, what, ir, ir / n, line }'
}
proved() { # PROGRAM: its instructions over the log, less those over none
    program=../crates/$1/out/$1
    [ -x "$program" ] || return 0
    valgrind --tool=callgrind --callgrind-out-file=/dev/null "$program" </dev/null >"$t/out" 2>"$t/said" || exit 1
    none=$(instructions)
    valgrind --tool=callgrind --callgrind-out-file=/dev/null "$program" <"$t/log" >"$t/out" 2>"$t/said" || exit 1
    awk -v mix="$log" -v what="$1" -v ir="$(($(instructions) - none))" -v n="$records" \
        'BEGIN { printf "proved, %s, %s: %d instructions, %.2f a record\n", mix, what, ir, ir / n }'
}
for log in sessions deep even; do
    if [ $log = sessions ]; then ./sets_bench log; else ./bench $log log 1; fi >"$t/log" || exit 1
    count sets_run run
    count run_once core
    count sets_step steps
    count step coresteps
    proved sets_run
    proved sets_steps
    proved report
    proved steps
done
