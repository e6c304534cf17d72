#!/bin/sh
# Instructions a record of the shunter's run and step and of the core's, by callgrind, over a log of just under 1 MiB: the model's, and where
# the programs shunter_run, shunter_steps and steps stand built those of the proved code, an empty log's subtracted.
cd "$(dirname "$0")" || exit 1
t=$(mktemp -d) || exit 1
trap 'rm -rf "$t"' EXIT
instructions() { sed -n 's/.*Collected : *\([0-9]*\).*/\1/p' "$t/said"; }
count() {
    line=$(valgrind --tool=callgrind --callgrind-out-file=/dev/null --toggle-collect="$1" ./shunter_bench "$2" 2>"$t/said") || exit 1
    records=$(echo "$line" | sed 's/.*records \([0-9]*\) .*/\1/')
    awk -v what="$2" -v ir="$(instructions)" -v n="$records" -v line="$line" \
        'BEGIN { printf "model, %s: %d instructions, %.2f a record; %s\n", what, ir, ir / n, line }'
}
proved() { # PROGRAM: its instructions over the log, less those over none
    program=../crates/$1/out/$1
    [ -x "$program" ] || return 0
    valgrind --tool=callgrind --callgrind-out-file=/dev/null "$program" </dev/null >"$t/out" 2>"$t/said" || exit 1
    none=$(instructions)
    valgrind --tool=callgrind --callgrind-out-file=/dev/null "$program" <"$t/log" >"$t/out" 2>"$t/said" || exit 1
    awk -v what="$1" -v ir="$(($(instructions) - none))" -v n="$records" 'BEGIN { printf "proved, %s: %d instructions, %.2f a record\n", what, ir, ir / n }'
}
count shunter_run run
count run_once core
count shunter_step steps
count step coresteps
./shunter_bench log >"$t/log" || exit 1
proved shunter_run
proved shunter_steps
proved steps
