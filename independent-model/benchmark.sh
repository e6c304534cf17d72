#!/bin/sh
# The proved code beside the model, on the same logs: instructions, time, growth, sizes, stack, and what an event may cost on the box.
# Prints docs/BENCHMARK.md whole. The aims are checked here: each is said to be met or missed, and the exit status is 1 where one is
# missed.
# benchmark.sh --test: shows that an aim is met at its limit and missed just over it, and that a missed one is not forgotten.
# Needs rt, make, a C compiler, binutils and, on an x86-64, valgrind. The compiled programs are x86-64; on another processor they
# and a model compiled for x86-64 (x86_64-linux-gnu-gcc) are run and counted by qemu-x86_64 with the plugin qemu_count.c, and no
# time is measured. What a program takes on a log of one record is subtracted throughout.
set -eu
cd "$(dirname "$0")"
t=$(mktemp -d)
trap 'rm -rf "$t"' EXIT
trap 'exit 1' HUP INT TERM
fail() { echo "$1" >&2; exit 1; }

# aim NAME VALUE LIMIT: a row that says whether VALUE is at most LIMIT, and the status. Both are whole numbers, so that nothing is
# rounded; what is no number is missed.
aims=0
missed=0
aim() {
    aims=$((aims + 1))
    if [ "$2" -le "$3" ]; then
        echo "| $1 | $2 | $3 | met |"
    else
        missed=$((missed + 1))
        echo "| $1 | $2 | $3 | **missed** |"
        return 1
    fi
}

# The sentence on all aims so far, and the status.
verdict() {
    if [ "$missed" -eq 0 ]; then
        echo "All $aims aims are met."
    else
        echo "Of $aims aims $missed are missed."
        return 1
    fi
}

# Tries aim on this value and limit: the word, the status, the number missed so far.
try_aim() {
    status=0
    aim test "$1" "$2" >"$t/said" 2>"$t/error" || status=$?
    said="$(cat "$t/said") status $status, missed $missed"
    [ "$said" = "| test | $1 | $2 | $3 | status $4, missed $5" ] || fail "aim of $1 with the limit $2: $said"
}

if [ "${1:-}" = --test ]; then
    try_aim 0 0 met 0 0
    try_aim 511 512 met 0 0
    try_aim 512 512 met 0 0
    try_aim 18323000 18323000 met 0 0
    verdict >"$t/said" || fail "no aim is missed, and the verdict says so of one"
    try_aim 513 512 '**missed**' 1 1
    try_aim 18323001 18323000 '**missed**' 1 2
    try_aim 100000000001 100000000000 '**missed**' 1 3
    try_aim 512 512 met 0 3
    try_aim '' 512 '**missed**' 1 4
    try_aim 512 '' '**missed**' 1 5
    if verdict >"$t/said"; then fail "five aims are missed, and the verdict does not say so"; fi
    echo "an aim is met at its limit, missed over it and where there is no number; one that is missed decides the end"
    exit 0
fi
[ $# -eq 0 ] || { echo "usage: benchmark.sh [--test]" >&2; exit 2; }

. ../firmware/tools.sh
. ../firmware/stack.sh
need rt "the Rattle toolchain"
need make "builds bench and classes, which make the logs"
need "${prefix}objdump" "binutils for x86-64"
if [ "$(uname -m)" = x86_64 ]; then
    need valgrind "counts instructions"
    counter=$(valgrind --version)
    counted() { valgrind --tool=callgrind --callgrind-out-file=/dev/null "$@"; }
    preloaded() { LD_PRELOAD=$t/rooms.so "$1"; }
else
    need cc "a C compiler for this processor"
    counter=$(qemu-x86_64 --version | head -n 1)
    cc -shared -fPIC -O2 -o "$t/count.so" qemu_count.c
    counted() { qemu-x86_64 -L "$sysroot" -plugin "$t/count.so" "$@"; }
    preloaded() { qemu-x86_64 -L "$sysroot" -E LD_PRELOAD="$t/rooms.so" "$1"; }
fi
../run-program --build report steps sheet rescues >"$t/said" 2>&1 || { cat "$t/said" >&2; fail "report, steps, sheet or rescues is not proved"; }
library >&2
make -s bench classes >&2
sh ../firmware/test_stack.sh >"$t/said" || fail "the stack cannot be found: firmware/test_stack.sh fails"
report=../crates/report/out/report
steps=../crates/steps/out/steps
sheet=../crates/sheet/out/sheet
rescues=../crates/rescues/out/rescues
model=$t/report_model
"$gcc" -O3 -std=c11 -o "$model" report_model.c model.c
"$gcc" -O3 -std=c11 -DSHEET_MAIN -o "$t/sheet_model" sheet_model.c model.c
"$gcc" -O3 -std=c11 -o "$t/rescue_model" rescue_model.c model.c
"$gcc" -O2 -std=c11 -o "$t/example" ../firmware/example.c "$archive" "$asks"
"$gcc" -O2 -std=c11 -shared -fPIC -o "$t/rooms.so" rooms.c
printf '\003' >"$t/one"

# Leaves in $collected the instructions that a program takes with this file on its standard input; what it prints goes to $t/out. The
# C library is bound before, not at the first call.
count() {
    file=$1
    shift
    LD_BIND_NOW=1 counted "$@" <"$file" 2>"$t/said" >"$t/out" || { cat "$t/said" >&2; exit 1; }
    collected=$(sed -n 's/.*Collected : *\([0-9]*\).*/\1/p' "$t/said")
    [ -n "$collected" ] || { cat "$t/said" >&2; exit 1; }
}

# Leaves in $total the instructions for a log without those for a log of one record.
count_log() {
    whole=$1
    shift
    count "$t/one" "$@"
    first=$collected
    count "$whole" "$@"
    total=$((collected - first))
}

# The nanoseconds of 50 runs with this file.
elapsed() {
    file=$1
    shift
    from=$(date +%s%N)
    n=0
    while [ "$n" -lt 50 ]; do
        "$@" <"$file" >"$t/out"
        n=$((n + 1))
    done
    echo $(($(date +%s%N) - from))
}

# quotient A B PLACES
quotient() { awk -v a="$1" -v b="$2" "BEGIN { printf \"%.$3f\", a / b }"; }

# So many images A2, all the same: a sound one, or one with all eleven fields bad (as in rescue_count.c).
images() {
    case $1 in
    sound) one='\242\1\2\3\2\0\1\0\1\3\1\0\0\1\2\3\2\0\5\1\1\2\3\5\0\1\1\377\377\377\4\1\4\0\0\0\0\5\1\0\0\7' ;;
    bad) one='\242\1\2\5\3\2\3\377\2\3\1\1\0\1\2\3\2\1\5\0\1\2\3\0\0\0\0\0\0\1\4\1\4\0\0\77\377\5\1\0\177\377' ;;
    esac
    n=0
    while [ "$n" -lt "$2" ]; do
        printf "$one"
        n=$((n + 1))
    done
}

# The beginning of a row for a program on a log of so many records: instructions a record, nanoseconds a record. $total is left.
row() {
    name=$1
    given=$2
    number=$3
    shift 3
    count_log "$given" "$@"
    took=emulated
    [ "$(uname -m)" != x86_64 ] || took=$(quotient $(($(elapsed "$given" "$@") - $(elapsed "$t/one" "$@"))) $((50 * (number - 1))) 1)
    printf '| %s | %s | %s |' "$name" "$(quotient "$total" $((number - 1)) 1)" "$took"
}

same() { cmp -s "$1" "$2" || fail "$3 differ"; }

# Leaves in $deepest the deepest stack of a program whose main reads a log and works on it, without the two buffers that are no part of
# the work: the log's room, which on the box its owner lends, and the chunk by which the library reads. Both are in main's frame (main
# alone calls `read`), and main is at the top of every row of calls, so their bytes come off the sum. What the work uses again of the
# chunk's place is added back; rooms.c finds it, on both logs.
own_stack() {
    "${prefix}objdump" -d --no-show-raw-insn "$1" >"$t/code"
    readers=$(awk '/^[0-9a-f]+ <.*>:$/ { f = $2 } /call .*<read@plt>$/ { print f }' "$t/code" | sort -u)
    [ "$readers" = "<main>:" ] || fail "not main alone reads in $1: $readers"
    again=0
    for mix in deep even; do
        # less than the room by a chunk, so that the chunk is offered whole
        head -c 1044480 "$t/$mix" >"$t/part"
        preloaded "$1" <"$t/part" 2>"$t/rooms" >"$t/out"
        read -r room chunk used <"$t/rooms" || fail "no buffers were found in $1"
        [ "$used" -le "$again" ] || again=$used
    done
    frames=$(stack "$t/code" main read write memset memcpy)
    [ "$frames" -gt $((room + chunk)) ] || fail "the buffers of $1 are not in main's frame"
    deepest=$((frames - room - chunk + again))
}

{
    echo "## Instructions"
    for mix in deep even; do
        log=$t/$mix
        ./bench $mix log 1 >"$log"
        head -c 65536 "$log" >"$t/part"
        head -c 4096 "$log" >"$t/$mix-sheet"
        run "$report" <"$log" >"$t/proved"
        run "$model" once <"$log" >"$t/peer"
        same "$t/proved" "$t/peer" "the totals"
        run "$model" checked <"$log" >"$t/peer"
        same "$t/proved" "$t/peer" "the totals"
        run "$steps" <"$log" >"$t/proved-steps"
        run "$model" steps <"$log" >"$t/peer-steps"
        same "$t/proved-steps" "$t/peer-steps" "the steps"
        records=$(sed 's/.* read \([0-9]*\) .*/\1/' "$t/peer")
        part=$(run "$report" <"$t/part" | sed 's/.* read \([0-9]*\) .*/\1/')
        echo
        echo "Log '$mix', 1 MiB, $records records: $(cat "$t/peer")"
        echo
        echo "| | instructions a record | ns a record | proved / model |"
        echo "|---|---|---|---|"
        row "run, proved" "$log" "$records" "$report"
        run_proved=$total
        echo " 1 |"
        row "run, model that tests soundness at each record" "$log" "$records" "$model" checked
        echo " $(quotient "$run_proved" "$total" 2) |"
        row "run, model that tests soundness once" "$log" "$records" "$model" once
        run_model=$total
        echo " $(quotient "$run_proved" "$total" 2) |"
        row "run, proved, first sixteenth of the log" "$t/part" "$part" "$report"
        run_part=$total
        echo " |"
        row "step on bytes, proved" "$log" "$records" "$steps"
        step_proved=$total
        echo " 1 |"
        row "step on bytes, model" "$log" "$records" "$model" steps
        step_model=$total
        echo " $(quotient "$step_proved" "$total" 2) |"
        echo
        growth=$(awk "BEGIN { printf \"%.3f\", $run_proved / ($records - 1) / ($run_part / ($part - 1)) }")
        echo "A record of the whole log takes $growth times the instructions of one of its first sixteenth."
        echo "$run_proved $run_model $step_proved $step_model $records" >"$t/$mix-totals"
    done

    # Every phase (0: no place held) with every event, alone and with three other RBCs in Open.
    for others in 0 3; do
        for phase in 0 1 2 3 4 5; do
            ./classes $others $phase >"$t/before"
            count "$t/before" "$steps"
            proved_before=$collected
            count "$t/before" "$model" steps
            model_before=$collected
            for event in 0 1 2 3 4 5 6 7 8 9 10 11 12 13 14 15; do
                ./classes $others $phase $event >"$t/after"
                count "$t/after" "$steps"
                proved=$((collected - proved_before))
                count "$t/after" "$model" steps
                echo "$others $phase $event $proved $((collected - model_before))" >>"$t/classes"
            done
        done
    done
    echo
    awk '
        { p += $4; m += $5; at = "others " $1 ", phase " $2 ", event " $3 }
        $4 > top { top = $4; top_at = at }
        $5 > peer { peer = $5; peer_at = at }
        END {
            printf "Step on bytes, one event, over %d classes of (others, phase, event):\n\n", NR
            print "| | proved | model |\n|---|---|---|"
            printf "| mean, instructions | %.1f | %.1f |\n| dearest, instructions | %d | %d |\n| its class in classes.c | %s | %s |\n", p / NR, m / NR, top, peer, top_at, peer_at
        }' "$t/classes"
    echo
    echo "A record of \`sheet\`, its reading and printing with it, on the first 4,096 bytes:"
    echo
    echo "| log | records | instructions a record, proved | model | proved / model |"
    echo "|---|---|---|---|---|"
    for mix in deep even; do
        count_log "$t/$mix-sheet" "$t/sheet_model"
        sheet_model=$total
        mv "$t/out" "$t/peer"
        count_log "$t/$mix-sheet" "$sheet"
        sheet_proved=$total
        same "$t/out" "$t/peer" "the sheets"
        records=$(tail -n 1 "$t/out" | cut -d ' ' -f 3)
        echo "| $mix | $records | $(quotient "$sheet_proved" $((records - 1)) 0) | $(quotient "$sheet_model" $((records - 1)) 0) | $(quotient "$sheet_proved" "$sheet_model" 2) |"
        echo "$sheet_proved $sheet_model $records" >"$t/$mix-sheets"
    done

    echo
    echo "A rescue, the walk to the next image with it, of an image that is sound and of one with all eleven fields bad (those of rescue_count.c):"
    echo
    echo "| image | instructions a rescue, proved | model | proved / model |"
    echo "|---|---|---|---|"
    for image in sound bad; do
        images $image 1 >"$t/first"
        images $image 1001 >"$t/images"
        for program in "$rescues" "$t/rescue_model"; do
            count "$t/first" "$program"
            first=$collected
            count "$t/images" "$program"
            echo $((collected - first))
            mv "$t/out" "$t/$(basename "$program").out"
        done >"$t/two"
        same "$t/rescues.out" "$t/rescue_model.out" "the rescues"
        { read -r rescue_proved; read -r rescue_peer; } <"$t/two"
        echo "| $image | $(quotient "$rescue_proved" 1000 0) | $(quotient "$rescue_peer" 1000 0) | $(quotient "$rescue_proved" "$rescue_peer" 2) |"
        echo "$rescue_proved $rescue_peer" >"$t/$image-rescues"
    done

    echo
    echo "## The call from C"
    echo
    echo "What \`firmware/measure.sh\` printed: a call of \`resheftal_step\` beside the model's reading, step and writing; the walk along the log and an empty call are subtracted."
    echo
    sh ../firmware/measure.sh >"$t/calls" || fail "firmware/measure.sh fails"
    cat "$t/calls"

    echo
    echo "## Code and stack"
    echo
    echo "Bytes of code are the \`.text\` of the program, its reading and printing with it. The deepest stack is the sum of the frames along the deepest row of calls (\`firmware/stack.sh\`). \`report\` and \`steps\` have the log, the library's reading, the work and the printing in one frame, main's: the log's room and the chunk of the reading are left out, and what the work uses again of the chunk's place is counted. Of a function of libc only the return address counts. \`resheftal_step\`, which firmware calls, reads the image, steps and writes it, and calls nothing outside."
    echo
    echo "| | bytes of code | frames | the log's room | the chunk | used again | deepest stack |"
    echo "|---|---|---|---|---|---|---|"
    for program in report steps; do
        own_stack "../crates/$program/out/$program"
        [ $program != report ] || run_stack=$deepest
        code=$("${prefix}size" -A "../crates/$program/out/$program" | awk '$1 == ".text" { print $2 }')
        echo "| \`$program\` | $code | $frames | $room | $chunk | $again | $deepest |"
    done
    "${prefix}objdump" -d --no-show-raw-insn "$t/example" >"$t/code"
    step_stack=$(stack "$t/code" resheftal_step)
    code=$("${prefix}size" -A "$archive" | awk '$1 ~ /^\.text/ { n += $2 } END { print n }')
    echo "| \`libfirmware.a\`, \`resheftal_step\` | $code | $step_stack | | | | $step_stack |"
} >"$t/tables"

dearest=$(awk '$4 > top { top = $4 } END { print top }' "$t/classes")
dearest_model=$(awk '$5 > top { top = $5 } END { print top }' "$t/classes")

cat <<'TEXT'
# The last benchmark

This file is what `independent-model/benchmark.sh` printed, all of it in one run. The model is compiled at -O3; programs and model read the same logs, and totals, counts and the bytes left in the action buffer were the same. Instructions are counted exactly; those for a log of one record are subtracted, and so is all that comes before and after.
TEXT
echo
if [ "$(uname -m)" = x86_64 ]; then
    echo "The time is that of this run's processor, an x86-64, over 50 runs."
else
    echo "The processor was no x86-64: the programs were emulated, and no time was measured."
fi
echo
echo "Toolchain $(rt version); $("$gcc" --version | head -n 1); $counter; $(date +%Y-%m-%d)"
echo
echo "## Aims"
echo
echo "| aim | is | at most | |"
echo "|---|---|---|---|"
for mix in deep even; do
    read -r run_proved run_model step_proved step_model records <"$t/$mix-totals"
    aim "run, log '$mix', instructions: 1.0 times the model that tests soundness once (is $(quotient "$run_proved" "$run_model" 4))" "$run_proved" "$run_model" || :
    aim "step on bytes, log '$mix', instructions: 1.0 times the model (is $(quotient "$step_proved" "$step_model" 4))" "$step_proved" "$step_model" || :
done
# 1.1 times a whole number, rounded down: a whole number is at most the one exactly where it is at most the other.
aim "dearest event, instructions: 1.1 times the model's dearest, $dearest_model (is $(quotient "$dearest" "$dearest_model" 4))" "$dearest" $((11 * dearest_model / 10)) || :
# the call from C by the rows of firmware/measure.sh, in tenths of an instruction
tenths() { awk -F ' *[|] *' -v row="$1" -v at="$2" '$2 == row { sub(/[.]/, "", $at); print $at; exit }' "$t/calls"; }
for mix in deep even; do
    call=$(tenths $mix 5)
    aim "call from C, log '$mix', tenths of an instruction a call: 1.0 times the model (is $(quotient "$call" "$(tenths $mix 6)" 4))" "$call" "$(tenths $mix 6)" || :
done
call=$(tenths 'dearest, instructions' 3)
aim "dearest call from C, instructions: 1.0 times the model's dearest" "$call" "$(tenths 'dearest, instructions' 4)" || :
for image in sound bad; do
    read -r rescue_proved rescue_peer <"$t/$image-rescues"
    aim "rescue, image '$image', 1,000 of them, instructions: 1.0 times the model (is $(quotient "$rescue_proved" "$rescue_peer" 4))" "$rescue_proved" "$rescue_peer" || :
done
for mix in deep even; do
    read -r sheet_proved sheet_model records <"$t/$mix-sheets"
    most=500
    [ $mix = deep ] || most=400
    aim "sheet, log '$mix', instructions: $most a record (is $(quotient "$sheet_proved" $((records - 1)) 0))" "$sheet_proved" $((most * (records - 1))) || :
done
aim "deepest stack of a step called from outside, bytes" "$step_stack" 512 || :
aim "deepest stack of the run, bytes" "$run_stack" 640 || :
echo
status=0
verdict || status=1
if [ "$dearest" -le 400 ]; then
    echo "The dearest event takes at most 400 instructions: $dearest."
else
    echo "The dearest event takes more than 400 instructions: $dearest."
fi
echo
echo "## An event on the box: an estimate"
echo
echo "No measurement: the box has another processor, and the instructions are those of x86-64. At 66 MHz, if an instruction takes one cycle, and if it takes three:"
echo
echo "| | instructions | µs, one cycle | µs, three cycles |"
echo "|---|---|---|---|"
{
    echo "$dearest step on bytes, dearest event"
    awk '{ p += $4 } END { print p / NR, "step on bytes, mean of the " NR " classes" }' "$t/classes"
    for mix in deep even; do
        read -r run_proved run_model step_proved step_model records <"$t/$mix-totals"
        echo "$(quotient "$step_proved" $((records - 1)) 4) step on bytes, mean record of the log '$mix'"
        echo "$(quotient "$run_proved" $((records - 1)) 4) run, mean record of the log '$mix'"
    done
} | awk '{ n = $1; sub(/^[^ ]* /, ""); printf "| %s | %.1f | %.1f | %.1f |\n", $0, n, n / 66, 3 * n / 66 }'
echo
# deep or sound / even or bad, of the files A and B: the quotient of their k-th word by the number N
pair() { echo "$(quotient "$(cut -d ' ' -f "$3" "$1")" "$4" 1) / $(quotient "$(cut -d ' ' -f "$3" "$2")" "$5" 1)"; }
records_deep=$(cut -d ' ' -f 5 "$t/deep-totals")
records_even=$(cut -d ' ' -f 5 "$t/even-totals")
cat <<'TEXT'
## Beside C written for speed alone

"As cheap as C" in these pages means: as cheap as the independent model, a C written to be read beside the documents and compiled at -O3. A C written for speed alone (computed goto, packed tables, tests on the image's bytes, no separate question whether a state is sound where the image's bytes were asked) is faster. It was written and measured once, outside this repository, in instructions on the same logs; its column is kept as it was told and is measured by no script here. Logs deep / even; of a rescue an image that is sound / bad.

| | proved | model | C for speed alone |
|---|---|---|---|
TEXT
echo "| run | $(pair "$t/deep-totals" "$t/even-totals" 1 $((records_deep - 1)) $((records_even - 1))) | $(pair "$t/deep-totals" "$t/even-totals" 2 $((records_deep - 1)) $((records_even - 1))) | 29.0 / 22.5 |"
echo "| step on bytes, the walk with it | $(pair "$t/deep-totals" "$t/even-totals" 3 $((records_deep - 1)) $((records_even - 1))) | $(pair "$t/deep-totals" "$t/even-totals" 4 $((records_deep - 1)) $((records_even - 1))) | 171 / 152, without the walk (some 22) |"
echo "| call from C | $(quotient "$(tenths deep 5)" 10 1) / $(quotient "$(tenths even 5)" 10 1) | $(quotient "$(tenths deep 6)" 10 1) / $(quotient "$(tenths even 6)" 10 1) | 199 / 161 |"
echo "| rescue, sound / bad | $(pair "$t/sound-rescues" "$t/bad-rescues" 1 1000 1000) | $(pair "$t/sound-rescues" "$t/bad-rescues" 2 1000 1000) | 182 / 194 |"
sheets_deep=$(($(cut -d ' ' -f 3 "$t/deep-sheets") - 1))
sheets_even=$(($(cut -d ' ' -f 3 "$t/even-sheets") - 1))
echo "| \`sheet\`, whole program | $(pair "$t/deep-sheets" "$t/even-sheets" 1 $sheets_deep $sheets_even) | $(pair "$t/deep-sheets" "$t/even-sheets" 2 $sheets_deep $sheets_even) | 121 / 92 |"
echo "| dearest step / call | $dearest / $(tenths 'dearest, instructions' 3) | $dearest_model / $(tenths 'dearest, instructions' 4) | 282 / 294 |"
echo
cat "$t/tables"
exit "$status"
