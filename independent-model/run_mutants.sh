#!/bin/sh
# run_mutants.sh [FILE [FROM]]: builds check_vectors with each mutant of model.c, those before number FROM left out, and runs it over
# FILE (vectors.bin).
# mutants.txt: number, failed vectors of groups 1 to 13, all, name. 'crash' counts as caught.
file=${1:-vectors.bin}
from=${2:-1}
gcc -O2 -std=c11 -Wall -Wextra -o mutate mutate.c || exit 1
gcc -O3 -std=c11 -Wall -Wextra -c check_vectors.c || exit 1
n=$(./mutate count)
dir=$(mktemp -d) || exit 1
one() {
    ./mutate apply $1 < model.c > $dir/$1.c || { echo "$1 - not made"; return; }
    gcc -O1 -std=c11 -w -I. -o $dir/$1 $dir/$1.c check_vectors.o || { echo "$1 - not compiled"; return; }
    timeout 120 $dir/$1 $file 0 > $dir/$1.out 2>&1
    rc=$?
    if [ $rc -le 1 ]; then
        echo "$1 $(sed -n 's/^group .* vectors, \([0-9]*\) failed/\1/p; s/^all: .* vectors, \([0-9]*\) failed/\1/p' $dir/$1.out | tr '\n' ' ')$(./mutate name $1)"
    else
        echo "$1 crash $rc $(./mutate name $1)"
    fi
    rm -f $dir/$1 $dir/$1.c $dir/$1.out
}
half() { i=$1; while [ $i -le $n ]; do one $i; i=$((i + 2)); done; }
half $from > $dir/odd & odd=$!
half $((from + 1)) > $dir/even
wait $odd
sort -n $dir/odd $dir/even > mutants.txt
rm -r $dir
awk '$2 == "crash" || $2 == "-" { other++; print; next }
     { made++; for (g = 1; g <= 13; g++) if ($(g + 1) > 0) by[g]++
       if ($15 > 0) { caught++; few = 0; for (g = 1; g <= 13; g++) few += g != 9 && $(g + 1) > 0; if (!few) only9++ }
       else print "survived: " $0 }
     END { printf "mutants run %d, caught %d, other %d\n", made, caught, other
           printf "caught by group:"; for (g = 1; g <= 13; g++) printf " %d: %d", g, by[g]; print ""
           printf "caught by the histories of group 9 only: %d\n", only9 }' mutants.txt
