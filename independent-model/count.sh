#!/bin/sh
# Instructions a record, by callgrind, over a random log of 1 MiB.
cd "$(dirname "$0")" || exit 1
for log in even deep; do
    for form in checked once; do
        line=$(valgrind --tool=callgrind --callgrind-out-file=/dev/null \
            --toggle-collect=run_$form ./bench $log $form 1 2>count.tmp)
        ir=$(sed -n 's/.*Collected : *\([0-9]*\).*/\1/p' count.tmp)
        records=$(echo "$line" | sed 's/.*read \([0-9]*\) .*/\1/')
        echo "$log log, run_$form: $ir instructions, $records records, $((ir * 10 / records)) tenths a record"
        echo "    $line"
    done
done
rm -f count.tmp
