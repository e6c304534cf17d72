#!/bin/sh
# The built sheet_model: by a file, a pipe, a pipe in small pieces, nothing, too much.
cd "$(dirname "$0")" || exit 1
t=$(mktemp -d) || exit 1
trap 'rm -rf "$t"' EXIT
bad=0
same() { cmp -s "$t/want" "$t/got" && echo "sheet $1: ok" || { echo "sheet $1: FAILED"; bad=1; }; }
printf '\005\000\000\000\005\001\001\010\000\000\000\005\013\000\000\000\005\040\021\006\000\000\000\005\013\000\000\000\005\047\000' >"$t/in"
printf 'rec kind code actions\n1 5 0 21:0/5\n2 8 0 155:0/5\n3 11 0 159:0/5\n4 6 0 156:0/5\n5 11 0 22:0/5\nend 0 5\n' >"$t/want"
./sheet_model <"$t/in" >"$t/got"; same file
cat "$t/in" | ./sheet_model >"$t/got"; same pipe
{ dd if="$t/in" bs=1 count=3 2>/dev/null; sleep 0.2; dd if="$t/in" bs=1 skip=3 count=9 2>/dev/null; sleep 0.2
  dd if="$t/in" bs=1 skip=12 2>/dev/null; } | ./sheet_model >"$t/got"; same "pipe in pieces"
printf 'rec kind code actions\nend 0 0\n' >"$t/want"
./sheet_model </dev/null >"$t/got"; same "nothing"
./sheet_model <&- >"$t/got"; same "closed input"
printf 'too long\n' >"$t/want"
head -c 4097 /dev/zero >"$t/in"; ./sheet_model <"$t/in" >"$t/got"; same "4097 bytes"
printf 'rec kind code actions\nend 3 0\n' >"$t/want"
head -c 4096 /dev/zero >"$t/in"; ./sheet_model <"$t/in" >"$t/got"; same "4096 bytes"
exit $bad
