#!/bin/sh
# test_boundary.sh [CALLS [SEED]]: the libraries held to the independent model by test_boundary.c; then the proof that the test can fail:
# with each of the damages of spoil.h, and with too few calls to see every refusal, it must exit with 1.
set -eu
cd "$(dirname "$0")"
. ./tools.sh
library
t=$(mktemp -d)
trap 'rm -rf "$t"' EXIT
"$gcc" -O2 -std=c11 -Wall -Wextra -c -o "$t/model.o" ../independent-model/model.c
"$gcc" -O2 -std=c11 -Wall -Wextra -c -o "$t/gen.o" ../independent-model/gen.c
"$gcc" -O2 -std=c11 -Wall -Wextra -c -o "$t/by_model.o" by_model.c

# Compiles the test to $t/$1, with further words for the compiler.
compile() {
    program=$1
    shift
    "$gcc" -O2 -std=gnu11 -Wall -Wextra "$@" -o "$t/$program" test_boundary.c "$t/by_model.o" "$t/gen.o" "$t/model.o" "$archive" "$asks"
}

# Fails unless the test with these arguments exits with 1, which it does only with a difference or something unseen.
must_fail() {
    what=$1
    shift
    status=0
    run "$@" >"$t/said" || status=$?
    [ "$status" -eq 1 ] || { echo "$what: exit $status where 1 is due" >&2; exit 1; }
}

compile test
run "$t/test" "$@"

must_fail "thirty calls" "$t/test" 30
grep -q "refusal of a step 15 never came" "$t/said"
spoils=0
while grep -q "SPOIL == $((spoils + 1))[ )]" spoil.h; do
    spoils=$((spoils + 1))
    compile spoilt -DSPOIL=$spoils
    must_fail "damage $spoils" "$t/spoilt"
    grep -q "^call " "$t/said"
    [ -z "${SAY:-}" ] || echo "damage $spoils: $(head -n 1 "$t/said")"
done
[ "$spoils" -eq 50 ] || { echo "spoil.h has $spoils damages where 50 are due" >&2; exit 1; }
echo "the test fails, as it must, with each of $spoils damages and with too few calls"
