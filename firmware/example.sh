#!/bin/sh
# Builds the example in C over the libraries and runs it; what it prints is what example.said has. Then its store is tried, by
# test_example.c; and wrong copies of the example, each of which that test must refuse.
set -eu
cd "$(dirname "$0")"
. ./tools.sh
library
out=out
mkdir -p "$out"
"$gcc" -std=c99 -O2 -Wall -Wextra -o "$out/example_c" example.c "$archive" "$asks"
run "$out/example_c" >"$out/example_c.said"
cat "$out/example_c.said"
cmp example.said "$out/example_c.said"

"$gcc" -std=c99 -O2 -Wall -Wextra -o "$out/test_example" test_example.c "$archive" "$asks"
run "$out/test_example" >"$out/test_example.said"
cat "$out/test_example.said"
cmp test_example.said "$out/test_example.said"

wrong=0
# must_refuse WHAT SCRIPT: a copy of the example that sed's SCRIPT changes
must_refuse() {
    sed "$2" example.c >"$out/example.c"
    if cmp -s example.c "$out/example.c"; then echo "nothing is changed: $1" >&2; exit 1; fi
    "$gcc" -std=c99 -O2 -w -I. -I"$out" -DEXAMPLE='"out/example.c"' -o "$out/test_wrong" test_example.c "$archive" "$asks"
    status=0
    run "$out/test_wrong" >"$out/test_wrong.said" || status=$?
    [ "$status" -eq 1 ] || { echo "not refused, exit $status: $1" >&2; exit 1; }
    wrong=$((wrong + 1))
}
must_refuse "one slot" 's/SLOT \* (writes % 2)/SLOT * (writes * 0)/'
must_refuse "no checksum" 's/word(slot + CHECK) == checksum(slot) && //'
must_refuse "a slot that cannot be read" 's/ && resheftal_reads(slot, RESHEFTAL_IMAGE_SIZE) == RESHEFTAL_ACCEPTED;/;/'
must_refuse "the older slot" 's/word(best + COUNTER)) > 0)/word(best + COUNTER)) < 0)/'
must_refuse "a slot written over" 's/memcpy(aside + SLOT \* i, slot, SLOT);/;/'
must_refuse "the counter lost" 's/writes = word(best + COUNTER);/;/'
must_refuse "a spoilt image kept" 's/if (n < 0 \&\& resheftal_reads(image, RESHEFTAL_IMAGE_SIZE) != RESHEFTAL_ACCEPTED)/if (n > 4)/'
echo "$wrong wrong stores refused, as they must be"
