#!/bin/sh
# Instructions an event of the On-Sight step beside the model's, over the same million events: both print the same sum.
# Needs a C compiler and valgrind on an x86-64.
set -eu
cd "$(dirname "$0")"
make -s onsight_events
../run-program onsight_events >onsight_events.sum
./onsight_events | cmp - onsight_events.sum
rm onsight_events.sum
count() { valgrind --tool=callgrind --callgrind-out-file=/dev/null "$1" 2>&1 | sed -n 's/.*Collected : //p'; }
echo "proved: $(count ../crates/onsight_events/out/onsight_events) instructions for 1000000 events"
echo "model:  $(count ./onsight_events) instructions for 1000000 events"
