#!/bin/sh
# Instructions a call of the model's rescue, on an image that is sound and on one with all eleven fields bad; the loop and the
# call of a function that does nothing are subtracted. Needs a C compiler and valgrind on an x86-64; on another processor
# x86_64-linux-gnu-gcc and qemu-x86_64, with the plugin qemu_count.c.
set -eu
cd "$(dirname "$0")"
t=$(mktemp -d)
trap 'rm -rf "$t"' EXIT
if [ "$(uname -m)" = x86_64 ]; then
    gcc=${CC:-gcc}
    counted() { valgrind --tool=callgrind --callgrind-out-file=/dev/null "$@"; }
else
    gcc=x86_64-linux-gnu-gcc
    library=$(dirname "$(dirname "$($gcc -print-file-name=libc.so.6)")")
    cc -shared -fPIC -O2 -o "$t/count.so" qemu_count.c
    counted() { qemu-x86_64 -L "$library" -plugin "$t/count.so" "$@"; }
fi
"$gcc" -O3 -std=c11 -o "$t/rescue_count" rescue_count.c model.c
count() { LD_BIND_NOW=1 counted "$t/rescue_count" "$1" "$2" 2>&1 | sed -n 's/.*Collected : *//p'; }
each() { echo $((($(count "$1" 2000) - $(count "$1" 1000)) / 1000)); }
none=$(each none)
for image in sound bad; do
    echo "model's rescue, $image image: $(($(each $image) - none)) instructions a call"
done
