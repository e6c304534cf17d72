# Sourced by scripts that stand in a folder of the root, this one or another: finds the tools for x86-64, for which the library is
# compiled, and the two libraries. Sets gcc, prefix (of nm, size and objdump), archive (cold start and step), asks (what is asked beside a
# step); run runs a program, through qemu-x86_64 where the processor is no x86-64.
archive=../firmware/out/libfirmware.a
asks=../firmware/out/libasks.a

need() {
    command -v "$1" >/dev/null || { echo "missing: $1 ($2)" >&2; exit 2; }
}

if [ "$(uname -m)" = x86_64 ]; then
    prefix=
    gcc=gcc
    need "$gcc" "a C compiler"
    run() { "$@"; }
else
    prefix=x86_64-linux-gnu-
    gcc=x86_64-linux-gnu-gcc
    need "$gcc" "the C compiler for x86-64 with its C library: the library is x86-64 only"
    need qemu-x86_64 "package qemu-user: runs x86-64 programs on this processor"
    sysroot=$(dirname "$(dirname "$("$gcc" -print-file-name=libc.so.6)")")
    run() { qemu-x86_64 -L "$sysroot" "$@"; }
fi

# Proves and builds each of them where it is not built, or is older than the sources, for every x86-64 (the toolchain takes x86-64-v2 else).
library() {
    for built in "$archive" "$asks"; do
        if [ ! -f "$built" ] || [ -n "$(find ../crates ../crates.txt -name out -prune -o \( -name '*.rt' -o -name '*.antt' -o -name crates.txt \) -newer "$built" -print)" ]; then
            need rt "the Rattle toolchain: builds $built"
            echo "proving and building ${built##*/}, some minutes the first time"
            crate=${built##*/lib}
            crate=${crate%.a}_c
            said=$(cd "../crates/$crate" && rt lib --cpu=x86-64 2>&1) || { echo "$said" >&2; exit 1; }
            mkdir -p ../firmware/out
            cp "../crates/$crate/out/lib$crate.a" "$built"
        fi
    done
}
