#!/bin/sh
# Shows that `stack` of stack.sh counts known frames exactly, and gives no number where it cannot be sure: room of a size that is
# known only at the run (alloca), a call or a jump through a pointer, also one kept in the frame, a function that calls itself, one of the C library that was not
# named, a loop that takes stack. The first four are compiled, so that they look as a compiler makes them; the rest is written out.
set -eu
cd "$(dirname "$0")"
. ./tools.sh
. ./stack.sh
need "${prefix}objdump" "binutils for x86-64"
t=$(mktemp -d)
trap 'rm -rf "$t"' EXIT
trap 'exit 1' HUP INT TERM
cat >"$t/refused.c" <<'C'
#include <alloca.h>
#include <stdlib.h>
int keep(char *);
int sized(int n) { return keep(alloca(n)); }
int pointed(int (*f)(char *), char *p) { return f(p) + 1; }
int tail_pointed(int (*f)(char *), char *p) { return f(p); }
int again(int n, char *p) { return n < 2 ? keep(p) : again(n / 2, p) * again(n - 1, p) + n; }
int unnamed(void) { return abs(rand()) + 1; }
int calls_sized(int n) { return sized(n) + 1; }
C
cat >"$t/known.s" <<'S'
        .globl  keep, red, plain, large, small, looped, middle, switched, later, other, named, balanced, main
keep:   ret
red:    mov     %eax,-0x18(%rsp)        # 8 + 24 below the stack pointer
        ret
plain:  push    %rbx                    # 8 + 8 + 32 and red's 32
        sub     $0x20,%rsp
        call    red
        add     $0x20,%rsp
        pop     %rbx
        ret
large:  mov     %rsp,%r11               # 8 + 0x3000 + 0x28, each page touched
        sub     $0x3000,%r11
1:      sub     $0x1000,%rsp
        movq    $0,(%rsp)
        cmp     %r11,%rsp
        jne     1b
        sub     $0x28,%rsp
        add     $0x3028,%rsp
        ret
small:  add     $-128,%rsp              # 8 + 128, in the shorter way to write it
        sub     $-128,%rsp
        ret
looped: sub     $0x10,%rsp
        dec     %edi
        jne     looped
        ret
middle: jmp     plain+1
switched:
        lea     2f(%rip),%rcx           # 8: a table of jumps within the function
        movslq  (%rcx,%rdi,4),%rax
        add     %rcx,%rax
        jmp     *%rax
1:      ret
2:      .long   1b-2b
later:  sub     $0x18,%rsp              # 8 + 24: an entry of the table kept in the frame till the jump
        lea     2f(%rip),%rcx
        movslq  (%rcx,%rdi,4),%rax
        add     %rcx,%rax
        mov     %rax,0x8(%rsp)
        xor     %eax,%eax
        jmp     *0x8(%rsp)
1:      add     $0x18,%rsp
        ret
2:      .long   1b-2b
other:  sub     $0x18,%rsp              # the same, and something else is stored in that word
        lea     2f(%rip),%rcx
        movslq  (%rcx,%rdi,4),%rax
        add     %rcx,%rax
        mov     %rax,0x8(%rsp)
        mov     %rsi,0x8(%rsp)
        jmp     *0x8(%rsp)
1:      add     $0x18,%rsp
        ret
2:      .long   1b-2b
named:  push    %rbx                    # 8 + 8 and the return address
        call    rand@plt
        pop     %rbx
        ret
balanced:
        push    %rbx                    # 8 + 8 and keep's 8
        call    keep
        pop     %rbx
        dec     %edi
        jne     balanced
        ret
main:   ret
        .section .note.GNU-stack,"",@progbits
S
"$gcc" -O2 -fno-inline -o "$t/program" "$t/refused.c" "$t/known.s"
"${prefix}objdump" -d --no-show-raw-insn "$t/program" >"$t/code"

counts() {
    expected=$1
    shift
    is=$(stack "$t/code" "$@")
    [ "$is" = "$expected" ] || { echo "the stack of $1 is $expected, not $is" >&2; exit 1; }
}
refuses() {
    if is=$(stack "$t/code" "$1" 2>"$t/said") || [ -n "$is" ]; then
        echo "a stack of $1 was given: $is" >&2
        exit 1
    fi
    echo "refused, as it must be: $(cat "$t/said")"
}
counts 8 keep
counts 32 red
counts 80 plain
counts 12336 large
counts 136 small
counts 8 switched
counts 32 later
counts 24 named rand
counts 24 balanced
for function in sized pointed tail_pointed again unnamed calls_sized looped middle other named missing; do
    refuses $function
done
