# Sourced. stack CODE FUNCTION [NAME...]: the deepest stack of a function by its frames, from CODE, the disassembly of the linked program
# (objdump -d --no-show-raw-insn): the return address, each push, each constant taken off the stack pointer and what is used below it
# (the red zone), summed along the deepest row of calls. Of a NAME, a function of a shared library, only the return address counts.
# Fails where it cannot be sure: the stack pointer is moved in another way or on each round of a loop, a call or jump cannot be
# followed, the row has no end. One loop is known: the one by which the compiler touches each page of a large frame.
stack() {
    stack_code=$1
    stack_of=$2
    shift 2
    awk -v of="<$stack_of>" -v outside="$*" '
        function hex(x,  v, i) {
            v = 0
            for (i = 1; i <= length(x); i++) v = v * 16 + index("0123456789abcdef", substr(x, i, 1)) - 1
            return v
        }
        # The constant of an operand "$0x..,%..", less than 0 where its 64 bits say so.
        function constant(x) {
            sub(/^\$0x/, "", x)
            sub(/,.*/, "", x)
            return x ~ /^ffffffff[0-9a-f][0-9a-f][0-9a-f][0-9a-f][0-9a-f][0-9a-f][0-9a-f][0-9a-f]$/ ? hex(substr(x, 9)) - 4294967296 : hex(x)
        }
        function fail(text) { print text >"/dev/stderr"; failed = 1; exit 1 }
        function strange(text) { if (!(f in odd)) odd[f] = text }
        # The stack pointer goes down by n (up where n is less than 0) at this address.
        function down(n) { if (n > 0) frame[f] += n; moves[f] = moves[f] " " at " " n }
        # A loop that takes more off the stack pointer than it gives back.
        function grows(f,  m, l, i, j, n, k, sum) {
            n = split(moves[f], m, " ")
            k = split(loops[f], l, " ")
            for (j = 1; j < k; j += 2) {
                sum = 0
                for (i = 1; i < n; i += 2) if (m[i] >= l[j] + 0 && m[i] <= l[j + 1] + 0) sum += m[i + 1]
                if (sum > 0) return 1
            }
            return 0
        }
        function deep(f, row,  d, most, k, calls) {
            if (f in ends) return 8
            if (f in known) return known[f]
            if (row > 40) fail("the calls have no end at " f)
            if (!(f in frame)) fail("no frame of " f)
            if (f in odd) fail(f ": " odd[f])
            k = split(kept[f], calls, " ")
            for (; k > 0; k--) if (!entry[f, calls[k]]) fail(f ": " jump[f])
            if (grows(f)) fail(f ": a loop takes stack on each round")
            most = below[f]
            k = split(called[f], calls, "\n")
            for (; k > 0; k--) if (calls[k] != "") { d = deep(calls[k], row + 1); if (d > most) most = d }
            return known[f] = 8 + frame[f] + most
        }
        BEGIN {
            k = split(outside, names, " ")
            for (; k > 0; k--) ends["<" names[k] "@plt>"] = 1
        }
        /^[0-9a-f]+ <.*>:$/ { f = substr($0, index($0, "<")); sub(/:$/, "", f); frame[f] += 0; page = 0; split("", table); next }
        !/^ *[0-9a-f]+:/ { next }
        {
            at = hex(substr($1, 1, length($1) - 1))
            while ($2 ~ /^(bnd|notrack|lock|rep[a-z]*|data16|addr32|[cdefgs]s|rex[.A-Z]*)$/) {
                if (NF == 2) next
                for (i = 2; i < NF; i++) $i = $(i + 1)
                NF--
            }
        }

        # Touching each page of a frame of N bytes: mov %rsp,%R; sub $N,%R; then a loop of sub $M,%rsp; a store; cmp %R,%rsp; jne.
        page == 5 && $2 == "jne" && hex($3) == first && size % step == 0 { down(size); page = 0; next }
        page == 4 && $2 == "cmp" && $3 == "%" base ",%rsp" { page = 5; next }
        page == 3 && $3 ~ /,\(%rsp\)$/ { page = 4; next }
        page == 2 && $2 ~ /^subq?$/ && $3 ~ /^\$0x[0-9a-f]+,%rsp$/ { first = at; step = constant($3); page = 3; next }
        page > 2 { strange("pages touched in another way at " $0) }
        page == 1 && $2 ~ /^subq?$/ && $3 ~ ("^\\$0x[0-9a-f]+,%" base "$") { size = constant($3); page = 2; next }
        $2 ~ /^movq?$/ && $3 ~ /^%rsp,%r[a-z0-9]+$/ { base = substr($3, 7); if (base == "rbp") based[f] = 1; page = 1; next }
        { page = 0 }

        # The stack pointer.
        $2 ~ /^push/ { down(8); next }
        $2 ~ /^pop/ && $3 != "%rsp" { down(-8); next }
        $2 ~ /^subq?$/ && $3 ~ /^\$0x[0-9a-f]+,%rsp$/ { down(constant($3)); next }
        $2 ~ /^addq?$/ && $3 ~ /^\$0x[0-9a-f]+,%rsp$/ { down(-constant($3)); next }
        $2 !~ /^(cmp|test)/ && $3 ~ /(^|,)%(rsp|esp|sp|spl)$/ || $2 ~ /^enter/ { strange($0) }
        $3 ~ /-0x[0-9a-f]+\(%rsp/ {
            x = $3
            sub(/^.*-0x/, "", x)
            sub(/\(.*/, "", x)
            if (hex(x) > below[f]) below[f] = hex(x)
        }
        (f in based) && $3 ~ /-0x[0-9a-f]+\(%rbp/ { strange("the frame is read from its other end: " $0) }

        # Where it goes on. A jump through a register is a table within the function where the register is a base plus an entry of it.
        $2 ~ /^movslq$/ && $3 ~ /^(0x0)?\(.*,4\),%r[a-z0-9]+$/ { x = $3; sub(/.*,/, "", x); table[x] = 1; next }
        $2 ~ /^addq?$/ && $3 ~ /^%r[a-z0-9]+,%r[a-z0-9]+$/ { x = $3; sub(/.*,/, "", x); table[x] = (x in table) && table[x] == 1 ? 2 : 0; next }
        $2 ~ /^jmpq?$/ && $3 ~ /^\*%/ { x = substr($3, 2); if (!(x in table) || table[x] != 2) strange($0); next }
        # Such an entry may be kept in a word of the frame till the jump: then nothing else is ever stored in that word.
        $2 ~ /^movq?$/ && $3 ~ /^%r[a-z0-9]+,0x[0-9a-f]+\(%rsp\)$/ {
            split($3, word, ",")
            alone = (f, word[2]) in entry ? entry[f, word[2]] : 1
            entry[f, word[2]] = alone && (word[1] in table) && table[word[1]] == 2
            next
        }
        $3 ~ /,0x[0-9a-f]+\(%rsp\)$/ && $2 !~ /^(cmp|test)/ { x = $3; sub(/.*,/, "", x); entry[f, x] = 0 }
        $2 ~ /^jmpq?$/ && $3 ~ /^\*0x[0-9a-f]+\(%rsp\)$/ { kept[f] = kept[f] " " substr($3, 2); jump[f] = $0; next }
        $2 ~ /^(callq?|jmpq?)$/ && $3 ~ /^\*/ { strange($0) }
        $2 ~ /^(callq?|j[a-z]+)$/ && $3 !~ /^\*/ {
            if (!match($0, /<.*>$/)) { strange($0); next }
            g = substr($0, RSTART)
            whole = g
            sub(/\+0x[0-9a-f]+>$/, ">", whole)
            if ($2 ~ /^j/ && whole == f) { if (hex($3) <= at) loops[f] = loops[f] " " hex($3) " " at }
            else if (whole != g) strange("into the middle of a function: " $0)
            else called[f] = called[f] "\n" g
            if ($2 ~ /^call/) split("", table)
            next
        }
        $3 ~ /,%r[a-z0-9]+$/ { x = $3; sub(/.*,/, "", x); delete table[x] }
        END { if (!failed) { d = deep(of, 1); if (!failed) print d } exit failed }' "$stack_code"
}
