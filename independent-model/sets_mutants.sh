#!/bin/sh
# sets_mutants.sh [FROM [TO]]: wrong set engines. Each is sets_model.c with one piece of text, that stands there exactly once, replaced; it is
# built with test_sets and with sets_vectors, which checks sets.bin. Prints of each its number, the line of the test that fails first (0: none),
# how many vectors fail, and its name; 'crash' is one that does not come to its end, and counts as caught. Needs sets.bin, gen.o and model.o.
cd "$(dirname "$0")" || exit 1
from=${1:-1}
to=${2:-999}
t=$(mktemp -d) || exit 1
trap 'rm -rf "$t"' EXIT
# name @ old @ new; \n is a new line, 'nothing' no text
cat >"$t/list" <<'LIST'
a lost member forgets its direction @ enter(s, SET_LOST, m.who, 1, m.direction); @ enter(s, SET_LOST, m.who, 1, OUTGOING);
a terminating member forgets its direction @ enter(s, SET_TERMINATING, m.who, 1, m.direction); @ enter(s, SET_TERMINATING, m.who, 1, OUTGOING);
in two sets after an up @ const Member m = leave(s, at);\n        enter(s, SET_CONTACTED @ const Member m = s->set[at.set].member[at.rank];\n        enter(s, SET_CONTACTED
in two sets after a loss @ const Member m = leave(s, at);\n        enter(s, SET_LOST @ const Member m = s->set[at.set].member[at.rank];\n        enter(s, SET_LOST
an RIU taken in as incoming @ if (!is_rbc(who))\n        return refuse(9); @ nothing
an RIU may be incoming @ if (m->direction == INCOMING && !is_rbc(m->who))\n        return false; @ nothing
closing keeps the tries @ enter(s, SET_TERMINATING, m.who, 1, m.direction); @ enter(s, SET_TERMINATING, m.who, m.tries, m.direction);
closing sets the tries of all that terminate @ return act(a, ACT_TERMINATE, m.who);\n}\n\n/* All @ for (unsigned i = 0; i < s->set[SET_TERMINATING].count; i++) s->set[SET_TERMINATING].member[i].tries = 1;\n    return act(a, ACT_TERMINATE, m.who);\n}\n\n/* All
an order as the fifth @ if (members(s) == MEMBERS)\n        return refuse(8);\n    uint8_t @ if (members(s) > MEMBERS)\n        return refuse(8);\n    uint8_t
a call as the fifth @ if (members(s) == MEMBERS)\n        return refuse(8);\n    enter @ if (members(s) > MEMBERS)\n        return refuse(8);\n    enter
four members are too many @ if (of->count > MEMBERS - many) @ if (of->count >= MEMBERS - many + (many == 0))
five members are sound @ uint32_t seen[MEMBERS];                /* the partners of all sets so far */\n    unsigned many = 0;\n    for (unsigned set = 0; set < SETS; set++) {\n        const Set *const of = &s->set[set];\n        if (of->count > MEMBERS - many) @ uint32_t seen[MEMBERS + 1];\n    unsigned many = 0;\n    for (unsigned set = 0; set < SETS; set++) {\n        const Set *const of = &s->set[set];\n        if (of->count > MEMBERS || of->count + many > MEMBERS + 1)
156 to another of the set @ return act(a, ACT_TERMINATE, m.who);\n}\n\n/* All @ return act(a, ACT_TERMINATE, s->set[SET_TERMINATING].member[0].who);\n}\n\n/* All
22 to the one behind @ return act(a, ACT_RELEASE, leave(s, at).who); @ { leave(s, at); return act(a, ACT_RELEASE, s->set[at.set].member[at.rank].who); }
one more try keeps its rank @ const Member m = leave(s, at);\n    enter(s, at.set, m.who, (uint8_t)(m.tries + 1), m.direction); @ const Member m = s->set[at.set].member[at.rank];\n    s->set[at.set].member[at.rank].tries++;
one more try is forgotten @ enter(s, at.set, m.who, (uint8_t)(m.tries + 1), m.direction); @ enter(s, at.set, m.who, m.tries, m.direction);
a timeout forgets the direction @ enter(s, at.set, m.who, (uint8_t)(m.tries + 1), m.direction); @ enter(s, at.set, m.who, (uint8_t)(m.tries + 1), OUTGOING);
a new member in front @ to->member[to->count++] = (Member) @ for (unsigned i = to->count++; i > 0; i--) to->member[i] = to->member[i - 1];\n    to->member[0] = (Member)
the last one moves up @ for (unsigned i = at.rank; i < from->count; i++)\n        from->member[i] = from->member[i + 1]; @ from->member[at.rank] = from->member[from->count];
who left stands behind the count @ from->member[from->count] = (Member){0}; @ nothing
tries stand behind the count @ from->member[from->count] = (Member){0}; @ from->member[from->count] = (Member){.tries = gone.tries};
closing in the order of the sets turned @ for (unsigned set = SET_CALLING; set < SET_TERMINATING; set++) @ for (unsigned set = SET_TERMINATING; set-- > 0;)
closing outgoing before incoming @ a = close_member(s, (Where){set, 0}, a); @ a = close_member(s, (Where){established(set) && s->set[SET_INCOMING + SET_OUTGOING - set].count > 0 && set == SET_INCOMING ? SET_OUTGOING : set, 0}, a);
closing the last of a set first @ a = close_member(s, (Where){set, 0}, a); @ a = close_member(s, (Where){set, s->set[set].count - 1u}, a);
closing leaves the lost ones @ for (unsigned set = SET_CALLING; set < SET_TERMINATING; set++) @ for (unsigned set = SET_CALLING; set < SET_LOST; set++)
closing one of a set @ while (s->set[set].count > 0)\n            a = close_member(s, (Where){set, 0}, a); @ if (s->set[set].count > 0)\n            a = close_member(s, (Where){set, 0}, a);
156 to a lost one @ if (!established(at.set))\n        return release @ if (!established(at.set) && at.set != SET_LOST)\n        return release
an order closes RIUs @ if (is_rbc(s->set[set].member[rank].who)) @ if (1)
an order leaves those behind one that it closed @ (Where){set, rank}, a);            /* the next one has its rank now */ @ (Where){set, rank++}, a);
an order leaves the lost ones @ for (unsigned set = SET_INCOMING; set <= SET_LOST; set++) @ for (unsigned set = SET_INCOMING; set < SET_LOST; set++)
an order closes the contacted ones @ for (unsigned set = SET_INCOMING; set <= SET_LOST; set++) @ for (unsigned set = SET_CONTACTED; set <= SET_LOST; set++)
an order to an RIU closes RBCs @ if (is_rbc(who) && !accepting) @ if (!accepting)
accepting turned over @ if (is_rbc(who) && !accepting) @ if (is_rbc(who) && accepting)
21 before the closings @ a = close_sessions(s, a);\n    enter(s, SET_CALLING, who, 1, OUTGOING);\n    return done(from, act(a, ACT_REQUEST, who)); @ a = close_sessions(s, a + ACTION_BYTES);\n    else\n        a += ACTION_BYTES;\n    act(from, ACT_REQUEST, who);\n    enter(s, SET_CALLING, who, 1, OUTGOING);\n    return done(from, a);
room made by the order counts @ if (members(s) == MEMBERS)\n        return refuse(8);\n    uint8_t *const from = a; @ uint8_t *const from = a;\n    if (members(s) == MEMBERS && (accepting || s->set[SET_LOST].count == 0))\n        return refuse(8);
a mark is used by a refused order @ if (!in_force(s, cause))\n        return refuse(4); @ if (!in_force(s, cause))\n        return refuse(4);\n    use_mark(s, cause);
no mark is used @ use_mark(s, cause);\n    if @ if
cause 3 uses the mode mark @ s->manual = 0; @ s->mode = 0;
cause 0 under way too @ case 0: return s->mission == 1 && by_radio; @ case 0: return s->mission != 0 && by_radio;
cause 2 in mission 0 too @ case 2: return s->mission != 0 && by_radio && s->mode; @ case 2: return by_radio && s->mode;
level 4 by radio @ s->level == 2 || s->level == 3; @ s->level >= 2;
15 before 4 @ if (!in_force(s, cause))\n        return refuse(4); @ if (reserved(who) && s->last == 0)\n        return refuse(15);\n    if (!in_force(s, cause))\n        return refuse(4);
the order to the last known RBC names 16,383 @ who = s->last ^ KNOWN; @ if (where(s, s->last ^ KNOWN).set != SETS) who = s->last ^ KNOWN;
8 before 5 for an order @ who = s->last ^ KNOWN;\n    } @ who = s->last ^ KNOWN;\n    }\n    if (members(s) == MEMBERS)\n        return refuse(8);
5 before 9 @ if (!is_rbc(who))\n        return refuse(9); @ if (where(s, who).set != SETS)\n        return refuse_at(5, where(s, who));\n    if (!is_rbc(who))\n        return refuse(9);
5 has no phase @ return refuse_at(5, at);\n    if (members(s) == MEMBERS)\n        return refuse(8);\n    enter @ return refuse(5);\n    if (members(s) == MEMBERS)\n        return refuse(8);\n    enter
7 has no phase @ refuse_at(7, at) @ refuse(7)
incoming has another phase @ [SET_INCOMING] = OPEN, @ [SET_INCOMING] = LOST,
an RIU is remembered @ if (is_rbc(who))\n        s->last @ if (1)\n        s->last
a call is not remembered @ return done(a, establish(s, who, a)); @ return done(a, act(a, ACT_ESTABLISHED, who));
a call is outgoing @ enter(s, SET_INCOMING, who, 0, INCOMING); @ enter(s, SET_OUTGOING, who, 0, OUTGOING);
a call's direction is not set @ enter(s, SET_INCOMING, who, 0, INCOMING); @ enter(s, SET_INCOMING, who, 0, OUTGOING);
up from lost is always outgoing @ m.direction == INCOMING ? SET_INCOMING : SET_OUTGOING @ SET_OUTGOING
up from lost is outgoing, direction too @ enter(s, m.direction == INCOMING ? SET_INCOMING : SET_OUTGOING, m.who, 0, m.direction); @ enter(s, SET_OUTGOING, m.who, 0, OUTGOING);
up from lost keeps the tries @ SET_INCOMING : SET_OUTGOING, m.who, 0, m.direction) @ SET_INCOMING : SET_OUTGOING, m.who, m.tries, m.direction)
up carries the tries @ enter(s, SET_CONTACTED, m.who, 1, OUTGOING); @ enter(s, SET_CONTACTED, m.who, m.tries, OUTGOING);
up from lost sends 155 @ m.who, 0, m.direction);\n        return a; @ m.who, 0, m.direction);\n        return act(a, ACT_INITIATE, m.who);
lost in calling is taken @ if (at.set == SET_CONTACTED || at.set == SET_TERMINATING) @ if (at.set == SET_CALLING || at.set == SET_CONTACTED || at.set == SET_TERMINATING)
lost in terminating is not taken @ if (at.set == SET_CONTACTED || at.set == SET_TERMINATING) @ if (at.set == SET_CONTACTED)
drop in terminating is taken @ return at.set == SET_TERMINATING ? NULL : close_member(s, at, a); @ return close_member(s, at, a);
a timeout repeats 21 in contacted @ [SET_CONTACTED] = ACT_INITIATE, [SET_LOST] @ [SET_CONTACTED] = ACT_REQUEST, [SET_LOST]
always three tries @ .tries >= s->n) @ .tries >= 3)
one try more @ .tries >= s->n) @ .tries > s->n)
the whole version is judged @ const uint8_t x = version / 16; @ const uint8_t x = version;
X under the range is taken @ if (x >= s->lowest && x <= s->highest) @ if (x <= s->highest)
156 before 154 @ act(act(a, ACT_NO_VERSION, who), ACT_TERMINATE, who) @ act(act(a, ACT_TERMINATE, who), ACT_NO_VERSION, who)
no 156 behind 154 @ act(act(a, ACT_NO_VERSION, who), ACT_TERMINATE, who) @ act(a, ACT_NO_VERSION, who)
32 in calling is judged @ if (at.set != SET_CONTACTED)\n        return NULL; @ if (at.set != SET_CONTACTED && at.set != SET_CALLING)\n        return NULL;
39 in lost is taken @ return at.set == SET_TERMINATING ? release(s, at, a) : NULL; @ return at.set >= SET_LOST ? release(s, at, a) : NULL;
terminating ones are not found @ for (unsigned set = 0; set < SETS; set++)\n        for (unsigned rank @ for (unsigned set = 0; set < SET_TERMINATING; set++)\n        for (unsigned rank
what stands behind the count is found @ rank < s->set[set].count; rank++)\n            if @ rank <= s->set[set].count && rank < MEMBERS; rank++)\n            if
type not looked at @ if (s->set[set].member[rank].who == who) @ if ((s->set[set].member[rank].who & 0xFFFFFF) == (who & 0xFFFFFF))
sound: nothing behind the counts tested @ if (!zeros_from(of, of->count))\n            return false; @ nothing
sound: one behind the count not tested @ if (!zeros_from(of, of->count)) @ if (!zeros_from(of, of->count + 1u))
sound: the last slot not tested @ for (; rank < MEMBERS; rank++) { @ for (; rank < MEMBERS - 1; rank++) {
sound: twice in a set @ for (unsigned i = 0; i < many; i++)\n                if (seen[i] == m->who) @ for (unsigned i = 0; i + rank < many; i++)\n                if (seen[i] == m->who)
sound: twice in two sets @ for (unsigned i = 0; i < many; i++)\n                if (seen[i] == m->who) @ for (unsigned i = many - rank; i < many; i++)\n                if (seen[i] == m->who)
sound: an RBC and an RIU of one number @ if (seen[i] == m->who) @ if ((seen[i] & 0xFFFFFF) == (m->who & 0xFFFFFF))
sound: type 2 @ if (m->who >> 24 > RIU @ if (m->who >> 24 > 2
sound: a reserved member @ if (m->who >> 24 > RIU || reserved(m->who)) @ if (m->who >> 24 > RIU)
sound: tries 0 @ m->tries >= 1 && m->tries <= n @ m->tries <= n
sound: tries over n @ m->tries >= 1 && m->tries <= n @ m->tries >= 1 && m->tries <= 9
sound: tries of an established session @ return established(set) ? m->tries == 0 : @ return established(set) ? true :
sound: calling may be incoming @ [SET_CALLING] = 1, [SET_CONTACTED] = 1, @ [SET_CALLING] = 3, [SET_CONTACTED] = 1,
sound: incoming may be outgoing @ [SET_INCOMING] = 2, @ [SET_INCOMING] = 3,
sound: terminating is outgoing @ [SET_TERMINATING] = 3,\n @ [SET_TERMINATING] = 1,\n
sound: hole marks @ || (s->inside && s->hole_end)) @ )
sound: a reserved last known RBC @ && !reserved(s->last ^ KNOWN)) @ )
sound: n 10 @ s->n > TRIES_MOST)\n        return false; @ s->n > 10)\n        return false;
sound: level 5 @ if (s->level > LEVEL_MOST @ if (s->level > 5
cold start: n 5 where refused @ s->n = TRIES_OLD; @ s->n = TRIES_DEFAULT;
cold start: X 8 @ if (lowest > highest || highest > X_MOST || n < @ if (lowest > highest || highest > 8 || n <
step: 11 before 10 @ if (actions_length < ACTION_BUFFER)\n        return refuse(10); @ if (actions_length < ACTION_BUFFER && sets_sound(s))\n        return refuse(10);
step: 2 for an empty record @ if (length == 0)\n        return refuse(1); @ if (length == 0)\n        return refuse(2);
step: a longer record is taken @ if (length != record_length[record[0]])\n        return refuse(1); @ if (length < record_length[record[0]])\n        return refuse(1);
step: 19 bytes are enough @ if (actions_length < ACTION_BUFFER) @ if (actions_length < ACTION_BUFFER - 1)
3: version 128 @ return r[6] <= VERSION_MOST; @ return r[6] <= 128;
3: 38 with a version @ (r[5] == MESSAGE_CALL || r[5] == MESSAGE_DONE) && r[6] == 0 @ r[5] == MESSAGE_CALL || (r[5] == MESSAGE_DONE && r[6] == 0)
3: a reserved partner @ return r[1] <= RIU && !reserved(get32(r + 1)); @ return r[1] <= RIU;
mission: not stored @ s->mission = r[1];\n @ nothing
mission 0 closes nobody @ r[1] == 0 ? close_all(s, a) : a @ a
level: manual 0 clears the mark @ s->manual |= r[2]; @ s->manual = r[2];
hole: left does not set hole end @ s->hole_end = !entered; @ s->hole_end = 0;
run: 11 before 12 @ if (length > LOG_MOST) { @ if (length > LOG_MOST && sets_sound(s)) {
run: a short record before an unknown kind @ if (!kind_known(record[0])) { out->stop = 3; break; }\n @ if (left < 2 && record[0] != 3) { out->stop = 2; break; }\n        if (!kind_known(record[0])) { out->stop = 3; break; }\n
run: the budget after the kind @ if (out->read == budget) { out->stop = 1; break; }\n        if (!kind_known(record[0])) { out->stop = 3; break; } @ if (!kind_known(record[0])) { out->stop = 3; break; }\n        if (out->read == budget) { out->stop = 1; break; }
run: refused ones not read @ out->read++; @ out->read += r.code == 0;
run: totals of 154 and 155 exchanged @ case ACT_NO_VERSION: return 2;\n    case ACT_INITIATE: return 3; @ case ACT_NO_VERSION: return 3;\n    case ACT_INITIATE: return 2;
LIST
gcc -O2 -std=c11 -Wall -Wextra -c -o "$t/test.o" test_sets.c || exit 1
gcc -O2 -std=c11 -Wall -Wextra -c -o "$t/vectors.o" sets_vectors.c || exit 1
name_of() { sed -n "$1s/ @ .*//p" "$t/list"; }
make_mutant() {
    sed -n "$1p" "$t/list" | awk -F ' @ ' -v model=sets_model.c '
        { old = $2; new = $3 == "nothing" ? "" : $3
          gsub(/\\n/, "\n", old)
          gsub(/\\n/, "\n", new)
          while ((getline line < model) > 0) text = text line "\n"
          at = index(text, old)
          if (NF != 3 || at == 0 || index(substr(text, at + 1), old) > 0) exit 1
          printf "%s%s%s", substr(text, 1, at - 1), new, substr(text, at + length(old)) }' >"$t/mutant.c"
}
# The line of the first failure of the test, 0 for none; how many vectors fail.
tested() {
    timeout 30 "$t/test" first >"$t/said" 2>&1 && { echo 0; return; }
    sed -n 's/^line \([0-9]*\):.*/\1/p' "$t/said" | grep . || echo crash
}
checked() { if timeout 30 "$t/vectors" check sets.bin >"$t/said" 2>&1; then wc -l <"$t/said"; else echo crash; fi; }
one() {
    make_mutant "$1" || { echo "$1 - - not made: $(name_of "$1")"; return; }
    gcc -O1 -std=c11 -w -I. -c -o "$t/mutant.o" "$t/mutant.c" || { echo "$1 - - not compiled: $(name_of "$1")"; return; }
    gcc -o "$t/test" "$t/test.o" "$t/mutant.o" gen.o model.o && gcc -o "$t/vectors" "$t/vectors.o" "$t/mutant.o" gen.o model.o || exit 1
    echo "$1 $(tested) $(checked) $(name_of "$1")"
}
many=$(wc -l <"$t/list")
[ "$to" -le "$many" ] || to=$many
i=$from
while [ "$i" -le "$to" ]; do
    one "$i"
    i=$((i + 1))
done >"$t/all"
cat "$t/all"
awk '{ made += $2 != "-"; by_test += $2 == "crash" || $2 > 0; by_vectors += $3 == "crash" || $3 > 0 }
     $2 == "-" || $2 == "0" || $3 == "0" { print "not by both: " $0 }
     END { printf "mutants %d, made %d, caught by the test %d, by the vectors %d\n", NR, made, by_test, by_vectors }' "$t/all"
