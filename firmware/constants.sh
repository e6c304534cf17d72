#!/bin/sh
# constants.sh [HEADER, as seen from this folder]: holds the numbers of resheftal.h to the definitions: every refusal of steps, images and
# cold starts, the sizes, the actions, the kinds and fields of records, the phases, the offsets of an image, the interface, each under the
# name that its definition gives, and nothing else; and the numbers in example.rs to the header. What stands in a table is found by its
# row, what stands in a list by its position.
# constants.sh refused: shows that it refuses each constant with another number, each one left out, and one too many.
set -eu
cd "$(dirname "$0")"

if [ "${1:-}" = refused ]; then
    t=$(mktemp -d)
    trap 'rm -rf "$t"' EXIT
    tried=0
    cp resheftal.h "$t/copy.h"
    sh ./constants.sh "$t/copy.h" >"$t/said"
    # Requires that the copy of the header is refused, and that it is another.
    must_refuse() {
        if cmp -s resheftal.h "$t/copy.h" || sh ./constants.sh "$t/copy.h" >"$t/said" 2>&1; then
            echo "not refused: $1" >&2
            exit 1
        fi
        tried=$((tried + 1))
    }
    for name in $(awk '/^#define RESHEFTAL_[A-Z_]+ [0-9]/ { print $2 }' resheftal.h); do
        awk -v name="$name" '$1 == "#define" && $2 == name { sub(" " $3, " " $3 + 1) } { print }' resheftal.h >"$t/copy.h"
        must_refuse "$name with another number"
        awk -v name="$name" '!($1 == "#define" && $2 == name)' resheftal.h >"$t/copy.h"
        must_refuse "$name left out"
    done
    awk '{ print } /^#define RESHEFTAL_ACCEPTED/ { print "#define RESHEFTAL_REFUSED_LOG_TOO_LONG 12" }' resheftal.h >"$t/copy.h"
    must_refuse "a refusal of runs, which no call answers"
    awk '{ print } /^#define RESHEFTAL_ACCEPTED/ { print "#define RESHEFTAL_REFUSED_NOT_TAKEN (7)" }' resheftal.h >"$t/copy.h"
    must_refuse "a constant twice"
    echo "$tried wrong headers refused, as they must be"
    exit 0
fi

crates=../crates
awk -v shown="${1:-resheftal.h}" '
    # REFUSED_NOT_TAKEN for not_taken; StartOfMission, phase_number and partner_bytes likewise
    function snake(name,  i, c, out) {
        sub(/_(number|bytes)$/, "", name)
        for (i = 1; i <= length(name); i++) {
            c = substr(name, i, 1)
            out = out (c ~ /[A-Z]/ && i > 1 ? "_" : "") toupper(c)
        }
        return out
    }
    function wrong(text) { print shown ": " text; bad = 1 }
    function mean(name, number) {
        name = "RESHEFTAL_" name
        if (name in meant && meant[name] != number) wrong(name " has two definitions, " meant[name] " and " number)
        meant[name] = number
    }
    # the name that a definition `name = number` gives; none for what concerns runs, the image A1 and the first try of a phase
    function named(file, name) {
        if (file == "Refusals" && name !~ /^(log_too_long|not_in_a1)$/) return (name == "accepted" ? "" : "REFUSED_") snake(name)
        if (file == "Table" && name != "first_try") return "ACTION_" snake(name)
        if (file == "Images" && name ~ /^(size_a2|kind_a2)$/) return "IMAGE_" snake(substr(name, 1, 4))
        if (file == "Partners" && name ~ /^(rbc|riu)$/) return "PARTNER_" snake(name)
        if (name == "reserved_number") return "RESERVED_NUMBER"
        if (name ~ /^(place_size|place_count|highest_x|action_room|action_size|most_actions|interface_number|per_place)$/) return snake(name)
        if (file == "Records" || (file == "Places" && name ~ /_tries$/)) return snake(name)
        return ""
    }
    # the items of a list, from this offset on
    function offsets(prefix, list, from,  item, word, n, k, i, field) {
        n = split(list, item, "∷")
        for (i = 1; i <= n; i++) if (item[i] !~ /\[\]/) {
            gsub(/[()]/, "", item[i]); k = split(item[i], word, " ")
            field = word[1] ~ /^(s[.].*|as_bit)$/ ? word[k] : word[1]; sub(/.*[.]/, "", field)
            mean(prefix snake(field), from + i - 1)
        }
    }
    # a row of the table of kinds: its length, and the event that it means
    function row_ended(  word) {
        if (row == "") return
        split(row, word, " ")
        if (row ~ /^partner_row/) { size = partner_size; event = word[2] }
        else {
            size = word[2]
            event = match(row, /\(λ s[.] [A-Z][A-Za-z]*/) ? substr(row, RSTART, RLENGTH) : "Message"
            sub(/.* /, "", event)
        }
        if (size + 0 > longest) longest = size
        mean("KIND_" snake(event), ++kinds)
        row = ""
    }
    FNR == 1 { file = FILENAME; sub(/.*\//, "", file); antt = sub(/[.]antt$/, "", file); table = head = 0 }

    antt && /^[a-zA-Z0-9_]+ = [0-9][0-9A-Fx_]*$/ {
        number = $3; gsub(/_/, "", number); value[$1] = number
        if (named(file, $1) != "") mean(named(file, $1), number)
    }
    antt && $1 == "causes" && $2 == "=" { sub(/^[^=]*=/, ""); offsets("CAUSE_", $0, 0) }
    antt && $1 == "partner_row" && $3 == "=" { partner_size = $5 }
    antt && /^kinds =$/ { table = 1; next }
    table { sub(/ *--.*/, "") }
    table && /^ *∷/ { row_ended(); sub(/^ *∷ */, ""); if ($1 == "[]") { table = 0; mean("LONGEST_RECORD", longest) } else row = $0; next }
    table && row != "" { row = row " " $0 }
    antt && $1 == "by_phase" && $2 ~ /^at/ && !phases { for (i = 2; $i ~ /^at/; i++) phase[++phases] = substr($i, 4) }
    antt && /^phase_number = by_phase / { for (i = 1; i <= phases; i++) mean("PHASE_" snake(phase[i]), $(i + 3)) }
    antt && /^direction_number [A-Z][a-z]* = [0-9]$/ { mean("DIRECTION_" snake($2), $4) }
    # the image: its kind, the head, the places, the tries, the last known RBC
    antt && /^head_bytes s =$/ { head = 1; next }
    head { list = list " " $0; if (/\[\]/) { offsets("AT_", list, 1); head = 0 } }
    antt && /^ *on_holding \(replicate place_size [0-9]\) \(λ d ph p[.] / {
        mean("PHASE_FREE", substr($4, 1, 1))
        sub(/^.*λ d ph p[.] /, ""); sub(/\).*/, ""); offsets("PLACE_", $0, 0)
    }
    antt && /^body_bytes s = head_bytes s [+][+] blocks place_bytes s[.]places$/ { behind_head = 1 }
    antt && /^whole_bytes s = body_bytes s [+][+] \(s[.]limits[.]tries ∷ last_bytes s[.]last\)$/ { behind_places = 1 }
    antt && /^image_a2 s = kind_a2 ∷ whole_bytes s$/ { behind_kind = 1 }

    file ~ /\.h$/ && !laid {
        laid = 1; at = 1 + value["head_size"]
        if (behind_kind && behind_head) mean("AT_PLACES", at)
        at += value["place_count"] * value["place_size"]
        if (behind_kind && behind_head && behind_places) { mean("AT_TRIES", at); mean("AT_LAST", at + 1) }
    }
    file ~ /\.h$/ && $1 == "#define" && $2 != "RESHEFTAL_H" {
        if ($2 in has) wrong($2 " stands there twice")
        has[$2] = $3
        if (!($2 in meant)) wrong($2 " has no definition")
        else if (meant[$2] != $3) wrong($2 " is " $3 ", its definition says " meant[$2])
    }

    file ~ /\.rs$/ && $1 == "const" {
        name = "RESHEFTAL_" substr($2, 1, length($2) - 1)
        number = $NF
        sub(/;/, "", number)
        if (has[name] != number) wrong(FILENAME " has " number " for " name)
    }

    END {
        for (name in meant) { n++; if (!(name in has)) wrong(name " is missing, " meant[name]) }
        if (n < 84) wrong("only " n " definitions were found")
        if (!bad) print n " constants as their definitions say"
        exit bad
    }' "$crates/wire/specs/Refusals.antt" "$crates/place/specs/Table.antt" "$crates/place/specs/Places.antt" \
    "$crates/record/specs/Partners.antt" "$crates/record/specs/Records.antt" "$crates/unit/specs/States.antt" \
    "$crates/unit/specs/OnRecords.antt" "$crates/unit/specs/Forms.antt" "$crates/image/specs/Images.antt" \
    "$crates/asks/specs/Asks.antt" "${1:-resheftal.h}" example.rs
