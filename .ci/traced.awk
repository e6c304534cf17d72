# docs/TRACE.md, made: the words of docs/SENTENCES.md in their order, whole sentences above their parts; behind the arrow, and below, what
# docs/TRACE.md says by hand of each number, with a link to the file and line of every name; and the promises that answer it. Its input has a
# word and a tab before each line: where (.ci/declared --where), home (a promise and its file), promise, sentence, trace.
function say(text) { print text | "cat 1>&2"; bad = 1 }
# the best place of a name: of an answer its definition, of a contract its function, of a promise the file that states it
function rank(name, i, want, file, kind) {
    file = at[name, i]; kind = kinds[name, i]
    if (want == "promise") return file == home[name] ? 3 : 0
    if (want == "function" && file ~ /\/src\//) return kind == "fn" ? 9 : 8
    return (file ~ /\/specs\// ? 6 : file ~ /\/src\// ? 3 : 0) + (kind ~ /^(definition|type|fn|struct|enum|const)$/ ? 2 : 0)
}
function place_of(name, want, word, i, best, high, r, twice) {
    if (!places[name]) { say("TRACE names " name ", which is declared nowhere"); return "" }
    high = -1
    for (i = 1; i <= places[name]; i++) { r = rank(name, i, want); if (r >= high) { twice = r == high; if (!twice) best = i; high = r } }
    if (twice) say("TRACE names " name ", which stands in more than one place: name its type too")
    return at[name, best] "#L" (word == "" ? line[name, best] : clause(name, best, word))
}
# the line of a definition's clause for this case, or of the row that a comment gives its name
function clause(name, i, word, own, text, n, found) {
    own = name; sub(/^[^:]*:/, "", own)
    for (n = 1; (getline text < at[name, i]) > 0; n++) {
        if (n <= line[name, i] || found) continue
        if (text == "") break
        if (index(text, own " ") == 1 && text ~ ("[ (]" word "[ )]") || text ~ ("^ +-- ([0-9]+ )?" word "(:|$)")) found = n
    }
    close(at[name, i])
    if (!found) say("TRACE names " word " of " name ", which has no such case")
    return found ? found : line[name, i]
}
# the text with each crate:name in backquotes made a link; `name` (Case) leads to the clause of the case
function linked(text, want, out, name, word, where) {
    while (match(text, /\[`[a-z_]+:[^`]+`\]\([^)]*\)/)) {
        name = substr(text, RSTART + 1, RLENGTH - 1); sub(/\]\(.*/, "", name)
        text = substr(text, 1, RSTART - 1) name substr(text, RSTART + RLENGTH)
    }
    while (match(text, /`[a-z_]+:[^` ]+`/)) {
        name = substr(text, RSTART + 1, RLENGTH - 2); out = out substr(text, 1, RSTART - 1); text = substr(text, RSTART + RLENGTH)
        word = match(text, /^ \([A-Za-z][A-Za-z ]*\)/) ? substr(text, 3, RLENGTH - 3) : ""
        where = place_of(name, want, word)
        out = out (where == "" ? "`" name "`" : "[`" name "`](../" where ")")
    }
    return out text
}
# the whole sentence that begins with this one, "" where it is no part
function whole(i, text) {
    if (i > 1 && goes_on(i - 1) || !goes_on(i)) return ""
    for (text = words[i]; goes_on(i); i++) text = text " " words[i + 1]
    return text
}
function goes_on(i) {
    return i < sentences && part[i] == part[i + 1] && words[i] words[i + 1] !~ / \| / &&
        (words[i] ~ /[;,:]$/ ? words[i + 1] !~ /^"/ : words[i] !~ /[.]$/ && words[i + 1] ~ /^[a-z]/)
}
{ text = substr($0, length($1) + 2) }
$1 == "where" { split(text, w, " "); i = ++places[w[1]]; at[w[1], i] = w[2]; line[w[1], i] = w[3]; kinds[w[1], i] = w[4] }
$1 == "home" { split(text, w, " "); home[w[2]] = w[1] }
$1 == "promise" && text ~ /^\| `/ && split(text, cell, "|") >= 6 {
    k = split(neat(cell[2]), name, " "); split("", number); numbers = numbers_in(cell[3], number)
    for (i = 1; i <= k; i++) for (j = 1; j <= numbers; j++) promises[number[j]] = promises[number[j]] " " name[i]
}
$1 == "sentence" && text ~ /^## / { heading = text }
$1 == "sentence" && text ~ /^- / {
    sub(/^- /, "", text); sentences++; part[sentences] = heading; number_of[sentences] = words[sentences] = text
    sub(/ .*/, "", number_of[sentences]); sub(/^[^ ]* /, "", words[sentences]); sub(/ \((says nothing to build|with Q-[0-9]+)\)$/, "", words[sentences])
}
$1 == "trace" && text ~ /^## / { section = text; now = "" }
$1 == "trace" && section == "" { print text }
$1 == "trace" && section != "" {
    if (text ~ /^- \*\*/) {
        now = text; sub(/^- \*\*/, "", now); sub(/\*\*.*/, "", now)
        if (now in said) say("TRACE: a second row for " now)
        if (!sub(/^.* → /, "", text)) { say("TRACE: no arrow in the row of " now); text = "" }
        said[now] = text
    } else if (text ~ /^  - / && now != "") { if (text !~ /^  - promises: /) more[now] = more[now] text "\n" }
    else if (text !~ /^(## |> |$)/) note[section] = note[section] text "\n"
}
END {
    for (i = 1; i <= sentences; i++) {
        n = number_of[i]
        if (part[i] != part[i - 1]) { printf "%s%s\n\n", (i > 1 ? "\n" : ""), part[i]; if (part[i] in note) print note[part[i]] }
        if ((text = whole(i)) != "") { if (part[i] == part[i - 1]) print ""; print "> " text "\n" }
        print "- **" n "** " words[i] " → " linked(said[n], "definition")
        if (n in promises) print "  - promises:" linked(promises[n], "promise")
        k = split(more[n], below, "\n")
        for (j = 1; j < k; j++) print linked(below[j], below[j] ~ /contract/ ? "function" : "definition")
        if (!(n in said)) say("TRACE has no row for the sentence " n)
        delete said[n]
    }
    for (n in said) say("TRACE: a row for " n ", which is no sentence")
    exit bad
}
