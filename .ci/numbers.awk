# The numbers of sentences: a number is a prefix, which is answered, and a place in its row, which goes to `place`.
function is_number(word) { return word ~ /^[A-Z0-9]+(-[0-9]+)+$/ }
function prefix_of(word) { match(word, /-[0-9]+$/); place = substr(word, RSTART + 1) + 0; return substr(word, 1, RSTART - 1) }
# the numbers of "01-3, 01-5 to 01-7" go to `into`; how many there are, 0 where it is not such a list
function numbers_in(list, into, word, n, i, k, from, prefix, before) {
    n = split(list, word, " ")
    for (i = 1; i <= n; i++) {
        sub(/,$/, "", word[i])
        if (word[i] == "to" && i > 1) continue
        if (!is_number(word[i])) return 0
        before = place; from = prefix_of(word[i])
        if (word[i - 1] != "to") before = place - 1
        else if (from != prefix || place <= before) return 0
        for (prefix = from; ++before <= place;) into[++k] = prefix "-" before
    }
    return k + 0
}
function neat(text) { gsub(/ +/, " ", text); gsub(/^ | $/, "", text); return text }
