# What is promised, as it stands in the tree. First the names, as declared.awk prints them; then, each after its mark:
#   row TEXT     a line of docs/KEPT.md to print as it is
#   cited NAME   a reference FILE#NAME of a document
# Prints the rows, then the text of every reference, and of every word that these texts use and that is declared among the theorems; then,
# for each file, what its texts import: the module, and the words of the texts that come from there. Each such word with a capital letter
# that no document cites goes to the file that -v words names.

# tokens of a text: names may hold nearly anything but space and brackets
function tokens(s) { gsub(/[(){}\[\],;]/, " ", s); return split(s, token, " ") }

# the declaration that a token of FILE stands for, if that is among the theorems of a crate: by its name, by a module's name before it, or
# as what a part is taken of
function meant(file, t,    at, head) {
    at = file "#" t
    if (at in named) return at
    if ((file, t) in stands) return stands[file, t]
    head = t
    if (!sub(/\..*/, "", head)) return ""
    if (!((file, head ".") in stands)) return meant(file, head)
    sub(/.*\./, "", t)
    return stands[file, head "."] t
}

# the names that a text binds itself: (a b : A), {a : A}, λ a b. c
function bound(s, own,    t, n, i, part) {
    while (match(s, /[({][^(){}:]* :|λ [^.]*\./)) {
        t = substr(s, RSTART, RLENGTH)
        s = substr(s, RSTART + RLENGTH)
        gsub(/[({:.]|λ/, " ", t)
        n = split(t, part, " ")
        for (i = 1; i <= n; i++) own[part[i]] = 1
    }
}

function reach(ref, text,    n, i, file, at, mine, own, head) {
    file = ref
    sub(/#.*/, "", file)
    bound(text, own)
    n = tokens(text)
    for (i = 1; i <= n; i++) mine[i] = token[i]
    for (i = 1; i <= n; i++) {
        head = mine[i]
        sub(/\..*/, "", head)
        if (head in own && !((file, head ".") in stands) || mine[i + 1] == ":") continue
        at = meant(file, mine[i])
        if (at == "" || at == ref || !(at in named) || at !~ /\/proofs\// || at in used) continue
        used[at] = ref
        reach(at, all[at])
    }
}

# whether a premise, a clause or a field begins at the I-th word of a text
function starts(part, i,    t, fresh) {
    t = part[i]
    if (t == "→" || t == ";" || t == "ensures" || t == "requires") return 1
    fresh = part[i - 1] != ";" && part[i - 1] !~ /^(abbrev|unfoldable)$/
    return fresh && (t == "pub" || part[i + 1] == ":" && t !~ /^[({]/ && part[i - 1] != "pub")
}

# a text with a break before each of them
function show(s,    n, i, part, depth, out, t) {
    n = split(s, part, " ")
    depth = 0
    out = "   "
    for (i = 1; i <= n; i++) {
        t = part[i]
        if (depth == 0 && i > 1 && starts(part, i)) out = out "\n   "
        if (t != ";" || depth) out = out " " t
        depth += gsub(/[({\[]/, "", t)
        depth -= gsub(/[)}\]]/, "", t)
    }
    print out
}

# the words that a file imports and that its texts use, by the module that they come from; an operator is used where all its parts stand
# there
function imports(file, text,    n, i, k, part, piece, has, word, at, from, words, line, count) {
    gsub(/[(){}\[\].;,@"]|«|»/, " & ", text)
    n = split(text, piece, " ")
    for (i = 1; i <= n; i++) has[piece[i]] = 1
    n = split(brought[file], word, "\n")
    for (i = 1; i <= n; i++) {
        at = word[i]
        sub(/\.$/, "", at)
        if (!(at in has)) {
            if (at !~ /◌/) { if (at != "[]" || !("[" in has)) continue }
            else {
                k = split(at, part, "◌")
                while (k && (part[k] == "" || part[k] in has)) k--
                if (k) continue
            }
        }
        from = stands[file, word[i]]
        at = from
        sub(/#.*/, "", from)
        sub(/.*#/, "", at)
        if (!(from in words)) line[++count] = from
        words[from] = words[from] (words[from] == "" ? "" : ", ") (at == "" || at == word[i] ? "" : at " as ") word[i]
    }
    if (!count) return
    print "\n" file " imports"
    for (i = 1; i <= count; i++) print "    " line[i] ": " words[line[i]]
}

# in order
function insert(ref,    i) {
    for (i = ++count; i > 1 && order[i - 1] > ref; i--) order[i] = order[i - 1]
    order[i] = ref
}

BEGIN { FS = "\t" }
$1 == "row" { print $2; next }
$1 == "cited" { cited[$2] = 1; next }
$2 == "import" {
    file = $1
    sub(/#$/, "", file)
    if (!((file, $3) in stands)) brought[file] = brought[file] (brought[file] == "" ? "" : "\n") $3
    stands[file, $3] = $4
    next
}
$2 == "unread" || $2 == "file" || $2 == "local" || $2 == "field" { next }
{
    if ($1 in named && named[$1] == "pub" && $2 != "pub") next
    if ($1 in named && named[$1] == $2) { told[$1] = told[$1] " ; " $3; all[$1] = all[$1] " ; " $4 }
    else { told[$1] = $3; all[$1] = $4 }
    named[$1] = $2
}
END {
    for (ref in cited) if (ref in named && ref ~ /^crates\/[^\/]*\/(proofs|src)\//) insert(ref)
    all_cited = count
    for (i = 1; i <= all_cited; i++) reach(order[i], told[order[i]])
    for (ref in used) if (!(ref in cited)) insert(ref)
    for (i = 1; i <= count; i++) {
        ref = order[i]
        if (!(ref in cited) && ref ~ /#[A-Z]/) print used[ref] " says " ref ", which no row explains" >words
        print "\n" ref
        text = ref in cited ? told[ref] : all[ref]
        show(text)
        file = ref
        sub(/#.*/, "", file)
        if (!(file in texts)) files[++several] = file
        texts[file] = texts[file] " " text
    }
    for (i = 1; i <= several; i++) imports(files[i], texts[files[i]])
}
