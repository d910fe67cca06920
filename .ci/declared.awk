# From what bare.awk prints, a line for each name that a file declares: FILE#NAME, its kind, its statement, all of it; parted by tabs.
# The kind is pub, private, field (of a record, or a case of a data type) or local (below a where); FILE# alone has the kind file. A
# statement is a theorem's type, with the parameters of the modules around it; of a word (a type, a record, an abbreviation) it is all of
# it; of a function its head and its contract. An import is FILE#, import, the word as it is written there (with a dot, that of a module),
# FILE#NAME or MODULE#NAME that it stands for; one in a form that is not read, as a line that declares an operator, is FILE#, unread, its
# line, its text.

function indent(s) { match(s, /^ */); return RLENGTH }

function trimmed(s) { gsub(/[ \t]+/, " ", s); sub(/^ /, "", s); sub(/ $/, "", s); return s }

# whether a line begins a declaration; sets name, open and word
function begins(s,    w) {
    name = ""
    word = sub(/^(unfoldable |abbrev )+/, "", s)
    open = sub(/^pub /, "", s)
    split(s, w, " ")
    if (w[1] ~ /^(module|use|mod|axiom|infix|infixl|infixr|ruleset|mutual|deriving)$/) return 1
    if ((w[1] == "data" || w[1] == "record") && w[2] != "{") { name = w[2]; word = 1; return 1 }
    if (!open && w[2] != ":" && !(w[2] ~ /^[{]/ && s ~ /^[^ ]+ [{][^{}:=]*[}] :/)) return 0
    name = w[1]
    return 1
}

# the first line and those that belong to it: the deeper ones and, of all of it, the clauses
function text_at(i, all,    t, j, deep) {
    deep = indent(line[i])
    t = trimmed(line[i])
    for (j = i + 1; j <= last; j++) {
        if (line[j] == "") continue
        if (indent(line[j]) > deep) { t = t " " trimmed(line[j]); continue }
        if (t ~ /(^| )Type [0-9]$/) all = 1
        if (!all || begins(trimmed(line[j]))) break
        t = t " ; " trimmed(line[j])
    }
    return t
}

# the file of a path of ours, Rattle.NAME.specs.A.B or Rattle.NAME.proofs.A: the longest that is one; else the path itself, as it is of the
# language's own libraries and of what the compiler makes of a source
function home(path,    p, n, i, at) {
    if (path !~ /^Rattle\./) return path
    n = split(path, p, ".")
    at = "crates"
    for (i = 2; i <= n; i++) at = at "/" p[i]
    while (at ~ /^crates\/[^\/]*\/(specs|proofs)\/./) {
        if (!(at in there)) { there[at] = (getline any < (at ".antt")) >= 0; close(at ".antt") }
        if (there[at]) return at ".antt"
        sub(/\/[^\/]*$/, "", at)
    }
    return path
}

# the lines from line i to the one that ends what opens in it
function whole(i, opens, ends,    t) {
    t = line[i]
    if (t ~ opens) while (t !~ ends && i < last) t = t " " line[++i]
    return trimmed(t)
}

# use a::b and use a::{b, c as d}, in code
function rust(s,    at, n, item, k, pair) {
    sub(/^(pub )?use /, "", s)
    sub(/ *;.*$/, "", s)
    at = s
    if (!match(s, /::[{][^{}]*[}]$/)) { sub(/::[^:]*$/, "", at); sub(/.*::/, "", s) }
    else { at = substr(s, 1, RSTART - 1); s = substr(s, RSTART + 3, RLENGTH - 4) }
    n = split(s, item, ",")
    for (k = 1; k <= n; k++) {
        item[k] = trimmed(item[k])
        pair[2] = ""
        split(item[k], pair, " as ")
        print file "#\timport\t" (pair[2] == "" ? pair[1] : pair[2]) "\t" at "#" pair[1]
    }
}

# use A.B.{c, d as e}, use A.B as f and use A.B; any other form is told as one that is not read
function import(s, i,    at, list, n, item, k, pair, form) {
    form = s
    if (!sub(/^use /, "", s)) at = ""
    else if (s ~ /^[^ {}*]+ as [^ {}*.]+$/) {
        at = s
        sub(/ as .*/, "", at)
        sub(/.* as /, "", s)
        print file "#\timport\t" s ".\t" home(at) "#"
        return
    } else if (s ~ /^[^ {}*]+$/ && s !~ /::/) {
        at = s
        sub(/.*\./, "", s)
        print file "#\timport\t" s ".\t" home(at) "#"
        return
    } else if (match(s, /\.[{][^{}]*[}]$/)) { at = substr(s, 1, RSTART - 1); list = substr(s, RSTART + 2, RLENGTH - 3) }
    if (at == "" || at ~ /[ {}*]/ || at ~ /^package\./) { print file "#\tunread\t" i "\t" form; return }
    at = home(at)
    sub(/, *$/, "", list)
    n = split(list, item, ",")
    for (k = 1; k <= n; k++) {
        item[k] = trimmed(item[k])
        pair[2] = ""
        if (split(item[k], pair, " as ") > 2 || item[k] ~ /^[*]?$|[.]/) print file "#\tunread\t" i "\t" form
        else print file "#\timport\t" (pair[2] == "" ? pair[1] : pair[2]) "\t" at "#" pair[1]
    }
}

function logic(    i, d, top, k, around, kind) {
    top = 0
    for (i = 1; i <= last; i++) {
        if (line[i] == "") continue
        d = indent(line[i])
        while (top && d <= depth[top]) top--
        if (line[i] ~ /^ *where$/) { depth[++top] = d; inner[top] = "local"; given[top] = ""; continue }
        if (!begins(trimmed(line[i]))) continue
        if (line[i] ~ /^ *([a-z]+ )*use( |$)/) { import(whole(i, "[{]", "[}]"), i); continue }
        if (line[i] ~ /^ *(infix|infixl|infixr|open) /) print file "#\tunread\t" i "\t" trimmed(line[i])
        if (line[i] ~ /^ *(pub )?module /) {
            around = text_at(i, 0)
            sub(/ where( .*)?$/, "", around)
            depth[++top] = d
            inner[top] = ""
            given[top] = around " ; "
            continue
        }
        if (name == "") continue
        kind = open ? "pub" : "private"
        around = ""
        for (k = 1; k <= top; k++) { around = around given[k]; if (inner[k] != "") kind = inner[k] == "field" && open ? "field" : inner[k] }
        print file "#" name "\t" kind "\t" around text_at(i, word) "\t" around text_at(i, 1)
        if (line[i] ~ /^ *(pub )?(data|record) /) { depth[++top] = d; inner[top] = "field"; given[top] = "" }
    }
}

# what a trait's members are for a type: its constants and its ghost members, beside the type's own text
function members(i,    j, t, u, type, any) {
    t = trimmed(line[i])
    type = t
    sub(/^.* for /, "", type)
    sub(/[^A-Za-z0-9_].*$/, "", type)
    for (j = i + 1; j <= last && line[j] !~ /^[}]/; j++) {
        if (line[j] !~ /^    (const|ghost) / || line[j] ~ /^    ghost use /) continue
        if (line[j] ~ /^    ghost /) any = 1
        u = trimmed(line[j])
        while (u !~ /;$/ && j < last) u = u " " trimmed(line[++j])
        t = t " " u
    }
    if (any) print file "#" type "\tpub\t" t " }\t" t " }"
}

function code(    i, j, t, w, n, d, s) {
    for (i = 1; i <= last; i++) {
        if (line[i] ~ /^ *ghost use( |$)/) { s = whole(i, ".", ";"); sub(/^ghost /, "", s); sub(/ *;$/, "", s); import(s, i); continue }
        if (line[i] ~ /^ *(pub )?use /) { s = whole(i, ".", ";"); rust(s); continue }
        if (line[i] ~ /^impl[ <][^{]* for [A-Za-z0-9_]+.* [{]$/) { members(i); continue }
        if (!match(line[i], /(^|[ \t])(fn|const|struct|enum|trait) [A-Za-z0-9_]+/)) continue
        n = split(substr(line[i], RSTART, RLENGTH), w, " ")
        d = indent(line[i])
        t = trimmed(line[i])
        if (w[n - 1] == "fn") {
            for (j = i + 1; j <= last && (t !~ / [{]$/ || t ~ / (ensures|requires) /); j++) {
                if (line[j] ~ /^ *[{]$/ && indent(line[j]) == d) break
                t = t " " trimmed(line[j])
                if (line[j] ~ /;$/) break
            }
            sub(/ [{]$|;$/, "", t)
        } else if (t ~ /[{]$/) {
            for (j = i + 1; j <= last; j++) { t = t " " trimmed(line[j]); if (line[j] ~ /^ *[}]/ && indent(line[j]) == d) break }
        }
        t = trimmed(t)
        print file "#" w[n] "\tpub\t" t "\t" t
    }
}

function flush() {
    if (file == "") return
    print file "#\tfile\t\t"
    if (file ~ /\.rt$/) code(); else logic()
}

{
    split($0, part, "\t")
    if (part[1] != file) { flush(); file = part[1]; last = 0 }
    line[++last] = substr($0, length(part[1]) + length(part[2]) + 3)
}
END { flush() }
