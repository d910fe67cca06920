# From what declared.awk prints of sources and definitions: for each call in `calls`, the definitions that its contract rests on, each with
# what it rests on in turn. A definition is a paragraph of its file. With `counts`, only how many lines and files.

function tokens(s, list) { gsub(/[(){},;]/, " ", s); gsub(/ \.[a-zA-Z0-9_]+/, " ", s); return split(s, list, " ") }

# where a word of a file comes from: FILE#NAME, or MODULE#NAME of the language's library; nothing where it is bound
function meant(file, w,    module, i) {
    if ((file, w) in stands) return stands[file, w]
    if ((file "#" w) in all) return file "#" w
    if ((file, "◌" w "◌") in stands) return stands[file, "◌" w "◌"]
    i = index(w, ".")
    module = i > 1 ? substr(w, 1, i) : ""
    if (!((file, module) in stands)) return i > 1 ? meant(file, substr(w, 1, i - 1)) : ""
    module = stands[file, module]
    sub(/#.*/, "", module)
    return module "#" substr(w, i + 1)
}

# what the compiler makes of a source's type: its crate and its name
function of_source(at,    p) {
    if (at !~ /^Rattle\..*\.declared\./) return ""
    sub(/#.*/, "", at)
    sub(/\.TheVariants$/, "", at)
    split(at, p, ".")
    sub(/.*\./, "", at)
    return p[2] "#" at
}

function reach(at,    file, n, i, list, source, to) {
    if (at in seen) return
    seen[at] = 1
    source = at ~ /^[a-z_]+#/ ? at : of_source(at)
    if (source != "") { if (source in types) mark(types[source]); return }
    if (at in parent) { reach(parent[at]); return }
    if (!(at in all)) { if (at !~ /^crates\//) library[at] = 1; return }
    mark(at)
    file = at
    sub(/#.*/, "", file)
    n = tokens(all[at], list)
    for (i = 1; i <= n; i++) { to = meant(file, list[i]); if (to != "") reach(to) }
}

# a case or a field belongs to the paragraph of its type
function mark(at,    file, name) {
    file = at; name = at
    sub(/#.*/, "", file)
    sub(/.*#/, "", name)
    wanted[file, name] = 1
    within[file] = 1
}

function begins(s, name,    w, i, n) {
    n = split(s, w, " ")
    for (i = 1; i <= n && w[i] ~ /^(pub|abbrev|unfoldable|data|record|enum|struct|const)$/; i++) ;
    sub(/[:{].*/, "", w[i])
    return w[i] == name ? 1 : 0
}

# the paragraphs of a file in which a wanted name begins
function shown(file,    text, n, i, j, from, hit, name, w, lines) {
    n = 0
    while ((getline text < file) > 0) line[++n] = text
    close(file)
    line[n + 1] = ""
    lines = 0
    for (i = 1; i <= n + 1; i++) {
        if (line[i] != "" && !from) from = i
        if (line[i] == "" && from) {
            hit = 0
            for (j = from; j < i && !hit; j++) if (line[j] ~ /^[^ \/-]/) for (name in wanted) {
                split(name, w, SUBSEP)
                if (w[1] == file && begins(line[j], w[2])) { hit = 1; break }
            }
            if (hit) {
                if (!counts && !lines) print "\n" file
                for (j = from; j < i; j++) { if (!counts) printf "%5d  %s\n", j, line[j]; lines++ }
            }
            from = 0
        }
    }
    return lines
}

BEGIN {
    FS = "\t"
    while ((getline row < files) > 0) order[++known] = row
}
{ file = $1; sub(/#.*/, "", file) }
$2 == "import" { stands[file, $3] = $4; next }
$2 == "file" || $2 == "unread" || $2 == "local" { next }
$1 ~ /\/src\// && $3 ~ /(enum|struct) / {
    split($1, part, "/")
    name = $1
    sub(/.*#/, "", name)
    types[part[2] "#" name] = $1
    all[$1] = ""
    next
}
$1 ~ /\/src\// { head[$1] = $3; next }
$2 == "field" { parent[$1] = type; next }
{ all[$1] = $4 }
$4 ~ /(^| )(data|record) / { type = $1 }
END {
    while ((getline call < calls) > 0) {
        split("", seen); split("", wanted); split("", within); split("", library)
        file = call
        sub(/#.*/, "", file)
        n = tokens(head[call], list)
        for (i = 1; i <= n; i++) if (meant(file, list[i]) != "") reach(meant(file, list[i]))
        if (!counts) print file "\n       " head[call]
        sum = parts = 0
        for (i = 1; i <= known; i++) if (order[i] in within) { s = shown(order[i]); sum += s; parts += s > 0 }
        name = call
        sub(/.*#/, "", name)
        if (counts) { printf "%5d lines in %2d files  %s\n", sum, parts, name; continue }
        print "\nof the language's library"
        for (at in library) { sub(/#/, ".", at); print "       " at | "sort" }
        close("sort")
        printf "\n%s: %d lines in %d files\n", name, sum, parts
    }
}
