# Prints each line of the files named as FILE, tab, its number, tab, the line without comments: what the compiler or the prover reads.
# In .antt files a comment is -- to the line's end, or {- to -}; in .rt files // or /* to */; both kinds of block nest, and a text holds
# none. -- begins a comment only where a name could begin: behind a space, a bracket, or one of . ; , @ " « ». In <-- and x--y it is part
# of the name.

function pass(n) { bare = bare substr(rest, 1, n); rest = substr(rest, n + 1) }

FNR == 1 { depth = 0; rust = FILENAME ~ /\.rt$/ }
{
    rest = $0
    bare = ""
    while (rest != "") {
        if (depth) {
            if (!match(rest, rust ? "/\\*|\\*/" : "[{]-|-[}]")) { rest = ""; break }
            mark = substr(rest, RSTART, 2)
            rest = substr(rest, RSTART + 2)
            depth += mark == "/*" || mark == "{-" ? 1 : -1
            if (!depth) bare = bare " "
            continue
        }
        if (!match(rest, rust ? "//|/\\*|\"|'" : "--|[{]-|\"")) { pass(length(rest)); break }
        pass(RSTART - 1)
        if (rest ~ /^"/) pass(match(rest, /^"([^"\\]|\\.)*"/) ? RLENGTH : 1)
        else if (rest ~ /^'/) pass(match(rest, /^'(\\.|[^'\\])'/) ? RLENGTH : 1)
        else if (rest ~ /^\/\//) rest = ""
        else if (rest ~ /^--/) {
            if (bare ~ /(^|[ \t(){}.;,@"]|\302\253|\302\273)$/) rest = ""
            else pass(match(rest, /^-+/) ? RLENGTH : 2)
        } else { depth = 1; rest = substr(rest, 3) }
    }
    sub(/[ \t]+$/, "", bare)
    print FILENAME "\t" FNR "\t" bare
}
