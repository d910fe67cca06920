# From docs/KEPT.md, docs/PROMISES.md: the same sections with each promise as a sentence, without what keeps it, and without the tables of
# definitions, of words and of damages.
BEGIN {
    print "# Promises"
    print ""
    print "What the library promises, a sentence for each promise. docs/KEPT.md has, in the same sections, what keeps each of them:" \
        " the theorem, the contract"
    print "or the run; docs/STATEMENTS.txt has the text of these. Drawn by `bin/promises --write`, compared by `bin/promises`:" \
        " write in docs/KEPT.md."
    print ""
    print "A contract says that the reply is the definition's, on every input: it determines the reply, so that no second reply fits." \
        " What is proved of"
    print "the definition then holds of the code."
}
/^## / && !begun { begun = 1 }
!begun { next }
/^##/ {
    table = 0
    skip = $0 == "### The definitions" || $0 == "### The words of the theorems" || $0 == "## What the scripts refuse"
    if (skip) {
        name = $0
        sub(/^#+ /, "", name)
        if (name == "The definitions")
            print "### The definitions\n\nThe files that the contracts rest on, with their lines: docs/KEPT.md.\n"
        if (name == "What the scripts refuse")
            print "## What the scripts refuse\n\nThe damages that `.ci/test-scripts` tries on a copy of the tree: docs/KEPT.md.\n"
    }
}
skip { next }
begun == 1 { print ""; begun = 2 }
/^\| Promise \| Kept by \|$/ { table = 1; next }
!/^\|/ { table = 0 }
table && /^\|-/ { next }
$0 == "" && blank { next }
{ blank = $0 == "" }
table { split($0, cell, "|"); s = cell[2]; sub(/^ /, "", s); sub(/ $/, "", s); print "- " s; next }
{ print }
