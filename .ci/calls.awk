# The calls that docs/CALLS.md names with their files, each as FILE#NAME; docs/CALLS.md# alone where it has no table of them.
BEGIN { FS = "|" }
/^\| Call \|/ { on = 1; next }
!/^\|/ { on = 0 }
on && /`/ {
    file = $3
    gsub(/[` ]/, "", file)
    n = split($2, token, "`")
    for (i = 2; i <= n; i += 2) { sub(/\(.*/, "", token[i]); print file "#" token[i]; count++ }
}
END { if (!count) print "docs/CALLS.md#" }
