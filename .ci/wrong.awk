# From the files of wrong programs, a line for each: the calls that it is wrong of, the file, and the file and the name of its first error;
# parted by tabs. With `list`, what is wrong and the fact that fails behind them. A part that it does not say is empty.
function row() { if (edit != "") print calls "\t" edit "\t" place "\t" name (list ? "\t" what "\t" fact : "") }
FNR == 1 { row(); edit = FILENAME; calls = place = name = fact = ""; what = $0; sub(/^# /, "", what) }
/^# of: / { calls = substr($0, 7) }
/^# first error: / { split($0, part, "`"); place = part[2]; name = part[4] }
/^# the fact: / { fact = substr($0, 13) }
END { row() }
