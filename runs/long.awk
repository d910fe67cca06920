# The inputs above 256 KiB, of lines that go by a rule and so are not stored: awk -v program=NAME -f runs/long.awk prints that of bin/NAME.

# the 16 digits of a double
function digits(x,    sign, e, high, middle) {
    if (x == 0) return "0000000000000000"
    if (x < 0) { sign = 2048; x = -x }
    for (e = 1023; x >= 2; e++) x /= 2
    for (; x < 1; e--) x *= 2
    x = (x - 1) * 1048576
    high = int(x)
    x = (x - high) * 65536
    middle = int(x)
    return sprintf("%03X%05X%04X%04X", sign + e, high, middle, (x - middle) * 65536)
}

function knot(x) { print "knot\t" digits(x) }

# a table of knots, `step` apart
function table(first, step, count,    i) {
    print "curve\tLinear"
    for (i = 0; i < count; i++) knot(first + i * step)
}

BEGIN {
    # an evening's depths
    count = split("-1.2 0 1.25 2.5 4 7.125 9.75 12 13.5 14", depth, " ")

    # three tables, and two questions about each
    if (program == "lines") for (step = 1; step <= 3; step++) { table(0, step, 4096); print "at\t" digits(0) "\nat\t" digits(1) }

    # three tables, and behind them an evening, of which the picture is
    if (program == "picture") {
        for (step = 1; step <= 3; step++) table(0, step, 4096)
        print "curve\tCatmullRom\nspan\t25200"
        for (i = 1; i <= count; i++) knot(depth[i])
        print "find\t" digits(4) "\nfind\t" digits(10.5)
    }

    # two tables, the second of which counts, and another in which each hundredth knot differs
    if (program == "compare") {
        table(1, 1, 4096)
        table(0, 1, 4096)
        print "other\ncurve\tLinear"
        for (i = 0; i < 4096; i++) knot(i % 100 ? i : i + 0.5)
    }

    # one table, from negative knots on
    if (program == "decimals") table(-750, 0.125, 12500)

    # a line from 0 to 1, and claims that hold, that lie at the tolerance, and that differ
    if (program == "claims") {
        print "curve\tLinear"
        for (i = 0; i < 4; i++) knot(int(i / 2))
        for (i = 0; i < 4600; i++) print "claim\t" digits(i / 8192) "\t0\t" digits((i + i % 3) / 8192) "\t" digits(1 / 8192)
    }

    # an evening, and questions about it: seconds and depths, and between them spans, some of which are refused
    if (program == "ask") {
        print "CatmullRom"
        for (i = 1; i <= count; i++) print (15 + i) % 24 + 1 "h\t" depth[i]
        print "ask\nrow\t3600"
        for (i = 0; i < 30436; i++) {
            if (i % 5) print "row\t" i * 11 % 4000
            else if (i % 3) print "at\t" i * 7919 % 25300
            else printf "find\t%d.%03d\n", i % 14, i * 77 % 1000
        }
    }

    # labels and depths
    if (program == "sheet") { print "Linear"; for (i = 0; i < 10500; i++) printf "%016d\t%d.125\n", i, i }
}
