// A sheet handed to the proved programs, and their replies taken apart.
const VERDICT = /^(line|length|twice|turns|falls|flat|fine)(\t|$)/;
const EVERY = 900; // the table: every 15 minutes

// What there is to know of a sheet: its verdict; and of a fine one its listing, its span, its depths by the clock and the place of a depth,
// by one run of bin/ask. Where no depth is typed, that of the row in the middle of the sheet is asked.
function study(run, text, duskTyped, rowTyped, depthTyped) {
    const { lines, notes } = readSheet(text);
    const times = timesOf(lines, duskTyped, rowTyped);
    const known = { lines, notes, times, fine: false, faults: [], advice: "", span: null, listing: null, depths: [] };
    if (lines.includes("ask")) {
        known.faults = [{ about: [lines.indexOf("ask") + 1], text: "it has a line \u201cask\u201d: a sheet has no questions in it." }];
        known.verdict = faultsText(known.faults);
        return known;
    }
    known.depth = depthTyped || depthAt(lines, Math.floor(lines.length / 2) + 1);
    const questions = ["table"];
    if (times.row !== null && times.row <= 99999) questions.push(`row\t${times.row}`, `every\t${EVERY}`);
    if (DEPTH.test(known.depth)) questions.push(`find\t${known.depth}`);
    const replies = run("ask", [...lines, "ask", ...questions]);
    const verdict = verdictOf(replies);
    known.fine = verdict.length === 1 && verdict[0].startsWith("fine\t");
    if (!known.fine) {
        known.faults = verdict.map((reply) => faultOf(reply, lines));
        known.advice = adviceOf(verdict, lines);
        known.verdict = faultsText(known.faults);
        return known;
    }
    const records = (words) => replies.filter((reply) => words.includes(reply.split("\t")[0]));
    const [, , first, last] = verdict[0].split("\t");
    known.ends = { first, last };
    known.table = records(["curve", "knot"]);
    known.depths = records(["at"]).map((reply) => reply.split("\t")).map(([, second, depth]) => ({ second: Number(second), depth }));
    if (known.depths.length > 0) known.span = known.depths[known.depths.length - 1].second;
    else if (times.row !== null) {
        times.notes.push(`a row of ${passingText(times.row)} makes a night of no second, or of more than 24 hours`);
    }
    known.reply = DEPTH.test(known.depth) ? replies[replies.length - 1] : null;
    known.listing = listingOf(known.table, known.span);
    known.verdict = fineText(verdict[0], lines, times, known.span);
    known.rows = rowsText(lines);
    return known;
}

// the lines of the verdict: up to `fine` or `flat`, or to the first of another kind
function verdictOf(replies) {
    const other = replies.findIndex((reply) => !VERDICT.test(reply));
    const end = replies.findIndex((reply) => /^(fine|flat)/.test(reply));
    return replies.slice(0, end >= 0 && (other < 0 || end < other) ? end + 1 : other < 0 ? replies.length : other);
}

// the listing for the box: the table, its span in seconds, and by which ends the box decides
function listingOf(table, span) {
    return [table[0], ...(span === null ? [] : [`span\t${span}`]), ...table.slice(1), "ends\tcurve"];
}

// the replies to many depths at once
function findAll(run, known, depths) {
    const row = known.span === null ? [] : [`row\t${known.times.row}`];
    return run("ask", [...known.lines, "ask", ...row, ...depths.map((depth) => `find\t${depth}`)]).slice(1);
}

// a depth's pattern, by the reader of sheets: a sheet of that one depth
function patternOf(run, depth) {
    return run("sheet", ["Linear", `depth\t${depth}`])[1].split("\t")[1];
}

// the picture of a listing, with the places of depths
function pictureOf(run, listing, depths) {
    return run("picture", [...listing, ...depths.map((depth) => `find\t${patternOf(run, depth)}`)]).join("\n");
}

// What differs between two sheets: rows of line, label, then, now. The depths are compared by their doubles, whatever the two bases are.
function differences(run, then, now) {
    const table = (lines) => run("sheet", ["Linear", ...lines.slice(1)]);
    const [old, fresh] = [table(then), table(now)];
    for (const [listing, name] of [[old, "Last season\u2019s sheet"], [fresh, "This sheet"]]) {
        if (!listing[0] || listing[0].startsWith("refused")) return { why: `${name} cannot be compared: mend its lines first.` };
    }
    const found = [];
    if (then[0] !== now[0]) found.push({ line: 1, label: "basis", then: then[0], now: now[0] });
    for (let i = 1; i < Math.min(then.length, now.length); i++) {
        const labels = [labelAt(then, i + 1), labelAt(now, i + 1)];
        if (labels[0] !== labels[1]) found.push({ line: i + 1, label: "label", then: labels[0], now: labels[1] });
    }
    for (const reply of run("decimals", run("compare", [...old, "other", ...fresh]))) {
        const [word, place, first, second] = reply.split("\t");
        const line = Number(place) + 2;
        const label = labelAt(line <= now.length ? now : then, line);
        if (word === "knot") found.push({ line, label, then: mm(first), now: mm(second) });
        if (word !== "only") continue;
        found.push({ line, label, then: line <= then.length ? mm(first) : "", now: line <= now.length ? mm(first) : "" });
    }
    return { found: found.sort((a, b) => a.line - b.line) };
}
