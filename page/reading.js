// A sheet's text as bin/night reads it, and clock times in whole seconds. No depth is computed with here.
const plural = (n, one, many) => `${grouped(n)} ${n === 1 ? one : many}`;
const grouped = (n) => String(n).replace(/\B(?=(\d{3})+$)/g, ",");

// ---- the text: the lines that the programs are handed, and what was made of others
function readSheet(raw) {
    const lines = raw.split("\n");
    if (lines[lines.length - 1] === "") lines.pop();
    const made = { windows: 0, semicolons: 0, commas: 0, decimals: 0, signs: 0, quotes: 0, blanks: 0, tails: 0 };
    const notes = [];
    let example = "";
    let here; // what was made of this line, each once
    const seen = (what) => here.add(what);

    function bare(text) {
        let s = text.replace(/^[ \u00a0]+/, "").replace(/[ \u00a0]+$/, "");
        if (s !== text) seen("blanks");
        if (/^".*"$/s.test(s)) {
            s = s.slice(1, -1);
            seen("quotes");
        }
        return s;
    }
    // where the label ends: a tab, the one semicolon, or the one comma that no quotes enclose
    function parted(s) {
        if (s.includes("\t")) return s.indexOf("\t");
        const semicolons = s.split(";").length - 1;
        if (semicolons === 1) {
            seen("semicolons");
            return s.indexOf(";");
        }
        if (semicolons > 1) return -1;
        if (s.replace(/,".*"$/s, ",").split(",").length !== 2) return -1;
        seen("commas");
        return s.indexOf(",");
    }
    function first(text) {
        const s = text.replace(/([ \t;,]|"")+$/, "");
        if (s !== text) seen("tails");
        return bare(s);
    }
    function row(text, number) {
        const s = /^([ \t;,]|"")+$/.test(text) ? "" : text.replace(/([\t;,]("")?)+$/, "");
        if (s !== text) seen("tails");
        const at = parted(s);
        if (at < 0) return s;
        const label = bare(s.slice(0, at));
        let depth = bare(s.slice(at + 1));
        if (depth.startsWith("\u2212")) {
            depth = "-" + depth.slice(1);
            seen("signs");
        }
        if (/^-?[0-9]+,[0-9]+$/.test(depth)) {
            seen("decimals");
            if (example === "") example = ` (line ${number}: ${depth} is read as ${depth.replace(",", ".")})`;
            depth = depth.replace(",", ".");
        }
        return label + "\t" + depth;
    }

    if (lines.length > 0 && lines[0].startsWith("\uFEFF")) {
        lines[0] = lines[0].slice(1);
        notes.push("a byte-order mark left out");
    }
    const read = lines.map((line, i) => {
        here = new Set();
        const text = line.endsWith("\r") ? line.slice(0, -1) : line;
        if (text !== line) seen("windows");
        const s = i === 0 ? first(text) : row(text, i + 1);
        for (const what of here) made[what] += 1;
        return s;
    });
    while (read.length > 1 && read[read.length - 1] === "") read.pop();

    const note = (what, text) => {
        if (made[what]) notes.push(`${text} in ${plural(made[what], "line", "lines")}`);
    };
    note("windows", "line ends of Windows left out");
    note("semicolons", "a semicolon taken for the tab");
    note("commas", "a comma taken for the tab");
    note("decimals", "decimal commas taken for points" + example);
    note("signs", "a long minus taken for a minus");
    note("quotes", "quotes left out");
    note("blanks", "blanks around a field left out");
    note("tails", "empty fields left out");
    const left = lines.length - read.length;
    if (left > 0) notes.push((left === 1 ? "an empty line" : `${left} empty lines`) + " at the end left out");
    return { lines: read, notes };
}

// ---- times
const DAY = 86400;

// a clock time in seconds from midnight; that of a label, before which a date may stand; and a time that passes, in seconds; null where
// it is none
function clockOf(text) {
    return /^[0-9]{1,2}(h|h[0-9]{2}|:[0-9]{2})$/.test(text) ? clockOfLabel(text) : null;
}
function clockOfLabel(text) {
    const m = /^(?:.* )?([0-9]{1,2})(?:h|h([0-9]{2})|:([0-9]{2})(?::([0-9]{2}))?)$/.exec(text);
    if (!m) return null;
    const [hours, minutes, seconds] = [m[1], m[2] || m[3] || 0, m[4] || 0].map(Number);
    return hours <= 24 && minutes <= 59 && seconds <= 59 ? (hours * 3600 + minutes * 60 + seconds) % DAY : null;
}
function passingOf(text) {
    const m = /^(?:([0-9]{1,2})h)?(?:([0-9]{1,4})m)?(?:([0-9]{1,5})s)?$/.exec(text);
    return m && text !== "" ? Number(m[1] || 0) * 3600 + Number(m[2] || 0) * 60 + Number(m[3] || 0) : null;
}

// the clock to the minute, rounded; so many minutes, in hours and minutes; a time that passes, as it is typed
const minutesOf = (seconds) => Math.floor((seconds + 30) / 60);
function clockText(seconds) {
    const m = minutesOf(seconds) % 1440;
    return String(Math.floor(m / 60)).padStart(2, "0") + ":" + String(m % 60).padStart(2, "0");
}
function longText(m) {
    if (m === 0) return "less than a minute";
    return [m >= 60 ? `${Math.floor(m / 60)} h` : "", m % 60 ? `${m % 60} min` : ""].filter((s) => s).join(" ");
}
function passingText(seconds) {
    const [h, m, s] = [Math.floor(seconds / 3600), Math.floor(seconds / 60) % 60, seconds % 60];
    return (h ? h + "h" : "") + (m ? m + "m" : "") + (s || seconds === 0 ? s + "s" : "");
}

// Which rows are on the curve: each from the first to the last in steps. Power has coefficients for rows.
function rowsOnCurve(lines) {
    const basis = lines[0] || "";
    const count = lines.length - 1;
    const step = { Bezier: 3, Hermite: 2, Power: 4 }[basis] || 1;
    const first = /^(CatmullRom|Linear|Bspline)$/.test(basis) ? 1 : 0;
    return { basis, count, step, first, last: basis === "Hermite" ? count - 2 : count - 1 - first };
}

// From the labels of the rows on the curve: where it starts, in seconds from midnight, and the seconds from row to row; null for
// what they do not tell.
function timesOfLabels(lines) {
    const { step, first, last } = rowsOnCurve(lines);
    const label = (i) => clockOfLabel((lines[i + 1] || "").split("\t")[0]);
    const dusk = label(first);
    let row = null;
    for (let i = first + step; i <= last; i += step) {
        const [before, here] = [label(i - step), label(i)];
        const passed = before === null || here === null ? 0 : (here - before + DAY) % DAY;
        if (dusk === null || passed === 0 || (row !== null && passed !== row)) return { dusk, row: null };
        row = passed;
    }
    return { dusk, row };
}

// The two times that count: what is typed, else what the labels tell; and what is to be said of them.
function timesOf(lines, duskTyped, rowTyped) {
    const told = timesOfLabels(lines);
    const notes = [];
    const wrong = {};
    const typed = (text, parse, from, what) => {
        if (text === "") return from;
        const seconds = parse(text);
        if (seconds === null) wrong[what] = true;
        return seconds === null ? from : seconds;
    };
    const dusk = typed(duskTyped, clockOf, told.dusk, "dusk");
    const row = typed(rowTyped, passingOf, told.row, "row");
    if (wrong.dusk) notes.push(`\u201c${duskTyped}\u201d is no clock time: 18:00 or 18h`);
    else if (told.dusk !== null && dusk !== told.dusk) {
        notes.push(`by its label the curve starts at ${clockText(told.dusk)}, and not at ${clockText(dusk)}, which counts`);
    }
    if (wrong.row) notes.push(`\u201c${rowTyped}\u201d is no time: 1h, 30m or 900s`);
    else if (told.row !== null && row !== told.row) {
        notes.push(`by their labels the rows are ${passingText(told.row)} apart, and not ${passingText(row)}, which counts`);
    }
    return { dusk, row, told, notes, wrong };
}
