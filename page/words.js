// What bin/ask replies, put into sentences: those of bin/night, with the page's name for the sheet.
const plain = (decimal) => (decimal.includes(".") ? decimal.replace(/0+$/, "").replace(/\.$/, "") : decimal);
const mm = (decimal) => `${plain(decimal).replace(/^-/, "\u2212")} mm`;
const upper = (text) => text.charAt(0).toUpperCase() + text.slice(1);

const labelAt = (lines, number) => (lines[number - 1] || "").split("\t")[0];
const depthAt = (lines, number) => (lines[number - 1] || "").split("\t").slice(1).join("\t");
const lineText = (lines, number) => `line ${number} (${labelAt(lines, number)})`;
const typedText = (lines, number) => `line ${number} (${labelAt(lines, number)}, ${depthAt(lines, number)})`;

// How many depths a curve of a basis takes.
const TAKES = { Monotone: "2 to 2,048", Bezier: "4, 7, 10, ..", Hermite: "4, 6, 8, ..", Power: "4, 8, 12, .." };

// a line of the verdict: the sentence, the lines of the sheet that it is about, and the line at which a segment begins that is at fault
function faultOf(reply, lines) {
    const [word, first, second] = reply.split("\t");
    const basis = lines[0] || "";
    const at = Number(first);
    switch (word) {
        case "length":
            return {
                about: [1],
                text: `${plural(at, "depth makes", "depths make")} no curve of ${basis}, which takes ${TAKES[basis] || "4 or more"}.`,
            };
        case "line":
            return { about: [at], text: badLine(at, second, lines) };
        case "twice":
            return { about: [at, Number(second)], text: `${lineText(lines, second)} has the label of line ${at} again.` };
        case "turns":
            return {
                about: [at, at + 1],
                begins: at,
                text: `from ${typedText(lines, at)} to ${typedText(lines, at + 1)} the depths go back, against the direction of the curve.`,
            };
        case "falls":
            return {
                about: [at],
                begins: at,
                text: `in the segment that begins at ${typedText(lines, at)} the drawn curve turns back` +
                    (basis === "Power" ? ", or jumps back at its end." : "."),
            };
        default:
            return { about: [], text: "the curve ends at the depth at which it starts, so that no depth says how far a job has come." };
    }
}

function badLine(at, why, lines) {
    const basis = lines[0] || "";
    const most = basis === "Monotone" ? "; at most 500,000,000 on a Monotone sheet." : ".";
    switch (why) {
        case "missing":
            return EMPTY;
        case "basis":
            return `line 1: ${basis === "" ? "it is empty, and so" : `\u201c${basis}\u201d is`} no basis: ` +
                "it is to be Monotone, or CatmullRom, Linear, Bspline, Bezier, Hermite or Power.";
        case "long":
            return `line ${at}: it is longer than 64 bytes.`;
        case "many":
            return `line ${at}: one depth too many, a sheet has at most 4,096.`;
        case "label":
            return `line ${at}: ${lines[at - 1] === "" ? "it is empty, and has" : `\u201c${labelAt(lines, at)}\u201d is`} ` +
                "no label, which has 1 to 16 bytes before the tab.";
        default: {
            const depth = depthAt(lines, at);
            const what = depth === "" ? "there is no depth behind a tab" : `\u201c${depth}\u201d is no depth`;
            return `line ${at}, ${labelAt(lines, at)}: ${what}: digits, at most 9, and behind a point at most 3${most}`;
        }
    }
}

// a fine sheet's sentence, and what is to be known of its rows
function fineText(reply, lines, times, span) {
    const [, count, first, last] = reply.split("\t");
    const clock = (s) => (span === null || times.dusk === null ? "" : ` at ${clockText(times.dusk + s)}`);
    return `The sheet is fine: ${lines[0]}, ${plural(Number(count), "depth", "depths")}, ` +
        `from ${mm(first)}${clock(0)} to ${mm(last)}${clock(span)}. The curve never turns back.`;
}
function rowsText(lines) {
    const [low, high] = [lineText(lines, 3), lineText(lines, lines.length - 1)];
    switch (lines[0]) {
        case "CatmullRom":
            return `The curve goes from ${low} to ${high}: the first and the last row only bend it.`;
        case "Linear":
            return `The curve goes from ${low} to ${high}: the first and the last row are not on it.`;
        case "Bspline":
            return `The curve goes past its rows, and not through them: its ends lie near ${low} and ${high}.`;
        default:
            return "";
    }
}

// What is to be done where a drawn curve turns back between rows in order.
function adviceOf(replies, lines) {
    const falls = replies.some((reply) => reply.startsWith("falls\t"));
    if (!falls || !/^(CatmullRom|Linear)$/.test(lines[0])) return "";
    return "A curve that cannot turn back between rows is Monotone: put that name into line 1. " +
        "It goes through every row, the first and the last too.";
}

// The one sentence on top, of a sheet that is not fine.
const EMPTY = "The sheet is empty: its first line is to be a basis, Monotone above all.";
function faultsText(faults) {
    const [first] = faults;
    if (first.text === EMPTY) return EMPTY;
    if (faults.length === 1) return `The sheet is not fine: ${first.text}`;
    return `The sheet is not fine: ${faults.length} faults, the first: ${first.text}`;
}

// ---- the place of a depth
function placeText(asked, reply, times, span, ends) {
    const [word, depth, where, before, after] = reply.split("\t");
    const clocked = span !== null && times.dusk !== null;
    const clock = (s) => (clocked ? `, at ${clockText(times.dusk + s)}` : "");
    const end = (decimal, s) => mm(decimal) + (clocked ? ` at ${clockText(times.dusk + s)}` : "");
    switch (word) {
        case "before":
            return `${mm(depth)} lies before the start of the curve, ${end(ends.first, 0)}.`;
        case "start":
            return `${mm(depth)} is the start of the curve${clock(0)}${span === null ? "" : `; ${leftText(0, times, span)}`}.`;
        case "end":
            return `${mm(depth)} is the end of the curve${clock(span)}; nothing is left.`;
        case "beyond":
            return `${mm(depth)} lies beyond the end of the curve, ${end(ends.last, span)}.`;
        case "reached":
            return reachedText(mm(depth), where, rowsAround(before, after), times, span);
        case "refused":
            if (depth !== "11") return `${mm(asked)} is refused, by ${depth}.`;
            return `${mm(asked)} lies in a gap between two segments of the curve, and so at no place of it: ask for a depth beside it.`;
        default:
            return "The curve ends at the depth at which it starts, so that no depth says how far a job has come.";
    }
}
const rowsAround = (before, after) => (after ? `between ${before} and ${after}` : `in the segment that begins at ${before}`);
// by the clock to the minute, as it is told
const leftText = (second, { dusk }, span) => `${longText(minutesOf((dusk || 0) + span) - minutesOf((dusk || 0) + second))} are left`;
function reachedText(depth, where, rows, times, span) {
    if (span === null) return `${depth} is reached ${rows}, at ${where} of the way from the start to the end.`;
    const second = Number(where);
    const after = `${plural(second, "second", "seconds")} after ${times.dusk === null ? "the start" : clockText(times.dusk)}`;
    const at = times.dusk === null ? "" : `at ${clockText(times.dusk + second)}, `;
    return `${depth} is reached ${at}${after}, ${rows}; ${leftText(second, times, span)}.`;
}

const DEPTH = /^-?[0-9]{1,9}(\.[0-9]{1,3})?$/;
const noDepth = (text) => `\u201c${text}\u201d is no depth: digits, at most 9, and behind a point at most 3.`;
