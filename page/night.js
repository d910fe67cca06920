// The page: what is typed goes to the programs, and their replies to their places.
const bytes = Object.fromEntries(Object.entries(MODULES).map(([name, text]) => [name, bytesOf(text)]));
const run = (name, lines) => askProgram(name, bytes, lines);
const sheet = new Editor($("this"), "The sheet: a basis, then on each line a label, a tab or a semicolon, and a depth", typed);
const last = new Editor($("last"), "Last season\u2019s sheet", typed);
const drawing = new Drawing($("drawing"));
let known = null; // what the programs said of the sheet
let answers = null; // their replies to every depth that the slider can stand at

const put = (id, text) => {
    if ($(id).textContent !== text) $(id).textContent = text;
};
const say = (text) => put("said", text);
const sentence = (notes) => (notes.length === 0 ? "" : upper(notes.join("; ")) + ".");
const cells = (name, texts) => make("tr", {}, ...texts.map((text) => make(name, name === "th" ? { scope: "col" } : {}, text)));
function fillTable(id, heads, rows) {
    $(id).replaceChildren(...(rows.length === 0 ? [] : [
        make("thead", {}, cells("th", heads)),
        make("tbody", {}, ...rows.map((row) => cells("td", row))),
    ]));
}
const NOT_FINE = "Nothing is answered of a sheet that is not fine.";
const NO_ROW = "It wants the time from row to row.";

// ---- the sheet's verdict, and all that follows from it
function update() {
    const began = performance.now();
    try {
        known = study(run, sheet.text, $("dusk").value.trim(), $("row").value.trim(), asked());
        answers = null;
        showVerdict();
        showTimes();
        showDay();
        showCurve();
        showSlider();
        showPlace();
        showDepths();
        showListing();
        showSeason();
        showTyped();
    } catch (error) {
        document.body.className = "is-not-fine";
        put("verdict", `Something went wrong that never should: ${error.message}`);
        throw error;
    }
    remember(sheet, last);
    document.body.dataset.updated = (performance.now() - began).toFixed(1);
}
// at once; but where a sheet is so long that it takes some frames, once the typing rests
let resting = 0;
function typed() {
    say("");
    clearTimeout(resting);
    if (Number(document.body.dataset.updated || 0) < 60) update();
    else resting = setTimeout(update, 250);
}

function showVerdict() {
    document.body.className = known.fine ? "is-fine" : "is-not-fine";
    put("verdict", known.verdict);
    put("rows", known.rows || "");
    put("advice", known.advice);
    put("notes", sentence([...sheet.loaded, ...known.notes]));
    sheet.mark(known.faults.flatMap((fault) => fault.about), "bad");
    sheet.area.setAttribute("aria-invalid", String(!known.fine));
    const listed = known.faults.length < 2 ? [] : known.faults.slice(0, 200);
    $("faults").replaceChildren(...listed.map((fault) => {
        const button = make("button", { type: "button" }, upper(fault.text));
        button.addEventListener("click", () => sheet.go(fault.about[fault.about.length - 1] || 1));
        return make("li", {}, button);
    }));
}

function showTimes() {
    const { told, notes, wrong, dusk, row } = known.times;
    $("dusk").placeholder = told.dusk === null ? "18:00" : clockText(told.dusk);
    $("row").placeholder = told.row === null ? "1h" : passingText(told.row);
    for (const id of ["dusk", "row"]) $(id).setAttribute("aria-invalid", String(Boolean(wrong[id])));
    const missing = [];
    if (known.fine && row === null) missing.push("the labels are no clock times that are evenly apart: say the time from row to row");
    if (known.fine && row !== null && dusk === null) missing.push("the labels tell no clock time: say when dusk is");
    put("time-notes", sentence([...notes, ...missing]));
}

function showDay() {
    const date = $("date").value;
    const words = { weekday: "long", day: "numeric", month: "long", year: "numeric" };
    put("day", date ? "\u00b7 " + new Date(date + "T12:00:00").toLocaleDateString("en-GB", words) : "");
    document.title = `A night\u2019s watering${date ? " " + date : ""}`;
}

// What is drawn: the listing; of a sheet that is not fine what bin/sheet makes of it, so that one sees where it turns.
function drawable() {
    if (known.fine) return known.listing;
    if (known.lines.includes("ask") || known.lines.length < 5) return null;
    const listing = run("sheet", known.lines);
    const { first, last, step } = rowsOnCurve(known.lines);
    const span = known.times.row === null ? 0 : known.times.row * Math.floor((last - first) / step);
    return listing[0].startsWith("curve\t") ? listingOf(listing, span >= 1 && span <= DAY ? span : null) : null;
}
function showCurve() {
    const listing = drawable();
    const timed = listing !== null && listing.some((line) => line.startsWith("span\t"));
    const dusk = timed ? known.times.dusk : null;
    drawing.draw(run, listing, dusk);
    const { first, last, step } = rowsOnCurve(known.lines);
    const faulty = known.faults.filter((fault) => fault.begins).map((fault) => (fault.begins - 2 - first) / step);
    drawing.redden(faulty, known.lines[0] === "Power" ? (last + 1) / step : (last - first) / step);
    const against = dusk !== null ? "the clock" : timed ? "hours from the start" : "the course of the night";
    if (known.fine) put("drawn", `Depth in mm, from ${mm(known.ends.first)} to ${mm(known.ends.last)}, against ${against}.`);
    else if (listing === null) put("drawn", "No curve is drawn of this sheet.");
    else put("drawn", `Depth in mm against ${against}; drawn only to show what is at fault, for nothing is answered of it.`);
}

// ---- the depth asked
const asked = () => $("depth").value.trim().replace(",", ".").replace(/^\u2212/, "-");

// The slider goes from one end of the curve to the other, in at most 800 steps, each 1, 2 or 5 at a place of the decimal.
function showSlider() {
    const slide = $("slide");
    slide.disabled = $("depth").disabled = !known.fine;
    if (!known.fine) return;
    const [low, high] = [known.ends.first, known.ends.last].sort((a, b) => a - b);
    const steps = [-3, -2, -1, 0, 1, 2, 3, 4, 5, 6, 7].flatMap((place) => [1, 2, 5].map((n) => Number(`${n}e${place}`)));
    slide.min = low;
    slide.max = high;
    slide.step = steps.find((step) => step * 800 >= high - low);
    if ($("depth").value.trim() === "") $("depth").value = known.depth;
    slide.value = asked();
}
// every depth that it can stand at, as the browser counts its steps
function positions() {
    const { min, max, step } = $("slide");
    const probe = make("input", { type: "range", min, max, step });
    probe.value = min;
    const list = [probe.value];
    for (;;) {
        probe.stepUp();
        if (probe.value === list[list.length - 1]) return list;
        list.push(probe.value);
    }
}
// The reply to a depth. Those of the slider come of one run, so that no frame is lost while it moves.
function replyTo(depth, sliding) {
    if (depth === known.depth && known.reply) return known.reply;
    if (sliding && answers === null) {
        const list = positions();
        const replies = findAll(run, known, list);
        answers = new Map(list.map((position, i) => [position, replies[i]]));
    }
    return (answers && answers.get(depth)) || findAll(run, known, [depth])[0];
}

function showPlace(sliding = false) {
    const depth = asked();
    const good = DEPTH.test(depth);
    $("depth").setAttribute("aria-invalid", String(known.fine && !good));
    if (!known.fine || !good) {
        put("place", !known.fine ? NOT_FINE : depth === "" ? "" : noDepth($("depth").value.trim()));
        drawing.point(null);
        return;
    }
    const reply = replyTo(depth, sliding);
    put("place", placeText(depth, reply, known.times, known.span, known.ends));
    $("slide").setAttribute("aria-valuetext", mm(depth));
    const [word, , where] = reply.split("\t");
    const share = { start: 0, end: 1, reached: known.span === null ? Number(where) : Number(where) / known.span }[word];
    drawing.point(share === undefined ? null : share);
}

// ---- the table by the clock, the listing, last season's sheet, and the rows for the printed page
function showDepths() {
    const { depths, times } = known;
    const clock = (s) => (times.dusk === null ? passingText(s) : clockText(times.dusk + s));
    const rows = depths.map(({ second, depth }) => [clock(second), depth.replace("-", "\u2212")]);
    fillTable("depths", [times.dusk === null ? "after" : "at", "mm"], rows);
    columns($("depths").parentElement, rows, [[13, 6], [17, 5]]);
    put("no-depths", rows.length > 0 ? "" : known.fine ? NO_ROW : NOT_FINE);
}

function showListing() {
    const whole = known.fine && known.span !== null;
    for (const id of ["copy-listing", "save-listing"]) $(id).disabled = !whole;
    $("save-picture").disabled = !known.fine;
    put("listing", whole ? known.listing.join("\n") + "\n" : "");
    const span = whole ? `The table as the box reads it, with its span of ${plural(known.span, "second", "seconds")}.` : "";
    put("box-hint", whole ? span : known.fine ? NO_ROW : "A sheet that is not fine has no listing.");
}

function showSeason() {
    const then = last.text.trim() === "" ? null : study(run, last.text, "", "", "");
    const { why, found } = then === null ? { found: [] } : differences(run, then.lines, known.lines);
    const rows = why ? [] : found;
    put("last-notes", then === null ? "" : sentence([...last.loaded, ...then.notes]));
    put("last-verdict", then === null ? "" : then.verdict.replace(/^The sheet/, "Last season\u2019s sheet"));
    const counted = rows.length === 0 ? "No difference." : `${plural(rows.length, "difference", "differences")}.`;
    put("differ", then === null ? "" : why || counted);
    last.mark(then === null ? [] : then.faults.flatMap((fault) => fault.about), "bad");
    const shown = rows.slice(0, 500); // of tables that have little in common, the first ones tell enough
    for (const [editor, study] of [[sheet, known], [last, then]]) {
        editor.mark(shown.map((row) => row.line).filter((line) => line <= study.lines.length), "differs");
    }
    const texts = shown.map((row) => [String(row.line), row.label, row.then, row.now]);
    fillTable("differences", ["line", "", "last season", "this season"], texts);
}

function showTyped() {
    const rows = known.lines.slice(1);
    put("typed-basis", `${known.lines[0] || ""}, ${plural(rows.length, "row", "rows")}`);
    const texts = rows.map((row, i) => [String(i + 2), ...row.split("\t")]);
    const count = columns($("typed"), texts, [[14, 6], [24, 4]]);
    const shown = rows.length > 10 * count ? [] : texts; // more would want a second page
    $("typed").replaceChildren(...shown.map((fields) => make("li", {}, fields.join("\u2002"))));
}
// into how many columns of the printed page rows go: pairs of how long they are at most, and how many; else 3
function columns(element, rows, widths) {
    const longest = Math.max(0, ...rows.map((row) => row.join(" ").length));
    const [, count] = widths.find(([most]) => longest <= most) || [0, 3];
    element.style.setProperty("--columns", count);
    return count;
}

// ---- what is typed, clicked and dropped
for (const id of ["dusk", "row", "date"]) $(id).addEventListener("input", update);
$("depth").addEventListener("input", () => {
    $("slide").value = asked();
    showPlace();
    remember(sheet, last);
});
$("slide").addEventListener("input", () => {
    $("depth").value = $("slide").value;
    showPlace(true);
    remember(sheet, last);
});

async function load(into, file) {
    const { text, notes, why } = textOf(new Uint8Array(await file.arrayBuffer()));
    if (why) {
        say(`${file.name} is not read: ${why}.`);
        return;
    }
    into.put(text, notes);
    if (into === sheet) {
        $("date").value = dateOf(file);
        $("depth").value = "";
    }
    say(`${file.name} is read.`);
    update();
}
let opens = sheet;
for (const [id, into] of [["open", sheet], ["open-last", last]]) {
    $(id).addEventListener("click", () => {
        opens = into;
        $("file").value = "";
        $("file").click();
    });
}
$("file").addEventListener("change", () => $("file").files.length && load(opens, $("file").files[0]));
for (const [target, into] of [[document.body, sheet], [last.root, last]]) {
    target.addEventListener("dragover", (event) => {
        if (![...event.dataTransfer.types].includes("Files")) return;
        event.preventDefault();
        event.stopPropagation();
        into.root.classList.add("dropping");
    });
    target.addEventListener("dragleave", () => into.root.classList.remove("dropping"));
    target.addEventListener("drop", (event) => {
        for (const editor of [sheet, last]) editor.root.classList.remove("dropping");
        if (event.dataTransfer.files.length === 0) return;
        event.preventDefault();
        event.stopPropagation();
        load(into, event.dataTransfer.files[0]);
    });
}

const named = (end) => `night${$("date").value ? "-" + $("date").value : ""}.${end}`;
$("save").addEventListener("click", () => saveFile(named("sheet"), sheet.text, "text/plain"));
$("link").addEventListener("click", async () => say(await copied(addressOf(sheet, last), "The link")));
$("print").addEventListener("click", () => window.print());
$("copy-listing").addEventListener("click", async () => say(await copied($("listing").textContent, "The listing")));
$("save-listing").addEventListener("click", () => saveFile(named("listing"), $("listing").textContent, "text/plain"));
$("save-picture").addEventListener("click", () => {
    const depths = DEPTH.test(asked()) ? [asked()] : [];
    saveFile(named("svg"), pictureOf(run, known.listing, depths), "image/svg+xml");
});
$("example").addEventListener("change", () => {
    const example = EXAMPLES[$("example").value];
    if (!example) return;
    sheet.put(example);
    for (const id of ["dusk", "row", "depth"]) $(id).value = "";
    update();
    say("An example: put your own in its place.");
});
window.addEventListener("hashchange", () => recall(sheet, last) && update());

// ---- the sums of the modules, as they are here
async function showSums() {
    for (const row of $("sums").rows) {
        const digest = new Uint8Array(await crypto.subtle.digest("SHA-256", bytes[row.cells[0].textContent]));
        const sum = [...digest].map((b) => b.toString(16).padStart(2, "0")).join("");
        row.cells[3].textContent = sum === row.cells[2].textContent ? "the same" : "another one!";
    }
}
showSums().catch(() => {}); // where a browser has no sums, none is shown

sheet.area.setAttribute("aria-describedby", "how notes verdict");
if (!recall(sheet, last)) {
    sheet.put(EXAMPLES.monotone);
    $("date").value = dayOf(Date.now());
}
update();
