// test.js ROOT SHOTS: page/night.html in headless Chromium, opened from the disk: what it says of good and bad sheets is read, and held to
// what bin/night says of them (runs/night) and to the texts below; it is timed, printed and photographed. Status 1 where one is missed.
const fs = require("fs");
const path = require("path");
const { browse } = require("./browser.js");
const [root, shots] = process.argv.slice(2);
const file = (...names) => path.join(root, ...names);
const text = (...names) => fs.readFileSync(file(...names), "utf8");
fs.rmSync(shots, { recursive: true, force: true });
fs.mkdirSync(shots, { recursive: true });

let tests = 0;
let wrong = 0;
function same(name, got, want) {
    tests += 1;
    if (got === want) return;
    wrong += 1;
    console.log(`page: ${name}\n    wanted: ${JSON.stringify(want)}\n    got:    ${JSON.stringify(got)}`);
}
const holds = (name, good, told) => same(name, good ? "holds" : `does not hold: ${told}`, "holds");

const NIGHT = text("examples", "night.sheet");
const MONOTONE = text("examples", "night.monotone.sheet");
const DOUBLE = text("runs", "night", "double_hour.sheet");
const MANY = ["Linear", ...Array.from({ length: 4096 }, (_, i) => `row ${i}\t${i}`), ""].join("\n");
const two = (n) => String(n).padStart(2, "0");
const quarter = (i) => `${two(Math.floor(i / 4))}:${two((i % 4) * 15)}`;
const WHOLE_DAY = ["Monotone", ...Array.from({ length: 97 }, (_, i) => `${quarter(i)}\t${i * 2}`), ""].join("\n");
const FORTY = ["Monotone", ...Array.from({ length: 40 }, (_, i) => `a long label ${i}\t${i * 1000 + 0.125}`), ""].join("\n");
const FAULTS = ["Linear", ...Array.from({ length: 40 }, (_, i) => `a long label\t${(i % 3) + i}`), ""].join("\n");

// ---- hands and eyes
const element = (id) => `document.getElementById("${id}")`;
const said = (page, id) => page.ask(`${element(id)}.textContent`);
const valued = (page, id) => page.ask(`${element(id)}.value`);
const wait = (page, ms) => page.ask(`new Promise((resolve) => setTimeout(resolve, ${ms}))`);
const typeInto = (page, where, value) => page.ask(`{
    document.body.dataset.updated = 0;
    const field = ${where};
    field.value = ${JSON.stringify(value)};
    field.dispatchEvent(new Event("input", { bubbles: true }));
}`);
const type = (page, sheet, id = "this") => typeInto(page, `document.querySelector("#${id} textarea")`, sheet);
const fill = (page, id, value) => typeInto(page, element(id), value);
const press = (page, key, code) => page.call("Input.dispatchKeyEvent", { type: "keyDown", key, code: key, windowsVirtualKeyCode: code });
// a file dropped on a sheet, as from a folder
async function drop(page, bytes, name, id = "this") {
    await page.ask(`{
        ${element("said")}.textContent = "";
        const bytes = new Uint8Array(${JSON.stringify([...bytes])});
        const file = new File([bytes], ${JSON.stringify(name)}, { lastModified: Date.UTC(2026, 9, 24, 12) });
        const dataTransfer = new DataTransfer();
        dataTransfer.items.add(file);
        const drop = new DragEvent("drop", { dataTransfer, bubbles: true, cancelable: true });
        document.querySelector("#${id} textarea").dispatchEvent(drop);
    }`);
    await page.ask(`new Promise((resolve) => {
        const look = () => (${element("said")}.textContent.startsWith(${JSON.stringify(name)}) ? resolve() : setTimeout(look, 20));
        look();
    })`);
}
const faults = (page) => page.ask(`[...document.querySelectorAll("#faults li")].map((li) => li.textContent)`);
const bars = async (page, id, kind) => {
    const styles = await page.ask(`[...document.querySelectorAll("#${id} .bar.${kind}")].map((bar) => bar.getAttribute("style"))`);
    return styles.map((style) => Number(/\* (\d+)/.exec(style)[1]) + 1).sort((a, b) => a - b).join(" ");
};
// the signs that bin/night uses
const plainly = (s) => s.replace(/[\u201c\u201d]/g, "`").replace(/\u2212/g, "-").replace(/\u2019/g, "'");

// ---- what bin/night says of a sheet, as the page says it
async function asNight(page) {
    for (const words of fs.readdirSync(file("runs", "night")).filter((name) => name.endsWith(".args"))) {
        const sheet = text("runs", "night", words).trim();
        if (!/^(runs|examples)\/\S+$/.test(sheet) || !fs.existsSync(file(sheet)) || fs.statSync(file(sheet)).isDirectory()) continue;
        const lines = text("runs", "night", words.replace("args", "out")).trimEnd().split("\n");
        if (lines.pop() === "status 2") continue;
        const notes = [];
        while (lines[0].startsWith("night: ")) notes.push(lines.shift().split(": ").slice(2).join(": "));
        await drop(page, fs.readFileSync(file(sheet)), path.basename(sheet));
        const listed = await faults(page);
        const shown = listed.length > 0 ? listed : [await said(page, "verdict")];
        for (const id of ["rows", "advice"]) shown.push(await said(page, id));
        const bare = (s) => plainly(s).replace(/^The sheet(, |: | is not fine: )/, "").toLowerCase();
        const told = lines.filter((line) => line !== "Nothing is answered of this sheet.");
        const wanted = told.map((line) => line.replace(sheet, "The sheet"));
        same(`${sheet}: sentences`, shown.filter((s) => s).map(bare).join("\n"), wanted.map(bare).join("\n"));
        same(`${sheet}: notes`, bare(await said(page, "notes")).replace(/\.$/, ""), notes.join("; ").toLowerCase());
    }
}

// ---- the places that bin/night tells: without the depth that is left, and by the clock with the rows around it
const FIND = /^((?:runs|examples)\/\S+) find ((?:-?[0-9.]+ ?)+)(--.*)?$/;
async function asFound(page) {
    for (const words of fs.readdirSync(file("runs", "night")).filter((name) => /^find.*\.args$/.test(name))) {
        const [, sheet, depths, options] = FIND.exec(text("runs", "night", words).trim()) || [];
        const lines = text("runs", "night", words.replace("args", "out")).trimEnd().split("\n");
        if (!sheet || lines.pop() !== "status 0") continue;
        while (lines[0].startsWith("night: ")) lines.shift();
        const option = (name) => (new RegExp(`--${name}[ =](\\S+)`).exec(options || "") || [])[1] || "";
        await drop(page, fs.readFileSync(file(sheet)), path.basename(sheet));
        for (const id of ["dusk", "row"]) await fill(page, id, option(id));
        for (const [i, depth] of depths.trim().split(" ").entries()) {
            await fill(page, "depth", depth);
            const place = plainly(await said(page, "place")).replace(/( reached at .*), (between|in the segment)[^;]*;/, "$1;");
            const night = lines[i].replace(/; [0-9.]+ mm and /, "; ").replace(/; [0-9.]+ mm is left\./, ".");
            same(`${sheet}: place of ${depth}`, place, night);
        }
    }
    for (const id of ["dusk", "row"]) await fill(page, id, "");
}

// ---- a night, and depths on it
const REACHED = "7.3 mm is reached at 22:04, 14,620 seconds after 18:00, between 22h and 23h; 2 h 56 min are left.";
const PLACES = [
    ["-2", "\u22122 mm lies before the start of the curve, 0 mm at 18:00."],
    ["0", "0 mm is the start of the curve, at 18:00; 7 h are left."],
    ["13.5", "13.5 mm is the end of the curve, at 01:00; nothing is left."],
    ["20", "20 mm lies beyond the end of the curve, 13.5 mm at 01:00."],
    ["7,3", REACHED],
    ["7.3mm", "\u201c7.3mm\u201d is no depth: digits, at most 9, and behind a point at most 3."],
];
// the listing for the box of a sheet whose rows are all knots, an hour apart
function listing(sheet) {
    const [basis, ...rows] = sheet.trim().split("\n");
    const pattern = Buffer.alloc(8);
    const knot = (row) => pattern.writeDoubleBE(Number(row.split("\t")[1])) && `knot\t${pattern.toString("hex").toUpperCase()}`;
    return [`curve\t${basis}`, `span\t${3600 * (rows.length - 3)}`, ...rows.map(knot), "ends\tcurve", ""].join("\n");
}
async function night(page) {
    await type(page, NIGHT);
    await fill(page, "depth", "7.3");
    await fill(page, "date", "2026-10-24");
    const verdict = "The sheet is fine: CatmullRom, 10 depths, from 0 mm at 18:00 to 13.5 mm at 01:00. The curve never turns back.";
    same("night: verdict", await said(page, "verdict"), verdict);
    same("night: place", await said(page, "place"), REACHED);
    same("night: day", await said(page, "day"), "\u00b7 Saturday, 24 October 2026");
    const rows = await page.ask(`[...document.querySelectorAll("#depths tbody tr")].map((row) => row.innerText.replace(/\\s+/g, " "))`);
    const shown = `${rows.length}: ${rows[0]}, ${rows[16]}, ${rows[28]}`;
    same("night: depths by the clock", shown, "29: 18:00 0.000, 22:00 7.125, 01:00 13.500");
    same("night: listing", await said(page, "listing"), listing(NIGHT));
    await page.shot("night.png");
    for (const [depth, place] of PLACES) {
        await fill(page, "depth", depth);
        same(`night: ${depth}`, await said(page, "place"), place);
    }
    await type(page, MONOTONE);
    same("monotone: listing", await said(page, "listing"), text("runs", "night", "box_monotone.out").replace("status 0\n", ""));
}

// ---- sheets that are not fine
async function bad(page) {
    await type(page, DOUBLE);
    const first = "in the segment that begins at line 10 (2h, 10) the drawn curve turns back.";
    same("double hour: verdict", await said(page, "verdict"), `The sheet is not fine: 2 faults, the first: ${first}`);
    same("double hour: second fault", (await faults(page))[1], "Line 11 (2h) has the label of line 10 again.");
    same("double hour: red lines", await bars(page, "this", "bad"), "10 11");
    same("double hour: no listing", await said(page, "listing"), "");
    for (const id of ["copy-listing", "save-listing", "save-picture", "slide"]) {
        same(`double hour: ${id} is off`, await page.ask(`${element(id)}.disabled`), true);
    }
    same("double hour: place", await said(page, "place"), "Nothing is answered of a sheet that is not fine.");
    await page.shot("double_hour.png");
    await type(page, text("runs", "night", "overshoot.sheet"));
    holds("overshoot: not fine", (await said(page, "verdict")).startsWith("The sheet is not fine: "), await said(page, "verdict"));
    await page.shot("overshoot.png");
    await type(page, "monotone\n18h\t0\n19h\t1\n");
    same("bad basis: red lines", await bars(page, "this", "bad"), "1");
    await page.shot("bad_basis.png");
    await type(page, "");
    same("empty: verdict", await said(page, "verdict"), "The sheet is empty: its first line is to be a basis, Monotone above all.");
    await page.shot("empty.png");
    await type(page, "Monotone\n18h\t0\n19h\t1\nask\ntable\n");
    const asks = "The sheet is not fine: it has a line \u201cask\u201d: a sheet has no questions in it.";
    same("a sheet that asks", await said(page, "verdict"), asks);
}

// ---- a spreadsheet's file; one that is no text; labels that are no clock times
async function files(page) {
    await drop(page, fs.readFileSync(file("runs", "night", "semicolons.csv")), "2025-10-25.csv");
    const verdict = "The sheet is fine: Monotone, 4 depths, from 0 mm at 18:00 to 4 mm at 21:00. The curve never turns back.";
    same("semicolons: verdict", await said(page, "verdict"), verdict);
    same("semicolons: the date in the file's name", await valued(page, "date"), "2025-10-25");
    await page.shot("semicolons.png");
    await drop(page, Buffer.from("M\0o\0", "latin1"), "utf16.txt");
    const why = "it has bytes of zero in it, as a text in UTF-16 has: save it as UTF-8";
    same("UTF-16", await said(page, "said"), `utf16.txt is not read: ${why}.`);
    await drop(page, Buffer.from("Monotone\r\nfr\xfch\t0\r\nsp\xe4t\t1\r\n", "latin1"), "western.txt");
    same("Windows-1252", (await page.ask(`document.querySelector("#this textarea").value`)), "Monotone\nfr\u00fch\t0\nsp\u00e4t\t1\n");
    await drop(page, Buffer.from("PK\x03\x04", "latin1"), "night.xlsx");
    const own = "night.xlsx is not read: it is a spreadsheet\u2019s own file: save it as text or CSV.";
    same("a spreadsheet's own file", await said(page, "said"), own);
    await drop(page, Buffer.from("Monotone\r18:00;0\r19:00;1,5\r"), "returns.csv");
    const notes = "Carriage returns taken for line ends; a semicolon taken for the tab in 2 lines; decimal commas taken for points";
    same("carriage returns", (await said(page, "notes")).split(" (")[0], notes);
    await type(page, "Monotone\nfirst\t0\nsecond\t1\nthird\t3\n");
    await fill(page, "depth", "2");
    const place = "2 mm is reached between second and third, at 0.764658 of the way from the start to the end.";
    same("words: place", await said(page, "place"), place);
    for (const [id, value] of [["row", "30m"], ["dusk", "18:30"]]) await fill(page, id, value);
    const timed = "2 mm is reached at 19:16, 2,752 seconds after 18:30, between second and third; 14 min are left.";
    same("words, with times: place", await said(page, "place"), timed);
    await fill(page, "row", "20h");
    same("words, too long a night", await said(page, "time-notes"), "A row of 20h makes a night of no second, or of more than 24 hours.");
    for (const id of ["row", "dusk"]) await fill(page, id, "");
    await fill(page, "date", "2026-10-24");
}

// ---- last season's sheet; a link that keeps all; files that are saved
async function season(page) {
    await type(page, NIGHT);
    await fill(page, "depth", "7.3");
    await type(page, text("runs", "night", "last_season.sheet"), "last");
    const counted = text("runs", "night", "compare.out").split("\n").find((line) => /differences?\.$/.test(line));
    same("season: differences", await said(page, "differ"), counted);
    const rows = await page.ask(`[...document.querySelectorAll("#differences tbody tr")]
        .map((row) => [...row.cells].map((cell) => cell.textContent).join("|"))`);
    same("season: rows", rows.join(" "), "7|22h|7.25 mm|7.125 mm 9|label|0h|24h 11|2h||14 mm");
    same("season: marked lines", `${await bars(page, "this", "differs")}; ${await bars(page, "last", "differs")}`, "7 9 11; 7 9");
    await page.shot("season.png");
}
async function kept(browser, page) {
    await wait(page, 600);
    const again = await browser.page();
    await again.go(await page.ask("location.href"));
    for (const id of ["verdict", "place", "differ", "listing", "day"]) same(`link: ${id}`, await said(again, id), await said(page, id));
    await again.close();
    await page.front();
    await page.call("Page.setDownloadBehavior", { behavior: "allow", downloadPath: shots });
    for (const [id, name, what] of [["save", "sheet", NIGHT], ["save-listing", "listing", listing(NIGHT)], ["save-picture", "svg", null]]) {
        await page.ask(`${element(id)}.click()`);
        const saved = path.join(shots, `night-2026-10-24.${name}`);
        for (let i = 0; i < 60 && !fs.existsSync(saved); i++) await wait(page, 100);
        const content = fs.existsSync(saved) ? fs.readFileSync(saved, "utf8") : "no file";
        if (what === null) holds("a picture is saved", content.startsWith("<svg ") && content.endsWith("</svg>"), content.slice(0, 80));
        else same(`saved: ${name}`, content, what);
    }
}

// ---- how long it takes: no frame is lost while the slider moves
const FRAME = 1000 / 60;
async function timed(page, name, sheet, row) {
    await type(page, sheet);
    await fill(page, "row", row);
    const whole = Number(await page.ask("document.body.dataset.updated"));
    const times = await page.ask(`(async () => {
        const slide = ${element("slide")}, times = [];
        slide.value = slide.min;
        slide.dispatchEvent(new Event("input"));
        for (let i = 1; i <= 200; i++) {
            slide.value = Number(slide.min) + (Number(slide.max) - Number(slide.min)) * i / 200;
            const began = performance.now();
            slide.dispatchEvent(new Event("input"));
            times.push(performance.now() - began);
            if (i % 10 === 0) await new Promise((resolve) => requestAnimationFrame(resolve));
        }
        return times.sort((a, b) => a - b);
    })()`);
    const [middle, most] = [times[100], times[197]].map((ms) => ms.toFixed(2));
    console.log(`page: ${name}: all anew in ${whole.toFixed(0)} ms; a move of the slider in ${middle} ms, 99 of 100 within ${most} ms`);
    holds(`${name}: a move of the slider takes less than a frame`, times[100] < FRAME, `${middle} ms`);
    await fill(page, "row", "");
}

// ---- one page of A4
const pages = (pdf) => (pdf.toString("latin1").match(/\/Type\s*\/Page\b(?!s)/g) || []).length;
async function printed(page) {
    await type(page, "", "last");
    await fill(page, "depth", "7.3");
    const sheets = { whole_day: WHOLE_DAY, forty: FORTY, faults: FAULTS, many: MANY, double_hour: DOUBLE, night: NIGHT };
    for (const [name, sheet] of Object.entries(sheets)) {
        await type(page, sheet);
        await fill(page, "row", name === "forty" ? "36m" : "");
        same(`print: ${name} is one page`, pages(await page.printed(`${name}.pdf`)), 1);
    }
    await page.call("Emulation.setEmulatedMedia", { media: "print" });
    await page.size(794, 1123);
    await page.shot("print.png");
    same("print: the day stands on it", (await page.ask("document.body.innerText")).includes("Saturday, 24 October 2026"), true);
    await page.call("Emulation.setEmulatedMedia", { media: "" });
    await page.size(1200, 900);
}

// ---- names for a screen reader, keys, the modules' sums; a phone, dark; and nothing is fetched
const CONTROL = /^(textbox|button|slider|combobox|Date|image)$/;
async function manners(page) {
    const { nodes } = await page.call("Accessibility.getFullAXTree");
    const controls = nodes.filter((node) => !node.ignored && CONTROL.test(node.role ? node.role.value : ""));
    const nameless = controls.filter((node) => !node.name || !node.name.value).map((node) => node.role.value);
    holds("every control has a name", controls.length >= 15 && nameless.length === 0, `of ${controls.length}: ${nameless.join(" ")}`);
    await page.ask("document.activeElement.blur()");
    const reached = [];
    for (let i = 0; i < 20; i++) {
        await press(page, "Tab", 9);
        reached.push(await page.ask("document.activeElement.id || document.activeElement.tagName"));
    }
    for (const id of ["date", "dusk", "row", "open", "save", "link", "print", "example", "depth", "slide"]) {
        holds(`the keyboard reaches ${id}`, reached.includes(id), reached.join(" "));
    }
    await page.ask(`${element("slide")}.focus()`);
    const before = await said(page, "place");
    await press(page, "ArrowRight", 39);
    holds("the slider moves by keys", (await said(page, "place")) !== before, before);
    await wait(page, 300);
    const sums = await page.ask(`[...${element("sums")}.rows].map((row) => row.cells[3].textContent)`);
    holds("the modules' sums are those named", sums.length > 0 && sums.every((sum) => sum === "the same"), sums.join());
}
async function screens(browser, page) {
    const address = await page.ask("location.href");
    for (const [name, width, dark] of [["dark", 1200, true], ["phone", 375, false], ["phone_dark", 375, true]]) {
        const other = await browser.page();
        await other.size(width, 800, width < 600);
        await other.media([{ name: "prefers-color-scheme", value: dark ? "dark" : "light" }]);
        await other.go(address);
        const wide = await other.ask("document.documentElement.scrollWidth");
        holds(`${name}: nothing is wider than the screen`, wide <= width, `${wide} pixels`);
        await other.shot(`${name}.png`);
        await other.close();
    }
    const asked = browser.heard.filter((m) => m.method === "Network.requestWillBeSent").map((m) => m.params.request.url);
    holds("nothing is fetched", asked.every((url) => /^(file:|about:|blob:|data:)/.test(url)), asked.join(" "));
    const isError = (m) => m.method === "Runtime.exceptionThrown" || (m.method === "Log.entryAdded" && m.params.entry.level === "error");
    const loud = browser.heard.filter(isError);
    same("no error is logged", loud.map((m) => JSON.stringify(m.params)).join("\n"), "");
}

async function main() {
    const browser = await browse(process.env.CHROMIUM || "chromium", shots);
    try {
        const page = await browser.page();
        await page.go("file://" + file("page", "night.html"));
        await page.shot("first.png");
        await asNight(page);
        await asFound(page);
        await night(page);
        await bad(page);
        await files(page);
        await season(page);
        await kept(browser, page);
        await type(page, "", "last");
        await timed(page, "a night of ten rows", NIGHT, "");
        await timed(page, "4,096 rows", MANY, "20s");
        await printed(page);
        await manners(page);
        await screens(browser, page);
    } finally {
        await browser.end();
    }
    console.log(`page: ${tests} tests in Chromium, ${wrong} missed; screenshots in ${shots}`);
    process.exit(wrong === 0 ? 0 : 1);
}
main().catch((error) => {
    console.log(`page: ${error.stack}`);
    process.exit(1);
});
