// What is typed, kept: behind the # of the address, and as files; and files read.
const FIELDS = ["date", "dusk", "row", "depth"];

function addressOf(sheet, last) {
    const held = new URLSearchParams({ sheet: sheet.text });
    for (const id of FIELDS) if ($(id).value !== "") held.set(id, $(id).value);
    if (last.text !== "") held.set("last", last.text);
    return location.href.replace(/#.*/, "") + "#" + held;
}
// from the address; false where there is nothing
function recall(sheet, last) {
    const held = new URLSearchParams(location.hash.slice(1));
    if (!held.has("sheet")) return false;
    sheet.put(held.get("sheet"));
    last.put(held.get("last") || "");
    for (const id of FIELDS) $(id).value = held.get(id) || "";
    return true;
}

let remembering = 0;
function remember(sheet, last) {
    clearTimeout(remembering);
    remembering = setTimeout(() => {
        try {
            history.replaceState(null, "", addressOf(sheet, last));
        } catch {
            // a browser that lets no page of the disk do so: the link can still be copied
        }
    }, 400);
}

function saveFile(name, text, type) {
    const link = make("a", { href: URL.createObjectURL(new Blob([text], { type })), download: name });
    link.click();
    setTimeout(() => URL.revokeObjectURL(link.href), 10000);
}
// copies, and says in words whether it did
async function copied(text, what) {
    try {
        await navigator.clipboard.writeText(text);
        return `${what} is copied.`;
    } catch {
        return `The browser lets nothing be copied. ${what} can be saved.`;
    }
}

const dayOf = (time) => {
    const d = new Date(time);
    return [d.getFullYear(), d.getMonth() + 1, d.getDate()].map((n) => String(n).padStart(2, "0")).join("-");
};
// a file's date: the one in its name, else that of its last change
const dateOf = (file) => (/\d{4}-\d\d-\d\d/.exec(file.name) || [dayOf(file.lastModified)])[0];

// A file's bytes as text, or why they are none: UTF-8, or where they are not, as Windows writes western texts.
function textOf(bytes) {
    if (bytes.length > 1000000) return { why: "it has more than a million bytes, and is no sheet" };
    if (bytes[0] === 80 && bytes[1] === 75) return { why: "it is a spreadsheet\u2019s own file: save it as text or CSV" };
    if (bytes.includes(0)) return { why: "it has bytes of zero in it, as a text in UTF-16 has: save it as UTF-8" };
    const notes = [];
    let text;
    try {
        text = new TextDecoder("utf-8", { fatal: true, ignoreBOM: true }).decode(bytes);
    } catch {
        text = new TextDecoder("windows-1252").decode(bytes);
        notes.push("letters read as Windows-1252 has them, since the file is no UTF-8");
    }
    if (text.includes("\r") && !text.includes("\n")) {
        text = text.replace(/\r/g, "\n");
        notes.push("carriage returns taken for line ends");
    }
    return { text, notes };
}
