// replay.js ROOT MODULES NAME..: what is stored, over the modules: each run of runs/NAME and runs/NAME.cases, byte for byte, and each
// answer of crates/test_replay/stdin through the library's exports, every reply and every bit (README.md of that crate says what a
// line holds).
// Status 1 where one differs.
const fs = require("fs");
const path = require("path");
const { runProgram } = require("./programs.js");
const [root, made, ...names] = process.argv.slice(2);
const modules = Object.fromEntries(names.map((name) => [name, fs.readFileSync(path.join(made, `${name}.wasm`))]));
let wrong = 0;
const miss = (text) => {
    wrong += 1;
    if (wrong <= 20) console.log(`page: ${text}`);
};

// ---- the programs
const LETTERS = { n: "\n", t: "\t", r: "\r", "\\": "\\" };
const byteOf = (digits) => String.fromCharCode(digits[0] === "x" ? parseInt(digits.slice(1), 16) : parseInt(digits, 8));
// a text as printf writes it
function printf(text) {
    const plain = text.replace(/\\(n|t|r|\\|[0-7]{1,3}|x[0-9a-fA-F]{1,2})/g, (_, c) => LETTERS[c] ?? byteOf(c));
    return Buffer.from(plain.replace(/%%/g, "%"), "latin1");
}
function* stored(name) {
    const folder = path.join(root, "runs", name);
    for (const file of fs.readdirSync(folder).filter((file) => file.endsWith(".in"))) {
        yield [file, fs.readFileSync(path.join(folder, file)), fs.readFileSync(path.join(folder, file.replace(/in$/, "out")))];
    }
    const cases = path.join(root, "runs", `${name}.cases`);
    if (!fs.existsSync(cases)) return;
    for (const line of fs.readFileSync(cases, "latin1").split("\n").filter((line) => line !== "" && !line.startsWith("#"))) {
        const at = line.indexOf(" => ");
        yield [line, printf(line.slice(0, at)), printf(line.slice(at + 4))];
    }
}
let runs = 0;
for (const name of names) {
    for (const [what, input, output] of stored(name)) {
        runs += 1;
        if (!output.equals(Buffer.from(runProgram(name, modules, input)))) miss(`${name}, ${what}: it prints something else`);
    }
}
console.log(`page: ${runs} stored runs of ${names.join(", ")} over the modules`);

// ---- the library
const WORDS = 64;
const { exports: library } = new WebAssembly.Instance(new WebAssembly.Module(fs.readFileSync(path.join(made, "simmerstoat.wasm"))), {});
const call = (name, ...words) => library[`simmerstoat_${name}`](...words) >>> 0;
// behind the stack: the table, and what a call writes
const base = Number(library.__heap_base.value);
const TABLE = base;
const [VALUE, PLACE, WHOLE, WRITTEN, HANDED, HOLDS, JOB, OUT] = [0, 8, 40, 72, 80, 88, 96, 104].map((at) => base + 4200 * 8 + at);
const END = OUT + WORDS * 8;
if (library.memory.buffer.byteLength < END) library.memory.grow(Math.ceil((END - library.memory.buffer.byteLength) / 65536));
const view = new DataView(library.memory.buffer);
const u64 = (at) => view.getBigUint64(at, true);
const scratch = new DataView(new ArrayBuffer(8));
const double = (bits) => {
    scratch.setBigUint64(0, bits);
    return scratch.getFloat64(0);
};

let w = [];
let knots = 0n;
let reply = 0;
const n = (i) => Number(w[i]);
const INVERT = {
    i: () => call("spline_inverse_with", n(0), double(w[1]), TABLE, knots, n(2), n(3), double(w[4]), PLACE, WHOLE),
    j: () => call("spline_inverse_segment_with", n(0), double(w[1]), TABLE, knots, n(3), double(w[4]), PLACE, WHOLE),
    m: () => call("spline_inverse_by", n(0), double(w[1]), TABLE, knots, n(2), n(3), double(w[4]), n(13), n(14), PLACE, WHOLE),
    n: () => call("spline_inverse_segment_by", n(0), double(w[1]), TABLE, knots, n(3), double(w[4]), n(14), PLACE, WHOLE),
    o: () => call("spline_inverse_steady", n(0), double(w[1]), TABLE, knots, n(2), PLACE, WHOLE),
    p: () => call("spline_inverse_segment_steady", n(0), double(w[1]), TABLE, knots, PLACE, WHOLE),
    w: () => call("table_spline_inverse", n(0), n(15), double(w[1]), TABLE, knots, n(2), PLACE, WHOLE),
    x: () => call("table_spline_inverse_by", n(0), n(15), double(w[1]), TABLE, knots, n(2), n(3), double(w[4]), n(13), n(14), PLACE, WHOLE),
    y: () => call("table_spline_inverse_steady", n(0), n(15), double(w[1]), TABLE, knots, n(2), PLACE, WHOLE),
    h: () => {
        const [times, depths] = [[TABLE, w[14]], [TABLE + 8 * n(14), knots - w[14]]];
        return call("depth_at", n(0), ...times, n(13), ...depths, double(w[1]), n(3), double(w[4]), VALUE, PLACE, WHOLE);
    },
    q: () => call("stopped", n(0), n(15), double(w[1]), TABLE, knots, n(2), JOB, PLACE, WHOLE),
};
const VALUES = {
    v: () => call("spline", n(0), double(w[1]), TABLE, knots, VALUE),
    s: () => call("spline_segment", n(0), double(w[1]), TABLE, knots, VALUE),
    t: () => call("table_spline", n(0), n(4), double(w[1]), TABLE, knots, VALUE),
};
const room = BigInt(WORDS);
const CONVERT = {
    c: () => call("convert_spline", n(0), n(1), TABLE, knots, OUT, room, WRITTEN),
    d: () => {
        view.setBigUint64(WRITTEN, 4n, true);
        return call("convert_segment", n(0), n(1), TABLE, knots, OUT, room);
    },
    e: () => call("convert_spline_strict", n(0), n(1), TABLE, knots, double(w[2]), OUT, room, WRITTEN),
    f: () => call("table_convert_spline", n(0), n(3), n(1), TABLE, knots, OUT, room, HANDED, WRITTEN),
    g: () => call("table_convert_spline_strict", n(0), n(3), n(1), TABLE, knots, double(w[2]), OUT, room, HANDED, WRITTEN),
};
const OFF_CURVE = 11;

function samePlace(fourth) {
    if (reply !== n(5)) return false;
    if (reply === OFF_CURVE) return u64(WHOLE + 16) === w[12];
    if (reply !== 0) return true;
    for (let i = 0; i < 4; i++) if (u64(PLACE + 8 * i) !== w[6 + i]) return false;
    for (let i = 0; i < 3; i++) if (u64(WHOLE + 8 * i) !== w[10 + i]) return false;
    return !fourth || u64(WHOLE + 24) === w[16];
}
function sameOutput(at) {
    if (reply !== n(at)) return false;
    if (reply !== 0) return true;
    const written = u64(WRITTEN);
    if (written !== w[at + 1] || written > room) return false;
    for (let i = 0; i < Number(written); i++) if (u64(OUT + 8 * i) !== w[at + 2 + i]) return false;
    return true;
}
function isEqual(letter) {
    for (let at = VALUE; at < END; at += 8) view.setBigUint64(at, 0n, true);
    if (letter in VALUES) {
        reply = VALUES[letter]();
        return reply === n(2) && (reply !== 0 || u64(VALUE) === w[3]);
    }
    if (letter === "a") {
        reply = call("check_claim", n(0), double(w[1]), w[2], double(w[3]), double(w[4]), TABLE, knots, HOLDS);
        return reply === n(5) && (view.getUint8(HOLDS) === 1) === (w[6] === 1n);
    }
    if (letter in CONVERT) {
        reply = CONVERT[letter]();
        const handed = reply !== 0 || !"fg".includes(letter) || view.getUint32(HANDED, true) === n(3);
        return sameOutput("cd".includes(letter) ? 2 : 4) && handed;
    }
    reply = INVERT[letter]();
    if (letter === "h") return samePlace(true) && (reply !== 0 || u64(VALUE) === w[15]);
    if (letter === "q") return samePlace(true) && view.getUint8(JOB) === n(13);
    return samePlace("wxy".includes(letter));
}

let compared = 0;
for (const line of fs.readFileSync(path.join(root, "crates/test_replay/stdin"), "latin1").split("\n")) {
    if (line === "") continue;
    const [letter, ...words] = line.split(" ");
    w = words.map((word) => BigInt("0x" + word));
    if (letter === "z") knots = w[0];
    if (letter === "k") {
        w.forEach((word, i) => view.setBigUint64(TABLE + 8 * i, word, true));
        knots = BigInt(w.length);
    }
    if (letter === "z" || letter === "k") continue;
    compared += 1;
    if (!isEqual(letter)) miss(`answer ${compared} differs: ${letter} replied ${reply}`);
}
const wanted = Number(fs.readFileSync(path.join(root, "crates/test_replay/stdout"), "latin1").split(" ")[0]);
if (compared !== wanted) miss(`${compared} answers, and ${wanted} are stored`);
console.log(`page: ${compared} stored answers over the library's module, ${wrong === 0 ? "all equal" : `${wrong} misses in all`}`);
process.exit(wrong === 0 ? 0 : 1);
