// The proved programs: bytes in, bytes out. A module imports read, write and the number of an error, which neither of the two makes here;
// it is made anew for each run.
const compiled = new Map();

function bytesOf(base64) {
    return Uint8Array.from(atob(base64), (c) => c.charCodeAt(0));
}

// run(MODULE BYTES by name, INPUT): what the program writes to standard output
function runProgram(name, modules, input) {
    if (!compiled.has(name)) compiled.set(name, new WebAssembly.Module(modules[name]));
    const pieces = [];
    let at = 0;
    let memory;
    const read = (file, pointer, room) => {
        const n = Math.min(Number(room), input.length - at);
        new Uint8Array(memory.buffer, pointer, n).set(input.subarray(at, at + n));
        at += n;
        return BigInt(n);
    };
    const write = (file, pointer, length) => {
        const piece = new Uint8Array(memory.buffer, pointer, Number(length)).slice();
        if (file !== 1) throw new Error(`${name}: ${new TextDecoder().decode(piece)}`);
        pieces.push(piece);
        return length;
    };
    const instance = new WebAssembly.Instance(compiled.get(name), { env: { read, write, rattle_errno: () => 0 } });
    memory = instance.exports.memory;
    instance.exports.main();
    const output = new Uint8Array(pieces.reduce((n, piece) => n + piece.length, 0));
    let end = 0;
    for (const piece of pieces) {
        output.set(piece, end);
        end += piece.length;
    }
    return output;
}

// lines in, lines out
function askProgram(name, modules, lines) {
    const input = new TextEncoder().encode(lines.map((line) => line + "\n").join(""));
    const lines_out = new TextDecoder().decode(runProgram(name, modules, input)).split("\n");
    if (lines_out[lines_out.length - 1] === "") lines_out.pop();
    return lines_out;
}

if (typeof module !== "undefined") module.exports = { runProgram, askProgram };
