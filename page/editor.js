// A sheet as it is typed: a text field with its lines numbered, and bars behind the lines that are at fault or differ.
const $ = (id) => document.getElementById(id);
function make(name, attributes, ...inside) {
    const element = document.createElement(name);
    for (const [key, value] of Object.entries(attributes)) element.setAttribute(key, value);
    element.append(...inside);
    return element;
}

class Editor {
    constructor(root, label, changed) {
        this.root = root;
        this.loaded = []; // what was made of a file's text before it stood here
        this.numbers = make("pre", {});
        this.bars = make("div", {});
        this.area = make("textarea", { "aria-label": label, spellcheck: "false", autocapitalize: "off", autocomplete: "off", wrap: "off" });
        root.append(
            make("div", { class: "numbers", "aria-hidden": "true" }, this.numbers),
            make("div", { class: "paper" }, make("div", { class: "bars" }, this.bars), this.area),
        );
        this.area.addEventListener("scroll", () => this.follow());
        this.area.addEventListener("input", () => {
            this.loaded = [];
            this.number();
            changed();
        });
    }
    get text() {
        return this.area.value;
    }
    // Puts a text in. Line ends of Windows and a byte-order mark do not outlive a text field, so that they are told from here on.
    put(text, notes = []) {
        this.loaded = [...notes, ...readSheet(text).notes.filter((note) => /^(a byte-order mark|line ends of Windows)/.test(note))];
        this.area.value = text.replace(/^\uFEFF/, "").replace(/\r\n/g, "\n");
        this.area.scrollTop = 0;
        this.number();
        this.follow();
    }
    number() {
        const count = this.text.split("\n").length;
        if (count === this.count) return;
        this.count = count;
        this.numbers.textContent = Array.from({ length: count }, (_, i) => i + 1).join("\n");
    }
    follow() {
        this.numbers.style.transform = this.bars.style.transform = `translateY(${-this.area.scrollTop}px)`;
    }
    // bars of a kind behind these lines, and behind no others
    mark(lines, kind) {
        const kept = [...this.bars.children].filter((bar) => !bar.classList.contains(kind));
        const place = (line) => `top: calc(var(--edge) + var(--high) * ${line - 1})`;
        this.bars.replaceChildren(...kept, ...[...new Set(lines)].map((line) => make("div", { class: `bar ${kind}`, style: place(line) })));
    }
    go(line) {
        const lines = this.text.split("\n");
        const start = lines.slice(0, line - 1).reduce((n, text) => n + text.length + 1, 0);
        this.area.focus();
        this.area.setSelectionRange(start, start + (lines[line - 1] || "").length);
        this.area.scrollTop = Math.max(0, (line - 4) * parseFloat(getComputedStyle(this.area).lineHeight));
    }
}
