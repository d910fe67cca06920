// The picture that bin/picture draws, and what is marked on it: a place of the drawn curve, and segments that are at fault. Marks are
// placed in units of the picture, along the line that is drawn.
class Drawing {
    constructor(host) {
        this.frame = host.attachShadow({ mode: "open" });
        this.key = null;
    }
    // Draws a listing, unless it stands there already; with a clock time of dusk, hours from dusk are told by the clock.
    draw(run, listing, dusk) {
        const key = listing === null ? "" : [...listing, dusk].join("\n");
        if (key === this.key) return;
        this.key = key;
        this.points = [];
        this.frame.replaceChildren();
        if (listing === null) return;
        const parsed = new DOMParser().parseFromString(pictureOf(run, listing, []), "image/svg+xml").documentElement;
        const picture = document.importNode(parsed, true);
        picture.removeAttribute("width");
        picture.removeAttribute("height");
        this.frame.append(make("style", {}, PICTURE_STYLE), picture);
        inWords(picture, dusk);
        const box = picture.getBBox(); // no more room than is drawn on
        picture.setAttribute("viewBox", [box.x - 60, box.y - 60, box.width + 120, box.height + 120].map(Math.round).join(" "));
        const lines = [...picture.querySelectorAll("polyline.c")].map((line) => line.getAttribute("points"));
        this.points = lines.flatMap((pairs) => pairs.trim().split(/\s+/)).map((pair) => pair.split(",").map(Number));
        const axes = /V([0-9]+)H/.exec(picture.querySelector("path").getAttribute("d"));
        this.floor = axes ? Number(axes[1]) : box.y + box.height;
        const add = (parent, name, attributes) => {
            const element = document.createElementNS(picture.namespaceURI, name);
            for (const [key, value] of Object.entries(attributes)) element.setAttribute(key, value);
            parent.append(element);
            return element;
        };
        this.faulty = add(picture, "path", { class: "faulty" });
        this.mark = add(picture, "g", { class: "mark" });
        add(this.mark, "path", {});
        add(this.mark, "circle", { r: 90 });
    }
    // these segments of so many, in red
    redden(segments, count) {
        if (this.points.length < 2) return;
        const pieces = this.points.length - 1;
        const part = (s) => this.points.slice(Math.floor((s / count) * pieces), Math.ceil(((s + 1) / count) * pieces) + 1);
        this.faulty.setAttribute("d", segments.map((s) => `M${part(s).join("L")}`).join(""));
    }
    // the mark at a share of the way from the curve's start to its end; null for none
    point(share) {
        const { points, mark, floor } = this;
        if (points.length < 2) return;
        mark.style.display = share === null ? "none" : "";
        if (share === null) return;
        const [left, right] = [points[0][0], points[points.length - 1][0]];
        const x = left + (right - left) * share;
        let i = 1;
        while (i < points.length - 1 && points[i][0] < x) i++;
        const [[x0, y0], [x1, y1]] = [points[i - 1], points[i]];
        const y = x1 === x0 ? y1 : y0 + ((y1 - y0) * (x - x0)) / (x1 - x0);
        mark.firstChild.setAttribute("d", `M${left},${y}H${x}V${floor}`);
        mark.lastChild.setAttribute("cx", x);
        mark.lastChild.setAttribute("cy", y);
    }
}

// mm at the depths; and where dusk is known, clock times for the hours from it
function inWords(picture, dusk) {
    for (const text of picture.querySelectorAll("text")) {
        if (text.textContent === "depth") text.textContent = "mm";
        const number = /^-?[0-9.]+$/.test(text.textContent);
        if (number) text.textContent = mm(text.textContent).replace(" mm", "");
        if (dusk === null) continue;
        if (text.textContent === "hours from dusk") text.textContent = "clock";
        if (number && text.classList.contains("t")) text.textContent = clockText(dusk + Math.round(Number(text.textContent) * 3600));
    }
}

const PICTURE_STYLE = `
:host { display: block }
svg { display: block; width: 100%; height: auto; max-height: 32rem }
text { fill: var(--soft) !important }
.mark path { stroke: var(--find); stroke-width: 22; fill: none; stroke-dasharray: 70 50 }
.mark circle { fill: var(--find) }
.faulty { stroke: var(--bad) !important; stroke-width: 60 !important; fill: none; opacity: .8 }
@media (max-width: 46rem) {
    text { font-size: 300px }
    .c, .mark path { stroke-width: 50 !important }
    .k { stroke-width: 170 !important }
    .mark circle { r: 170px }
}
`;
