// The tree drawn level by level: a bar of its blocks in the text's order for each level, with the path of a place highlighted.

const SVG = "http://www.w3.org/2000/svg";
/** Heights: the strip of the text, a kept block, and from one level to the next. */
const STRIP = { top: 22, height: 8 };
const LANE = { top: 62, bar: 26, pitch: 74 };
/** Blocks narrower than this are drawn as the share of each column that is kept and that points. */
const NARROW = 2.5;

function shape(name, attributes, text = "") {
    const made = document.createElementNS(SVG, name);
    for (const [attribute, value] of Object.entries(attributes)) made.setAttribute(attribute, value);
    made.textContent = text;
    return made;
}

class Drawing {
    constructor(svg, onPlace) {
        this.svg = svg;
        svg.addEventListener("click", (event) => {
            if (!this.blocks) return;
            const box = svg.getBoundingClientRect();
            const share = Math.min(1, Math.max(0, (event.clientX - box.left) / box.width));
            onPlace(Math.min(this.length - 1, Math.floor(share * this.length)));
        });
        new ResizeObserver(() => {
            if (this.blocks && Math.abs(svg.clientWidth - this.width) > 1) this.draw();
        }).observe(svg);
    }

    clear() {
        this.blocks = null;
        this.svg.replaceChildren();
    }

    open(tree) {
        this.blocks = new Blocks(tree);
        this.length = tree.textLength;
        this.counts = tree.blocks.map((blocks, level) => this.pointing(level, blocks));
        [this.path, this.place, this.marks] = [[], null, []];
        this.draw();
    }

    /** The number of pointing blocks of a level. */
    pointing(level, blocks) {
        const view = this.blocks.tree.library.view();
        let pointing = 0;
        for (let number = 0; number < blocks; number += 1) pointing += Number(this.blocks.block(level, number, view).points);
        return { blocks, pointing };
    }

    x(place) {
        return this.length === 0 ? 0 : (place / this.length) * this.width;
    }

    y(level) {
        return LANE.top + level * LANE.pitch;
    }

    draw() {
        this.width = Math.max(240, this.svg.clientWidth);
        const height = this.y(this.counts.length - 1) + LANE.bar + 30;
        this.svg.setAttribute("viewBox", `0 0 ${this.width} ${height}`);
        this.svg.replaceChildren(
            shape("rect", { x: 0, y: STRIP.top, width: this.width, height: STRIP.height, rx: 4, class: "strip" }),
        );
        this.counts.forEach((_, level) => this.svg.append(...this.lane(level)));
        this.over = shape("g", {});
        const names = this.counts.map((_, level) => shape("text", { x: 0, y: this.y(level) - 8 }, this.name(level)));
        this.svg.append(this.over, shape("text", { x: 0, y: 13 }, `the text, ${several(this.length, "byte")}`), ...names);
        this.light(this.path, this.place, this.marks);
    }

    name(level) {
        const { blocks, pointing } = this.counts[level];
        return `level ${level}: ${several(blocks, "block")} of ${grouped(this.blocks.fullLength(level))}, ${grouped(pointing)} pointing`;
    }

    lane(level) {
        const { blocks } = this.counts[level];
        const ground = shape("rect", { x: 0, y: this.y(level), width: this.width, height: LANE.bar, class: "ground" });
        if (blocks === 0) return [ground];
        const wide = this.x(this.blocks.fullLength(level)) >= NARROW;
        const [kept, points] = wide ? this.bars(level, blocks) : this.shares(level, blocks);
        return [ground, shape("path", { d: kept, class: "kept" }), shape("path", { d: points, class: "points" })];
    }

    /** A bar for each block: kept ones tall, pointing ones low. */
    bars(level, blocks) {
        const [kept, points] = [[], []];
        for (let number = 0; number < blocks; number += 1) {
            const block = this.blocks.block(level, number);
            const [from, to] = [this.x(block.start), this.x(block.start + block.length)];
            const [top, tall] = block.points ? [this.y(level) + LANE.bar / 2, LANE.bar / 2] : [this.y(level), LANE.bar];
            const width = Math.max(0.8, to - from - 1);
            (block.points ? points : kept).push(`M${from.toFixed(2)} ${top}h${width.toFixed(2)}v${tall}h${(-width).toFixed(2)}z`);
        }
        return [kept.join(""), points.join("")];
    }

    /** For each column the share of its text that is kept, at the bottom, and above it the share that points. */
    shares(level, blocks) {
        const columns = Math.ceil(this.width);
        const [kept, points] = [new Float64Array(columns + 1), new Float64Array(columns + 1)];
        const view = this.blocks.tree.library.view();
        for (let number = 0; number < blocks; number += 1) {
            const block = this.blocks.block(level, number, view);
            const [from, to] = [this.x(block.start), this.x(block.start + block.length)];
            for (let column = Math.floor(from); column < to; column += 1) {
                (block.points ? points : kept)[column] += Math.min(to, column + 1) - Math.max(from, column);
            }
        }
        const bottom = this.y(level) + LANE.bar;
        const bar = (column, below, share) => {
            const tall = Math.min(1, share) * LANE.bar;
            return share < 0.01 ? "" : `M${column} ${(bottom - below * LANE.bar).toFixed(2)}h1v${(-tall).toFixed(2)}h-1z`;
        };
        const all = Array.from({ length: columns }, (_, column) => column);
        return [all.map((column) => bar(column, 0, kept[column])).join(""), all.map((column) => bar(column, kept[column], points[column])).join("")];
    }

    /** Highlights the path of a place, and marks other places in the strip. */
    light(path, place, marks = []) {
        [this.path, this.place, this.marks] = [path, place, marks];
        const columns = new Set();
        for (const mark of marks) columns.add(Math.round(this.x(mark)));
        const ticks = Array.from(columns, (column) => `M${column} ${STRIP.top - 2}v${STRIP.height + 4}`).join("");
        this.over.replaceChildren(shape("path", { d: ticks, class: "mark" }));
        if (path.length === 0) return;
        this.over.append(...path.map((step) => this.litBlock(step)), ...path.map((step, at) => this.litStep(step, path[at - 1])), ...this.litEnds());
    }

    /** The place that a step reaches, in the text. */
    reached(step) {
        return this.x(step.start + step.inside + 0.5);
    }

    litBlock(step) {
        const [from, to] = [this.x(step.start), this.x(step.start + step.length)];
        const [top, tall] = step.points ? [this.y(step.level) + LANE.bar / 2, LANE.bar / 2] : [this.y(step.level), LANE.bar];
        const width = Math.max(4, to - from - 1);
        return shape("rect", { x: Math.min(from, this.width - width), y: top, width, height: tall, rx: 1.5, class: "lit-block" });
    }

    /** A line from the previous step: down to a child, or along the level to the block pointed to. */
    litStep(step, before) {
        const [x, top] = [this.reached(step), this.y(step.level)];
        if (!before) return shape("path", { d: `M${x} ${STRIP.top + STRIP.height}V${top}`, class: "lit-line" });
        const from = this.reached(before);
        if (before.level !== step.level) return shape("path", { d: `M${from} ${this.y(before.level) + LANE.bar}V${top}`, class: "lit-line" });
        const bottom = top + LANE.bar;
        const deep = bottom + 10 + 18 * Math.min(1, Math.abs(from - x) / 300);
        const head = `M${x - 4} ${bottom + 7}L${x} ${bottom}L${x + 4} ${bottom + 7}`;
        return shape("path", { d: `M${from} ${bottom}C${from} ${deep} ${x} ${deep} ${x} ${bottom}${head}`, class: "lit-line points-to" });
    }

    /** The place in the strip, and a dot where each block is entered. */
    litEnds() {
        const dot = (step) => ({ cx: this.reached(step), cy: this.y(step.level) + LANE.bar * 0.75, r: 3.2, class: "lit-dot" });
        const x = this.reached(this.path[0]);
        // to the right of the strip's name, which takes the first columns
        const name = { x: Math.max(x, 270), y: 13, "text-anchor": "end", class: "lit-name" };
        return [
            shape("path", { d: `M${x} ${STRIP.top - 3}v${STRIP.height + 6}`, class: "lit-mark" }),
            shape("text", name, `place ${grouped(this.place)}`),
            ...this.path.map((step) => shape("circle", dot(step))),
        ];
    }
}
