// The list of books, the facts of the open one, and files that are dropped or chosen.

/** Longest text that has a tree. */
const MAX_TEXT = 8388608;

/** Lets the browser show the last message before the work that follows. */
const painted = () => new Promise((done) => setTimeout(done, 30));

class Page {
    constructor(library) {
        this.library = library;
        this.turn = Promise.resolve();
        this.books = GIVEN.books.map(({ tree, ...book }) => ({ ...book, bytes: decoded(tree) }));
        delete GIVEN.books;
        this.drawing = new Drawing(byId("drawing"), (place) => {
            byId("place").value = place;
            byId("place-form").requestSubmit();
        });
        this.questions = new Questions((asked) => this.light(asked));
        byId("licence-day").value = new Date().toISOString().slice(0, 10);
        byId("licence-day").addEventListener("input", () => this.licence());
        byId("printed").addEventListener("input", () => this.compare());
        byId("save").addEventListener("click", () => this.save());
        byId("files").addEventListener("change", (event) => this.take(Array.from(event.target.files)));
        this.dropping();
    }

    /** Files can be dropped anywhere on the page. */
    dropping() {
        const over = (on) => document.body.classList.toggle("dropping", on);
        addEventListener("dragover", (event) => {
            event.preventDefault();
            over(true);
        });
        addEventListener("dragleave", (event) => event.relatedTarget ?? over(false));
        addEventListener("drop", (event) => {
            event.preventDefault();
            over(false);
            this.take(Array.from(event.dataTransfer.files));
        });
    }

    /** Adds files: manifests belong to the trees of their name, the others are added to the list; the last one is opened. */
    async take(files) {
        const read = await Promise.all(files.map(async (file) => ({ name: file.name, bytes: new Uint8Array(await file.arrayBuffer()) })));
        const [manifests, books] = [true, false].map((json) => read.filter(({ name }) => name.endsWith(".tree.json") === json));
        for (const book of books) this.books = [...this.books.filter(({ name }) => name !== book.name), book];
        for (const { name, bytes } of manifests) this.manifest(this.books.find((book) => `${book.name}.json` === name), bytes);
        if (read.length > 0) await this.open(books.at(-1) ?? this.book);
    }

    /** A manifest that is no object, or in which one of these members is no string, is ignored. */
    manifest(book, bytes) {
        if (!book) return;
        const names = ["maker", "edition", "first", "last"];
        try {
            const members = JSON.parse(new TextDecoder("utf-8", { fatal: true }).decode(bytes));
            const wrong = names.find((name) => !["string", "undefined"].includes(typeof members[name]));
            if (wrong) throw new Wrong(`its member '${wrong}' is not a string`);
            for (const name of names) book[name] = members[name];
            book.unused = undefined;
        } catch (error) {
            book.unused = `its manifest is not used: ${error instanceof Wrong ? error.message : "it is not a JSON object"}`;
        }
    }

    /** One book after the other: building and opening take all of the library's memory. */
    open(book) {
        const next = () => this.openNow(book);
        this.turn = this.turn.then(next, next);
        return this.turn;
    }

    /** Opens a tree, or builds that of a book; a refusal shows its number and nothing else. */
    async openNow(book) {
        this.book = book;
        this.shelf();
        this.close();
        byId("name").textContent = book.name;
        document.title = `${book.name}: code book`;
        this.verdict("", "checking …");
        if (book.bytes.length > 200000) await painted();
        try {
            const built = await this.built(book);
            this.tree = new Tree(this.library, book.bytes);
            this.verdict("good", built ? `valid tree, ${built}` : "valid tree");
            this.facts();
        } catch (error) {
            this.close();
            byId("refused").hidden = false;
            this.verdict("bad", error instanceof RangeError ? "this needs more memory than the browser gives" : error.message);
            if (!(error instanceof Refusal || error instanceof RangeError)) throw error;
        }
    }

    /** Removes everything about the previous tree. */
    close() {
        this.tree = null;
        for (const id of ["facts", "answers", "refused", "licence", "save"]) byId(id).hidden = true;
        for (const id of ["figures", "digest", "steps"]) byId(id).replaceChildren();
        for (const id of ["maker", "path-words", "path-sum", "licence-answer", "printed-answer", "tree-digest"]) byId(id).textContent = "";
        byId("printed").value = "";
        this.questions.close();
        this.drawing.clear();
    }

    /** What begins as a tree, or is named as one, is no book. A book's tree is the smallest that the tool's list of settings gives. */
    async built(book) {
        const [layout, ...zeros] = book.bytes.slice(0, 4);
        const begins = zeros.length === 3 && (layout === 1 || layout === 2) && zeros.every((byte) => byte === 0);
        if (begins || book.name.endsWith(".tree")) return book.built;
        if (book.bytes.length > MAX_TEXT) throw new Refusal(1);
        let best = null;
        for (const [at, settings] of GIVEN.settings.entries()) {
            this.verdict("", `building its tree: settings ${at + 1} of ${GIVEN.settings.length}`);
            await painted();
            this.library.free = this.library.start;
            const bytes = this.library.build(book.bytes, settings);
            if (!best || bytes.length < best.length) best = bytes;
        }
        book.built = `built here from ${book.name}, ${several(book.bytes.length, "byte")}`;
        book.name = `${book.name.replace(/\.(txt|csv)$/, "")}.tree`;
        book.bytes = best;
        byId("name").textContent = book.name;
        this.shelf();
        return book.built;
    }

    verdict(kind, words) {
        byId("verdict").className = kind;
        byId("verdict").textContent = words;
    }

    /** The books of this page, to choose from. */
    shelf() {
        const button = (book) => {
            const made = element("button", book.name, { type: "button", "aria-current": book === this.book });
            made.addEventListener("click", () => this.open(book));
            return made;
        };
        byId("shelf").hidden = this.books.length < 2;
        byId("shelf").replaceChildren(...this.books.map(button));
    }

    facts() {
        const { tree, book } = this;
        byId("maker").textContent = [book.maker, book.edition && `edition ${book.edition}`, book.unused].filter(Boolean).join(", ");
        const rows = tree.rows();
        const counted = tree.counted.map(({ byte, total }) => `${shownByte(byte)}: ${several(total, "time")}`);
        const share = tree.textLength === 0 ? "" : `${((100 * tree.length) / tree.textLength).toFixed(1)} % of the text`;
        const figures = [
            ["Text", several(tree.textLength, "byte")],
            ["Rows", rows === null ? "byte 10 is not counted" : grouped(rows)],
            ["Tree", several(tree.length, "byte"), share],
            ["Layout", `${tree.layout}`, tree.layout === 2 ? "with edges" : "without edges"],
            ["Settings", `leaf ${tree.leaf}, arity ${tree.arity}`, `levels ${tree.levels}`],
            ["Counted", counted.join("; ") || "no byte"],
        ];
        byId("figures").replaceChildren(...figures.map((figure) => this.figure(...figure)));
        byId("digest").replaceChildren(...tree.digest.match(/.{32}/g).map((half) => this.parted(half)));
        byId("tree-digest").textContent = this.library.digestText(book.bytes);
        byId("save").hidden = !book.built;
        for (const id of ["facts", "answers"]) byId(id).hidden = false;
        this.licence();
        this.drawing.open(tree);
        this.questions.open(tree);
    }

    /** Half of a digest in four parts, which stay on one line. */
    parted(half) {
        const line = element("span", "");
        line.append(...half.match(/.{8}/g).map((part) => element("span", part)));
        return line;
    }

    figure(name, value, more = "") {
        const pair = element("div", "");
        const description = element("dd", value);
        if (more) description.append(" ", element("small", more));
        pair.append(element("dt", name), description);
        return pair;
    }

    /** Whether the book is open on a day, by the proved call; nothing if it has no licence dates. */
    licence() {
        const { first, last } = this.book;
        if (!this.tree || first === undefined || last === undefined) return;
        byId("licence").hidden = false;
        const output = byId("licence-answer");
        const digits = (day) => day.replace(/^(\d{4})-(\d\d)-(\d\d)$/, "$1$2$3");
        try {
            const { open, left } = this.library.licence(...[first, last, byId("licence-day").value].map(digits));
            const past = left < 0 ? `closed, ${several(-left, "day")} past` : `closed: it opens on ${first}`;
            output.textContent = `${open ? `open, ${several(left, "day")} left` : past} (${first} to ${last})`;
            output.className = open ? "yes" : "no";
        } catch (error) {
            if (!(error instanceof Refusal)) throw error;
            output.textContent = `${error.message}; given: ${first} ${last}`;
            output.className = "no";
        }
    }

    /** Compares the digest that was printed with the book with that of the text. */
    compare() {
        const printed = byId("printed").value.replace(/\s/g, "").toLowerCase();
        const output = byId("printed-answer");
        const same = printed === this.tree?.digest;
        output.className = same ? "yes" : "no";
        if (printed === "") output.textContent = "";
        else if (!/^[0-9a-f]{64}$/.test(printed)) output.textContent = `64 hexadecimal digits; these are ${printed.length} characters`;
        else output.textContent = same ? "the same: this is the printed book" : "another text: this is not the printed book";
    }

    /** Highlights a path, with the number of blocks drawn and the number that the library's call returns. */
    light({ card, words, place, call, entered, marks }) {
        const path = place === null ? [] : this.drawing.blocks.path(place);
        this.drawing.light(path, place, marks);
        for (const section of document.querySelectorAll("[data-card]")) section.classList.toggle("current", section.dataset.card === card);
        byId("path-words").textContent = words;
        const agrees = path.length === entered;
        const figures = `${several(entered, "block")} entered by ${call}, ${path.length} on the path drawn`;
        byId("path-sum").className = agrees ? "yes" : "no";
        byId("path-sum").textContent = agrees ? figures : `${figures}: they differ`;
        byId("steps").replaceChildren(...path.map((step) => this.step(step)));
        byId("drawing").setAttribute("aria-label", `The tree's levels. ${words}: ${several(path.length, "block")} on the path.`);
    }

    step({ level, number, points, link, gap, inside }) {
        const item = element("li", "");
        const leaf = level === this.tree.levels - 1;
        const kind = points ? `points to block ${grouped(link)}, gap ${grouped(gap)}` : leaf ? "leaf bytes" : "kept";
        item.append(element("b", `level ${level}, block ${grouped(number)}`), element("span", `${kind}; at ${grouped(inside)}`));
        return item;
    }

    /** A tree that was built here, as a file. */
    save() {
        const link = element("a", "", { href: URL.createObjectURL(new Blob([this.book.bytes])), download: this.book.name });
        link.click();
        setTimeout(() => URL.revokeObjectURL(link.href), 1000);
    }
}

/** The first book, or why there is none to show. */
async function start() {
    try {
        const library = new Library(decoded(byId("module").textContent.trim()));
        const version = library.version();
        byId("version").textContent = version;
        if (version !== GIVEN.version) throw new Error(`the module in this page is of version ${version}, the page of ${GIVEN.version}`);
        const page = new Page(library);
        await page.open(page.books[0]);
    } catch (error) {
        byId("verdict").className = "bad";
        byId("verdict").textContent = `This page does not work here: ${error.message}`;
        throw error;
    }
}

start();
