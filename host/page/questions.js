// The questions about a tree: each form has its answer below it and highlights the path of the answer.

/** Lines of a list before it is cut. */
const PAGE = 12;
/** Bytes of a row before it is cut. */
const LONG_ROW = 1000;
/** Rows shown around the given one. */
const WINDOW = 9;

/** A list that is cut after a page of lines, with a note and a button to show more. */
class Listing {
    constructor(id) {
        [this.list, this.note, this.more] = ["list", "note", "more"].map((part) => byId(`${id}-${part}`));
        this.more.addEventListener("click", () => {
            const first = this.list.childElementCount;
            this.add();
            this.list.children[first]?.querySelector("button").focus();
        });
    }

    clear(words = "") {
        this.list.replaceChildren();
        this.note.textContent = words;
        this.more.hidden = true;
    }

    /** `next` returns a line, or null after the last; `words` states how many are shown, and whether more follow. */
    show(next, words) {
        [this.next, this.words] = [next, words];
        this.clear();
        this.ahead = next();
        this.add();
    }

    add() {
        for (let lines = 0; this.ahead !== null && lines < PAGE; lines += 1) {
            this.list.append(line(this.ahead));
            this.ahead = this.next();
        }
        this.note.textContent = this.words(this.list.childElementCount, this.ahead !== null);
        this.more.hidden = this.ahead === null;
    }
}

/** A line that can be pressed: a number, and a text beside it. */
function line({ number, text, press }) {
    const button = element("button", "", { type: "button" });
    button.append(element("span", grouped(number), { class: "number" }), element("span", text, { class: "row" }));
    button.addEventListener("click", press);
    const item = element("li", "");
    item.append(button);
    button.addEventListener("click", () => {
        for (const other of item.parentElement?.children ?? []) other.classList.toggle("asked", other === item);
    });
    return item;
}

/** The note below a list of rows. */
function rowsSaid(none) {
    return (shown, more) => {
        if (shown === 0) return none;
        return more ? `The first ${several(shown, "row")}; more follow.` : `${several(shown, "row")}, all of them.`;
    };
}

class Questions {
    constructor(lit) {
        this.lit = lit;
        this.code = new Listing("code");
        this.places = new Listing("places");
        this.worn = new Listing("worn");
        this.on("row", ["row"], () => this.askRow(numberIn(byId("row"))));
        byId("row-all").addEventListener("click", () => this.answer(byId("row-answer"), () => this.askRow(this.asked, Infinity)));
        this.on("count", ["count-byte", "count-length"], () => this.askCount());
        this.on("find", ["find-byte", "find-number"], () => this.askFind());
        this.on("place", ["place"], () => this.askPlace(numberIn(byId("place"))));
        this.on("code", [], () => this.askCode());
        this.on("places", [], () => this.askPlaces());
        this.on("worn", [], () => this.askWorn());
        byId("row-earlier").addEventListener("click", () => this.window(this.first - WINDOW));
        byId("row-later").addEventListener("click", () => this.window(this.first + WINDOW));
    }

    /** The Enter key starts a question; fields whose answer is a figure start it on every key. */
    on(id, typed, ask) {
        const answer = () => this.answer(byId(`${id}-answer`), ask);
        byId(`${id}-form`).addEventListener("submit", (event) => {
            event.preventDefault();
            answer();
        });
        for (const field of typed) byId(field).addEventListener("input", answer);
    }

    /** A refusal or a wrong value is shown in place of an answer. */
    answer(output, ask) {
        if (!this.tree) return;
        try {
            output.classList.remove("no");
            output.textContent = ask() ?? "";
        } catch (error) {
            if (!(error instanceof Refusal || error instanceof Wrong)) throw error;
            output.classList.add("no");
            output.textContent = this.why(error);
            this.forget(output.id.replace("-answer", ""));
        }
    }

    /** The text of a refusal, with the numbers that are allowed. */
    why(error) {
        if (error.number === 12 && this.most === 0) return "refused (12): the text has no such byte";
        if (error.number === 12) return `refused (12): numbers go from 1 to ${grouped(this.most)}`;
        if (error.number === 10) return `refused (10): the text has ${several(this.tree.textLength, "byte")}`;
        return error.message;
    }

    /** A refused search leaves no lines of the one before. */
    forget(id) {
        this[{ code: "code", places: "places", worn: "worn" }[id]]?.clear();
        if (id === "row" || id === "worn") drawKey(byId(`${id}-key`), []);
        if (id !== "row") return;
        this.windowed([]);
        byId("row-all").hidden = true;
    }

    /** Without a tree there are no answers. */
    close() {
        this.tree = null;
        for (const list of [this.code, this.places, this.worn]) list.clear();
        for (const output of document.querySelectorAll("#answers output")) output.textContent = "";
        for (const key of document.querySelectorAll("svg.key")) key.replaceChildren();
        for (const field of document.querySelectorAll("#questions input, #place")) field.value = "";
        this.windowed([]);
    }

    open(tree) {
        this.close();
        this.tree = tree;
        this.rows = tree.rows();
        this.countedBytes();
        const row = this.rows ? Math.max(1, Math.floor(this.rows * 0.6)) : 1;
        this.examples(row);
        for (const id of ["places", "worn", "code", "count", "find", "place", "row"]) byId(`${id}-form`).requestSubmit();
    }

    /** The bytes that the tree counts, to choose from. */
    countedBytes() {
        const options = () => this.tree.counted.map(({ byte }) => element("option", shownByte(byte), { value: byte }));
        for (const id of ["count-byte", "find-byte"]) {
            byId(id).replaceChildren(...options());
            byId(id).disabled = this.tree.counted.length === 0;
        }
    }

    /** Questions that have an answer in this book, around one of its rows. */
    examples(row) {
        const text = this.rows ? shownRow(this.tree, row) : "";
        const [, code, cuts] = /^([^ ]{1,12}) ([0-9]{1,10})$/.exec(text) ?? [null, text.slice(0, 6), "123456"];
        const last = Number(cuts.at(-1));
        const middle = Math.floor(this.tree.textLength / 2);
        const values = { row, code, places: code, worn: `${cuts.slice(0, -1)}[${Math.max(0, last - 1)}-${Math.min(9, last + 1)}]` };
        Object.assign(values, { "count-length": middle, "find-number": row, place: this.rows ? this.tree.rowStart(row) : middle });
        for (const [id, value] of Object.entries(values)) byId(id).value = value;
    }

    /** Throws if the tree has no rows. */
    needRows() {
        if (this.rows === null) throw new Refusal(11);
        if (this.rows === 0) throw new Wrong("The book has no rows.");
    }

    askRow(q, most = LONG_ROW) {
        this.needRows();
        this.most = this.rows;
        const { bytes, length } = this.tree.row(q, most);
        const place = this.tree.rowStart(q);
        const text = shownBytes(bytes);
        drawKey(byId("row-key"), cutsOf(text));
        this.asked = q;
        this.window(q - Math.floor(WINDOW / 2));
        this.lightPlace(`Row ${grouped(q)} starts at place ${grouped(place)}`, place, "row");
        byId("row-all").hidden = length === bytes.length;
        return length > bytes.length ? `${text} … (the first ${grouped(bytes.length)} of ${several(length, "byte")})` : text;
    }

    /** The rows from `first` on, as many as the window has. */
    window(first) {
        this.first = Math.max(1, Math.min(first, this.rows - WINDOW + 1));
        const numbers = Array.from({ length: Math.min(WINDOW, this.rows) }, (_, at) => this.first + at);
        this.windowed(numbers);
    }

    windowed(numbers) {
        const press = (q) => () => {
            byId("row").value = q;
            byId("row-form").requestSubmit();
        };
        byId("row-list").replaceChildren(...numbers.map((number) => line({ number, text: shownRow(this.tree, number), press: press(number) })));
        const last = numbers.at(-1) ?? 0;
        for (const [at, number] of numbers.entries()) byId("row-list").children[at].classList.toggle("asked", number === this.asked);
        byId("row-note").textContent = last ? `Rows ${grouped(numbers[0])} to ${grouped(last)} of ${grouped(this.rows)}.` : "";
        byId("row-earlier").disabled = last === 0 || numbers[0] === 1;
        byId("row-later").disabled = last === 0 || last === this.rows;
    }

    askCount() {
        const byte = this.chosen("count-byte");
        const length = numberIn(byId("count-length"));
        const { value, entered } = this.tree.count(byte, length);
        const words = `Count of ${shownByte(byte)} in the first ${several(length, "byte")}`;
        const place = length === 0 ? null : length - 1;
        this.showPlace(place);
        this.lit({ card: "count", words, place, call: "bt_count", entered });
        return `${grouped(value)} (${several(entered, "block")} entered)`;
    }

    askFind() {
        const byte = this.chosen("find-byte");
        const number = numberIn(byId("find-number"));
        this.most = this.tree.counted.find((counted) => counted.byte === byte).total;
        const { place, entered } = this.tree.find(byte, number);
        this.showPlace(place);
        this.lit({ card: "find", words: `Occurrence ${grouped(number)} of ${shownByte(byte)}`, place, call: "bt_find", entered });
        return `${grouped(place)} (${several(entered, "block")} entered)`;
    }

    chosen(id) {
        if (this.tree.counted.length === 0) throw new Wrong("The tree counts no byte.");
        return Number(byId(id).value);
    }

    askPlace(place) {
        this.lightPlace(`Place ${grouped(place)}`, place, "place");
        return byId("place-answer").textContent;
    }

    /** The place whose path is highlighted, with its byte; null for none. */
    showPlace(place) {
        const { value, entered } = place === null ? {} : this.tree.byte(place);
        byId("place").value = place ?? "";
        byId("place-answer").classList.remove("no");
        byId("place-answer").textContent = place === null ? "" : `${shownByte(value)} (${several(entered, "block")} entered)`;
        return entered;
    }

    /** Highlights the path of a place by the call that reads its byte. */
    lightPlace(words, place, card, marks = []) {
        this.lit({ card, words, place, call: "bt_byte", entered: this.showPlace(place), marks });
    }

    /** Rows that a call finds one after the other, as lines of a list. */
    rowsBy(call, bytes, card) {
        let mark = 0;
        return () => {
            const found = this.tree.next(call, bytes, mark);
            mark = found.mark;
            if (found.row === 0) return null;
            const start = this.tree.rowStart(found.row);
            const press = () => this.lightPlace(`Row ${grouped(found.row)} starts at place ${grouped(start)}`, start, card);
            return { number: found.row, text: shownRow(this.tree, found.row), press };
        };
    }

    askCode() {
        this.needRows();
        const prefix = [...patternIn(byId("code")), ...(byId("code-whole").checked ? [32] : [])];
        if (byId("code").value === "") throw new Wrong("Type a code.");
        this.code.show(this.rowsBy("bt_next_with_prefix", Uint8Array.from(prefix), "code"), rowsSaid("No row begins so."));
        this.lightFirst(this.code);
    }

    askPlaces() {
        const pattern = patternIn(byId("places"));
        const places = this.tree.places(pattern);
        let at = 0;
        const next = () => {
            if (at === places.length) return null;
            const place = places[at];
            at += 1;
            const press = () => this.lightPlace(`Place ${grouped(place)}`, place, "places", places);
            return { number: place, text: this.around(place, pattern.length), press };
        };
        const all = several(places.length, "place");
        const said = (shown, more) => (more ? `The first ${grouped(shown)} of ${all}.` : `${all}, all of them.`);
        this.places.show(next, places.length === 0 ? () => "It does not occur." : said);
        this.lightFirst(this.places);
    }

    /** The bytes from a place on, up to the end of a row after `least` of them. */
    around(place, least) {
        const bytes = this.tree.span(place, Math.min(Math.max(least, 48), this.tree.textLength - place));
        const end = bytes.indexOf(10, least);
        return shownBytes(end < 0 ? bytes : bytes.slice(0, end));
    }

    askWorn() {
        const ranges = cutsIn(byId("worn"));
        this.needRows();
        this.worn.show(this.rowsBy("bt_next_match", ranges, "worn"), rowsSaid("No row matches."));
        drawKey(byId("worn-key"), ranges);
        this.lightFirst(this.worn);
    }

    /** Highlights the first line of a search. */
    lightFirst(listing) {
        listing.list.querySelector("button")?.click();
    }
}
