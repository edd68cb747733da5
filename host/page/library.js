// The library's calls, by their names in include/blocktree.h, over the memory of its WebAssembly module.

/** A refusal of the library, with the tool's text for its number. */
class Refusal extends Error {
    constructor(number) {
        super(`refused (${number}): ${REFUSALS[number] ?? "a number that this page does not know"}`);
        this.number = number;
    }
}

/** A module without imports: it can reach its own memory and nothing else. */
class Library {
    constructor(bytes) {
        this.calls = new WebAssembly.Instance(new WebAssembly.Module(bytes)).exports;
        for (const name of ["memory", "__heap_base", "bt_version", "bt_check", "bt_digest", "bt_next_with_prefix"]) {
            if (!(name in this.calls)) throw new Error(`the module in this page is not the library: it has no ${name}`);
        }
        this.start = this.free = Math.ceil(this.calls.__heap_base.value / 16) * 16;
    }

    version() {
        const number = this.calls.bt_version();
        return [Math.floor(number / 10000), Math.floor(number / 100) % 100, number % 100].join(".");
    }

    /** Runs `work` and frees the memory that it used. */
    lending(work) {
        const free = this.free;
        try {
            return work();
        } finally {
            this.free = free;
        }
    }

    /** Memory of `length` bytes, aligned for words and figures. */
    space(length) {
        const at = this.free;
        this.free = at + Math.ceil((length + 1) / 16) * 16;
        const missing = this.free - this.calls.memory.buffer.byteLength;
        if (missing > 0) this.calls.memory.grow(Math.ceil(missing / 65536));
        return at;
    }

    copy(bytes) {
        const at = this.space(bytes.length);
        new Uint8Array(this.calls.memory.buffer).set(bytes, at);
        return at;
    }

    /** A copy of bytes of its memory, which a later call may move. */
    bytes(at, length) {
        return new Uint8Array(this.calls.memory.buffer).slice(at, at + length);
    }

    view() {
        return new DataView(this.calls.memory.buffer);
    }

    word(at) {
        return this.view().getUint32(at, true);
    }

    signed(at) {
        return this.view().getInt32(at, true);
    }

    long(at) {
        return Number(this.view().getBigUint64(at, true));
    }

    /** Calls `name`; returns the figures that it writes, each read by its kind: "word", "signed" or "long". */
    call(name, given, kinds) {
        return this.lending(() => {
            const places = kinds.map(() => this.space(8));
            const number = this.calls[name](...given, ...places);
            if (number !== 0) throw new Refusal(number);
            return places.map((place, at) => this[kinds[at]](place));
        });
    }

    /** A pointer and a length, as a call takes bytes. */
    lent(bytes) {
        return [this.copy(bytes), BigInt(bytes.length)];
    }

    digestText(bytes) {
        return this.lending(() => {
            const out = this.space(32);
            this.call("bt_digest_text", [...this.lent(bytes), out, 32n], []);
            return hexadecimal(this.bytes(out, 32));
        });
    }

    /** Whether a book is open on a day, and the days left; days are eight digits. */
    licence(first, last, today) {
        return this.lending(() => {
            const [firstDay, lastDay, day] = [first, last, today].map((text) => this.lent(encoded(text)));
            const [open] = this.call("bt_open_on", [...firstDay, ...lastDay, ...day], ["word"]);
            const [left] = this.call("bt_days_left", [...lastDay, ...day], ["signed"]);
            return { open: open === 1, left };
        });
    }

    /** The tree of a text, with byte 10 counted. */
    build(text, { leaf, arity, levels }) {
        return this.lending(() => {
            const [room] = this.call("bt_size_bound", [text.length, leaf, arity, levels, 1], ["long"]);
            const words = Number(this.calls.bt_scan_words(text.length, leaf));
            const given = [...this.lent(text), leaf, arity, levels, ...this.lent(Uint8Array.of(10))];
            const [work, out] = [this.space(4 * words), this.space(room)];
            const [size] = this.call("bt_build_scanned", [...given, work, BigInt(words), out, BigInt(room)], ["word", "word"]);
            return this.bytes(out, size);
        });
    }
}

/** A tree in the library's memory that bt_check accepts. */
class Tree {
    /** Reuses the memory of the previous tree. */
    constructor(library, bytes) {
        this.library = library;
        library.free = library.start;
        [this.at, this.length] = [library.copy(bytes), bytes.length];
        this.ask("bt_check", [], []);
        const [digest, figures] = library.lending(() => {
            const [out, info] = [library.space(32), library.space(8 * 23)];
            this.ask("bt_digest", [out, 32n], []);
            this.ask("bt_info", [info], []);
            return [hexadecimal(library.bytes(out, 32)), Array.from({ length: 23 }, (_, at) => library.long(info + 8 * at))];
        });
        this.digest = digest;
        [this.layout, this.textLength, this.leaf, this.arity, this.levels, this.leafBytes] = figures;
        this.counted = figures.slice(7, 7 + figures[6]).map((byte, at) => ({ byte, total: figures[11 + at] }));
        this.blocks = figures.slice(15, 15 + this.levels);
    }

    ask(name, given, kinds) {
        return this.library.call(name, [this.at, BigInt(this.length), ...given], kinds);
    }

    /** Null if byte 10 is not counted. */
    rows() {
        return this.counted.some(({ byte }) => byte === 10) ? this.ask("bt_row_count", [], ["long"])[0] : null;
    }

    byte(place) {
        const [value, entered] = this.ask("bt_byte", [place], ["word", "word"]);
        return { value, entered };
    }

    count(byte, length) {
        const [value, entered] = this.ask("bt_count", [byte, length], ["long", "word"]);
        return { value, entered };
    }

    find(byte, number) {
        const [place, entered] = this.ask("bt_find", [byte, number], ["word", "word"]);
        return { place, entered };
    }

    /** Where row `q` starts. */
    rowStart(q) {
        return q === 1 ? 0 : this.find(10, q - 1).place + 1;
    }

    /** At most `most` bytes of row `q`, and its length. */
    row(q, most) {
        const [length] = this.ask("bt_row_length", [q], ["word"]);
        if (length > most) return { bytes: this.span(this.rowStart(q), most), length };
        return this.library.lending(() => {
            const buffer = this.library.space(length);
            this.ask("bt_row", [q, buffer, BigInt(length)], ["word"]);
            return { bytes: this.library.bytes(buffer, length), length };
        });
    }

    span(place, length) {
        return this.library.lending(() => {
            const buffer = this.library.space(length);
            this.ask("bt_span", [place, length, buffer, BigInt(length)], ["word"]);
            return this.library.bytes(buffer, length);
        });
    }

    /** All places of a pattern. */
    places(pattern) {
        return this.library.lending(() => {
            const lent = this.library.lent(pattern);
            const [words] = this.ask("bt_places_words", [pattern.length], ["word"]);
            const table = this.library.space(4 * words);
            const [number] = this.ask("bt_places", [...lent, table, BigInt(words)], ["word"]);
            return new Uint32Array(this.library.bytes(table, 4 * number).buffer);
        });
    }

    /** The row after `mark` that a call finds by these bytes, and the mark moved there; row 0 is none. */
    next(name, bytes, mark) {
        return this.library.lending(() => {
            const lent = this.library.lent(bytes);
            const at = this.library.copy(new Uint8Array(Uint32Array.of(mark).buffer));
            const [row] = this.ask(name, [...lent, at], ["word"]);
            return { row, mark: this.library.word(at) };
        });
    }
}
