"use strict";

// The data that the tool put into this page, and numbers and bytes as text.

const GIVEN = JSON.parse(document.getElementById("given").textContent);
const REFUSALS = GIVEN.refusals;

/** A field has a wrong value. */
class Wrong extends Error {}

const byId = (id) => document.getElementById(id);
const encoded = (text) => new TextEncoder().encode(text);
const grouped = (number) => number.toLocaleString("en-US");
const several = (number, one) => `${grouped(number)} ${number === 1 ? one : one.replace(/([^aeiou])y$/, "$1ie") + "s"}`;
const twoDigits = (byte) => byte.toString(16).padStart(2, "0");
const hexadecimal = (bytes) => Array.from(bytes, twoDigits).join("");

/** The bytes of a text in base64. */
function decoded(base64) {
    const text = atob(base64);
    const bytes = new Uint8Array(text.length);
    for (let at = 0; at < text.length; at += 1) bytes[at] = text.charCodeAt(at);
    return bytes;
}

/** A new element with text and attributes; text is never read as markup. */
function element(name, text, attributes = {}) {
    const made = document.createElement(name);
    made.textContent = text;
    for (const [attribute, value] of Object.entries(attributes)) made.setAttribute(attribute, value);
    return made;
}

/** A byte as the tool prints it: 67 'C', 10 '\n'. */
function shownByte(byte) {
    const names = { 9: "\\t", 10: "\\n", 13: "\\r", 34: '\\"', 39: "\\'", 92: "\\\\" };
    const printable = byte >= 32 && byte < 127;
    return `${byte} '${names[byte] ?? (printable ? String.fromCharCode(byte) : `\\x${twoDigits(byte)}`)}'`;
}

/** Bytes as text: UTF-8 if they are valid, with control characters and marks of direction made visible. */
function shownBytes(bytes) {
    let text;
    try {
        text = new TextDecoder("utf-8", { fatal: true, ignoreBOM: true }).decode(bytes);
    } catch {
        text = String.fromCharCode(...bytes).replace(/[\x80-\xff]/g, (letter) => `\\x${twoDigits(letter.charCodeAt(0))}`);
    }
    const names = { "\t": "\\t", "\n": "\\n", "\r": "\\r" };
    const visible = (letter) => names[letter] ?? `\\u${letter.charCodeAt(0).toString(16).padStart(4, "0")}`;
    return text.replace(/[\x00-\x1f\x7f-\x9f\u200b-\u200f\u2028-\u202e\u2066-\u2069\ufeff]/g, visible);
}

/** A row of a list: at most 120 of its bytes, with a note if it has more. */
function shownRow(tree, q) {
    const { bytes, length } = tree.row(q, 120);
    return shownBytes(bytes) + (length > bytes.length ? ` … (${several(length, "byte")})` : "");
}

/** The number in a field, from 0 to the largest word. */
function numberIn(field) {
    const text = field.value.trim();
    if (text === "") throw new Wrong("Type a number.");
    if (!/^\d{1,10}$/.test(text) || Number(text) > 4294967295) throw new Wrong(`'${text}' is not a number from 0 to 4,294,967,295.`);
    return Number(text);
}

/** The bytes of a text in which \n, \r, \t, \\ and \xHH are one byte each. */
function patternIn(field) {
    const bytes = [];
    for (const [part] of field.value.matchAll(/\\x[0-9a-fA-F]{2}|\\[nrt\\]|[^\\]+|\\/g)) {
        if (part === "\\") throw new Wrong("A backslash begins \\n, \\r, \\t, \\\\ or \\xHH, a byte in hexadecimal.");
        const named = { "\\n": 10, "\\r": 13, "\\t": 9, "\\\\": 92 }[part];
        if (named !== undefined) bytes.push(named);
        else if (part.startsWith("\\x")) bytes.push(parseInt(part.slice(2), 16));
        else bytes.push(...encoded(part));
    }
    return Uint8Array.from(bytes);
}

/** A low and a high depth for each cut of `44[3-5]22?` or `4,4,3-5,2,2,0-9`. */
function cutsIn(field) {
    const ranges = [];
    for (const [part] of field.value.matchAll(/\[\d-\d\]|\d-\d|\d|\?|[, ]|[^]/g)) {
        const digits = part.match(/\d/g);
        if (digits) ranges.push(Number(digits[0]), Number(digits[digits.length - 1]));
        else if (part === "?") ranges.push(0, 9);
        else if (part !== "," && part !== " ") throw new Wrong(`A cut is a depth from 0 to 9, a range such as [3-5], or ?, not '${part}'.`);
    }
    return Uint8Array.from(ranges);
}
