// Memory that is lent to the wasm library, with canaries behind every run, and fields of the vectors put into it and read back.
import fs from 'node:fs';

const CANARIES = [0xA5, 0xA6, 0xA7, 0xA8];
const ROOM = 64; // pages

// A number of the vectors that a type can't hold: the case is passed over.
export class Wide extends Error {}

export class Lender {
    constructor(wasm) {
        const module = new WebAssembly.Module(fs.readFileSync(wasm)), imports = WebAssembly.Module.imports(module);
        if (imports.length > 0) throw Error(`the library imports ${imports[0].name}`);
        this.calls = new WebAssembly.Instance(module, {}).exports;
        this.calls.memory.grow(ROOM);
        this.memory = new DataView(this.calls.memory.buffer);
        this.clear();
    }

    clear() {
        this.end = this.calls.__heap_base.value + 63 & ~63;
        this.runs = [];
    }

    // A run of numbers of so many octets each.
    lent(width, values) {
        const run = {at: this.end, width, length: values.length, of: this};
        this.end = this.end + width * (values.length + CANARIES.length) + 63 & ~63;
        [...values, ...CANARIES].forEach((value, at) => this.put(run, at, BigInt(value)));
        this.runs.push(run);
        return run;
    }

    empty(width, length) {
        return this.lent(width, Array(length).fill(0xEE));
    }

    put({at, width}, index, value) {
        if (value >= 1n << BigInt(8 * width)) throw new Wide();
        for (let octet = 0; octet < width; octet++)
            this.memory.setUint8(at + width * index + octet, Number(value >> BigInt(8 * octet) & 255n));
    }

    got({at, width}, index) {
        let value = 0n;
        for (let octet = width; octet-- > 0;) value = value << 8n | BigInt(this.memory.getUint8(at + width * index + octet));
        return value;
    }

    // Whether a call wrote past the end of a run.
    isSpilled() {
        return this.runs.some(run => CANARIES.some((value, at) => this.got(run, run.length + at) !== BigInt(value)));
    }

    // Eight bits of a call's answer, whatever stands above them.
    ask(name, ...words) {
        return this.calls[name](...words) & 0xFF;
    }
}

export const numbers = field => field === '-' ? [] : field.split(',').map(BigInt);
export const octets = field => field === '-' ? [] : [...Buffer.from(field, 'hex')];
export const both = run => [run.at, BigInt(run.length)];
export const one = (run, index = 0) => String(run.of.got(run, index));
export const some = (run, count) => Array.from({length: count}, (_, index) => one(run, index));
export const list = run => some(run, run.length).join() || '-';
export const hex = (run, from = 0, past = run.length) =>
    past > from ? Buffer.from(run.of.calls.memory.buffer, run.at + from, past - from).toString('hex') : '-';
export const u32 = field => {
    if (BigInt(field) >= 1n << 32n) throw new Wide();
    return Number(field) | 0;
};
export const u64 = field => {
    if (BigInt(field) >= 1n << 64n) throw new Wide();
    return BigInt(field);
};
export const u8 = field => {
    if (BigInt(field) > 255n) throw new Wide();
    return Number(field);
};
