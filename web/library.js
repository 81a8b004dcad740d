// The proved library as WebAssembly, the memory that it is lent, and a log that is walked over a piece at a time.
//
// build.py joins library.js, files.js and reader.js into one script for a Worker of the page, which also runs under Node, and
// puts three constants before it: WASM, the library as base64; RIME, the numbers that rimesatchel.h names; and REFUSALS, its
// words for the refusal numbers. Memory is read in the order of octets that WebAssembly has, lowest first: so have all machines
// that run a browser today.
'use strict';

// Taken out of RIME once: it has so many names that each look costs, and these are looked at for each record.
const {RECORD_OCTETS, RECORD_WHAT, RECORD_IS_END, RECORD_START, RECORD_INDICATION, RECORD_NEXT, REPORT_MISSING} = RIME;
const {SLIPPED_WHAT, SLIP_PERHAPS} = RIME;
const PIECE_RECORDS = 16384;
const ONE = (RIME.MOST_MISSING + 1) * RIME.MOST_SLOTS; // the most entries that one record hands out
const ROOM = 20 * ONE; // entries: few enough that what was written is still near when it is read
const AHEAD = 1024; // records that are read past the piece to learn what becomes of a cell that waits
const JUDGED = 16; // records that are judged at a time for it
const MOST_SLIPPED = 255; // cells that one answer of rime_slip can tell of: an octet has them

// The runs that are lent to the calls, each with its entries and their octets.
const RUNS = {
    state: [RIME.RECEIVER_STATE, 1],
    judging: [RIME.RECEIVER_STATE, 1],
    report: [RIME.REPORT, 1],
    header: [RIME.HEADER, 4],
    facts: [RIME.FORMAT, 4],
    found: [RIME.RECORD, 8],
    counts: [RIME.JUDGED_LOG, 8],
    next: [1, 8],
    watch: [RIME.SLIP, 1],
    watching: [RIME.SLIP, 1],
    slip: [RIME.SLIPPED, 1],
    list: [RIME.LIST_STATE, 8],
    salvage: [RIME.SALVAGE_STATE, 8],
    anything: [RIME.ANYTHING_STATE, 8],
    figures: [RIME.FIGURES_STATE, 8],
    listHeld: [RIME.RECORD_OCTETS, 1],
    salvageHeld: [RIME.RECORD_OCTETS, 1],
    anythingHeld: [RIME.RECORD_OCTETS, 1],
    figuresHeld: [RIME.RECORD_OCTETS, 1],
    written: [RIME.WRITTEN, 8],
    answer: [RIME.ANSWER, 8],
    row: [RIME.SHEET_ROW, 4],
    blocks: [RIME.MOST_SLOTS * RIME.BLOCK, 1],
    out: [RIME.OUT, 1],
    samples: [ROOM, 8],
    ancillary: [ROOM, 1],
    marks: [ROOM, 1],
    reports: [JUDGED * RIME.JUDGEMENT, 1],
    ahead: [AHEAD * RIME.RECORD_OCTETS, 1],
    piece: [PIECE_RECORDS * RIME.RECORD_OCTETS, 1],
    made: [RIME.OUT_ROOM + RIME.OUT_RECORD * (PIECE_RECORDS + 1), 1],
    text: [RIME.TEXT_ROOM + RIME.TEXT_RECORD * (PIECE_RECORDS + 1), 1], // room enough for a salvage's lines too
};

// A number of 64 bits in a run of them.
function numberAt(run, at) {
    return run[2 * at] + run[2 * at + 1] * 2 ** 32;
}

function putNumber(run, at, value) {
    run[2 * at] = value % 2 ** 32;
    run[2 * at + 1] = Math.floor(value / 2 ** 32);
}

// Whether all marks are sound, four at a time. Nearly always they are.
function areSound(marks, given) {
    const fours = new Uint32Array(marks.buffer, marks.byteOffset, given >> 2);
    let any = RIME.MARK_SOUND;
    for (let at = 0; at < fours.length; at++) any |= fours[at];
    for (let entry = 4 * fours.length; entry < given; entry++) any |= marks[entry];
    return any === RIME.MARK_SOUND;
}

// Each run is there as a view by its name. One of 64 bits has two numbers for each entry, the low one first.
class Library {
    constructor() {
        const octets = Uint8Array.from(atob(WASM), letter => letter.charCodeAt(0));
        this.calls = new WebAssembly.Instance(new WebAssembly.Module(octets), {}).exports;
        this.runs = {};
        let end = this.calls.__heap_base.value;
        for (const [name, [count, width]] of Object.entries(RUNS)) {
            const at = Math.ceil(end / 64) * 64;
            this.runs[name] = {at, count, width};
            end = at + count * width;
        }
        const {memory} = this.calls;
        memory.grow(Math.ceil((end - memory.buffer.byteLength) / 65536)); // once: it makes every older view empty
        for (const [name, {at, count, width}] of Object.entries(this.runs))
            this[name] = width === 1 ? new Uint8Array(memory.buffer, at, count)
                : new Uint32Array(memory.buffer, at, count * width / 4);
    }

    // Where the entries of a run are, from one on. Nothing else lends memory: what is lent lies in the run.
    lend(name, from, count) {
        const run = this.runs[name];
        if (!(from >= 0 && count >= 0 && from + count <= run.count)) throw Error(`no run ${name} of ${count} from ${from} on`);
        return run.at + run.width * from;
    }

    all(name) {
        return this.lend(name, 0, this.runs[name].count);
    }

    // A whole run, as a call takes one of any length.
    run(name) {
        return [this.all(name), BigInt(this.runs[name].count)];
    }

    // A call's answer: eight bits, whatever stands above them.
    ask(name, ...words) {
        return this.calls[name](...words) & 0xFF;
    }

    // The calls over a log in pieces: `what` is list, salvage, anything or figures.
    start(what) {
        this.ask(`rime_${what}_start`, this.all(what), this.all(`${what}Held`));
    }

    // Takes so many octets of the piece.
    take(what, length, ...words) {
        const piece = [this.lend('piece', 0, length), BigInt(length)];
        return this.ask(`rime_${what}_take`, this.all(what), this.all(`${what}Held`), ...piece, ...words);
    }

    // What a call wrote into `text`.
    said(octets) {
        return new TextDecoder('latin1').decode(this.text.subarray(0, octets));
    }
}

// A log. `source` has `size`, and `read(from, past)` gives its octets; `told` is told how far a walk is, from 0 to 1.
class Log {
    constructor(library, source, told = () => {}) {
        Object.assign(this, {library, source, told, size: source.size});
        const length = this.load(0, Math.min(RIME.RECORD_OCTETS, this.size)); // no header is longer than a record
        this.refusal = library.ask('rime_log_header', library.lend('piece', 0, length), BigInt(length), library.all('header'));
        if (this.refusal) return;
        [this.place, this.octet, this.channels, this.order] = library.header;
        library.ask('rime_format', this.octet, library.all('facts'));
        const {facts} = library;
        Object.assign(this, {bits: facts[RIME.FORMAT_SAMPLE_BITS], slots: facts[RIME.FORMAT_SLOTS]});
        this.ancillary = facts[RIME.FORMAT_ANCILLARY_BITS] !== 0;
        this.overhead = facts[RIME.FORMAT_OVERHEAD_BITS] !== 0;
        this.times = Math.floor(this.slots / this.channels); // T
        this.entries = this.channels * this.times; // C * T, of one cell
        library.ask('rime_receiver_open', this.octet, this.channels, this.order, library.all('state'));
        this.points = [{place: this.place, record: 0, time: 0, state: library.state.slice(), watch: new Uint8Array(RIME.SLIP)}];
    }

    // Puts octets of the file into the piece, or into another run. Returns how many.
    load(from, past, run = this.library.piece) {
        const octets = this.source.read(from, past);
        if (octets.length !== past - from) throw Error('it became shorter while it was read');
        run.set(octets);
        return octets.length;
    }

    // All octets of the file, piece after piece, for the calls that take a log so. A true answer ends it.
    each(take) {
        for (let from = 0, past; from < this.size; from = past) {
            past = Math.min(from + this.library.piece.length, this.size);
            if (take(this.load(from, past))) return;
            this.told(past / this.size);
        }
    }

    // Walks from a point on, piece after piece, up to the end or the first framing fault, and returns that fault's refusal, or 0.
    // Of each piece `take.piece(length)` sees the octets, where there is such a function, and `take.handed(given)` the entries,
    // some at a time: this.at.time is the first one's sample time, and this.isSound says that all marks are sound. A true answer
    // of `handed` ends the walk. Counted are places before which cells are missing, refused records behind the last sound cell,
    // cells that second numbers alone tell of, their places, and what they perhaps tell of the last cell.
    walk(take, start = this.points[0]) {
        const {state, watch, piece} = this.library, at = this.at = {...start};
        Object.assign(this, {gaps: 0, refusedLast: 0, slipped: 0, slips: 0, perhaps: 0});
        state.set(start.state);
        watch.set(start.watch);
        while (at.place < this.size) {
            this.keepPoint();
            const length = this.load(at.place, Math.min(at.place + piece.length, this.size));
            take.piece?.(length);
            const done = this.walkPiece(take, length);
            if (done.ended) return 0;
            at.place += done.next;
            at.record += done.records;
            this.told(at.place / this.size);
            if (done.stop) return done.stop; // a piece is whole records: only the file's end cuts one
        }
        return 0;
    }

    keepPoint() {
        const {state, watch} = this.library;
        if (this.at.place > this.points.at(-1).place) this.points.push({...this.at, state: state.slice(), watch: watch.slice()});
    }

    walkPiece(take, length) {
        for (let records = 0, place = 0;;) {
            const {given, cells, next, stop} = this.receive(length, place);
            this.isSound = areSound(this.library.marks, given);
            if (given > 0 && take.handed(given)) return {ended: true};
            this.at.time += given / this.channels;
            records += cells;
            place = next;
            if (stop !== RIME.REFUSED_ROOM) return {next, records, stop};
        }
    }

    // Records one by one, each one's entries behind the last one's, until the next might not fit. rime_receive_log takes many at
    // once, and tells nothing of a single cell: docs/DECISIONS.md.
    receive(length, place) {
        const {library, overhead, entries} = this, {found, report, slip} = library;
        const {rime_log_record, rime_receive, rime_slip} = library.calls;
        const one = (RIME.MOST_MISSING + 1) * entries, room = BigInt(one), most = one + (overhead ? MOST_SLIPPED * entries : 0);
        const piece = library.lend('piece', 0, length), cell = BigInt(RIME.CELL_OCTETS), record = BigInt(RECORD_OCTETS);
        const [seen, state, reported, watch, told] = ['found', 'state', 'report', 'watch', 'slip'].map(name => library.all(name));
        const [samples, ancillary, marks] = ['samples', 'ancillary', 'marks'].map(name => library.lend(name, 0, ROOM));
        let given = 0, cells = 0;
        for (; given + most <= ROOM; cells++) {
            const left = length - place;
            const stop = rime_log_record(piece + place, left < RECORD_OCTETS ? BigInt(left) : record, 0n, seen) & 0xFF;
            if (stop || found[2 * RECORD_WHAT] === RECORD_IS_END) return {given, cells, next: place, stop};
            const refusal = rime_receive(state, piece + place + found[2 * RECORD_START], cell, found[2 * RECORD_INDICATION],
                samples + 8 * given, room, ancillary + given, room, marks + given, room, reported) & 0xFF;
            place += found[2 * RECORD_NEXT];
            if (refusal) {
                this.refusedLast++;
                continue;
            }
            const own = (report[REPORT_MISSING] + 1) * entries;
            if (own > entries) this.gaps++;
            if (this.refusedLast > 0 || this.perhaps > 0) this.refusedLast = this.perhaps = 0;
            if (overhead) rime_slip(watch, reported, told);
            if (overhead && slip[SLIPPED_WHAT] === SLIP_PERHAPS) given += this.putSilence(given, own, length, place);
            given += own;
        }
        return {given, cells, next: place, stop: RIME.REFUSED_ROOM};
    }

    // The cell whose entries were written is out of step. Where the next one says so, silence is put in before it for cells that
    // second numbers alone tell of. Returns the silence's entries.
    putSilence(given, own, length, place) {
        const {library} = this, {samples, ancillary, marks} = library;
        this.perhaps = library.slip[RIME.SLIPPED_CELLS];
        const cells = this.perhaps > 0 ? this.toldAhead(length, place) : 0, silence = cells * this.entries;
        if (cells === 0) return 0;
        this.slipped += cells;
        this.slips++;
        samples.copyWithin(2 * (given + silence), 2 * given, 2 * (given + own)).fill(0, 2 * given, 2 * (given + silence));
        ancillary.copyWithin(given + silence, given, given + own).fill(0, given, given + silence);
        marks.copyWithin(given + silence, given, given + own).fill(RIME.MARK_MISSING, given, given + silence);
        return silence;
    }

    // How many cells are missing before the cell that was taken last, by the next one that the receiver takes, wherever it is.
    toldAhead(length, place) {
        const {library} = this;
        library.judging.set(library.state);
        library.watching.set(library.watch);
        let said = this.judgeAhead('piece', length, place);
        for (let from = this.at.place + length, past; said < 0 && from < this.size; from = past) {
            past = Math.min(from + library.ahead.length, this.size);
            said = this.judgeAhead('ahead', this.load(from, past, library.ahead), 0);
        }
        return Math.max(said, 0);
    }

    // The same, of the records from a place of a run on: 0 too where the log ends by a fault, -1 where they have no such cell.
    judgeAhead(run, length, place) {
        const {library} = this, {reports, counts, slip} = library;
        for (let stop = RIME.REFUSED_ROOM; stop === RIME.REFUSED_ROOM; place = counts[2 * RIME.LOG_NEXT]) {
            library.ask('rime_judge_log', library.all('judging'), library.lend(run, 0, length), BigInt(length), BigInt(place),
                ...library.run('reports'), library.all('counts'));
            for (let at = 0; at < counts[2 * RIME.LOG_RECORDS] * RIME.JUDGEMENT; at += RIME.JUDGEMENT) {
                if (reports[at + RIME.JUDGEMENT_REFUSAL]) continue;
                const report = library.lend('reports', at + RIME.JUDGEMENT_REPORT, RIME.REPORT);
                library.ask('rime_slip', library.all('watching'), report, library.all('slip'));
                return slip[RIME.SLIPPED_WHAT] === RIME.SLIP_BEFORE ? slip[RIME.SLIPPED_CELLS] : 0;
            }
            stop = counts[2 * RIME.LOG_STOP];
            if (stop === RIME.REFUSED_LOG_NUMBER) return 0;
        }
        return -1;
    }

    // The last point at or before a sample time.
    before(time) {
        let low = 0, past = this.points.length;
        while (past - low > 1) {
            const middle = low + past >> 1;
            if (this.points[middle].time <= time) low = middle;
            else past = middle;
        }
        return this.points[low];
    }

    // The top 32 bits of a sample that was handed out, with its sign.
    top(entry) {
        const {samples} = this.library, low = samples[2 * entry];
        return this.bits <= 32 ? low << 32 - this.bits : samples[2 * entry + 1] << 64 - this.bits | low >>> this.bits - 32;
    }
}
