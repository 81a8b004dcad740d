// Reads logs: all that the page shows of one, by one walk, and what is asked for while one looks and listens.

const BINS = 16384; // columns of the overview
const MOST_ROWS = 1000; // lines that are shown of the list, and of channel status
const MOST_STRETCHES = 100000; // that the page keeps
const RATE_TIMES = 4800; // sample times in which channel status is looked at for the rate

// ---- The picture: lowest and highest sample and the marks, in columns of `unit` sample times ----
const LOWEST = -0x80000000, HIGHEST = 0x7FFFFFFF;
const {MARK_SOUND, MARK_DOUBTFUL, MARK_MISSING} = RIME;
const CAME = 1, DAMAGED = 2, MISSING = 4; // of what was seen in a column

class Columns {
    constructor(log, count, from = 0, unit = 1) {
        Object.assign(this, {count, from, unit, channels: log.channels});
        this.low = new Int32Array(count * log.channels).fill(HIGHEST);
        this.high = new Int32Array(count * log.channels).fill(LOWEST);
        this.seen = new Uint8Array(count * log.channels);
    }

    // A column after the other, in it a channel after the other.
    take(log, given) {
        const {channels, unit} = this;
        for (let entry = 0, time = log.at.time - this.from; entry < given;) {
            const column = Math.floor(time / unit), left = (given - entry) / channels;
            const times = Math.max(1, Math.min(left, Math.ceil((column + 1) * unit - time)));
            for (let channel = 0; channel < channels && column >= 0 && column < this.count; channel++)
                this.span(log, entry + channel, times, column * channels + channel);
            time += times;
            entry += times * channels;
        }
    }

    // Sample times in a row of one channel in one column.
    span(log, entry, times, at) {
        const past = entry + times * this.channels;
        if (log.isSound && log.bits <= 32) return this.plain(log, entry, past, at);
        const {marks} = log.library;
        for (; entry < past; entry += this.channels) {
            const mark = marks[entry];
            this.seen[at] |= mark === MARK_SOUND ? CAME : mark === MARK_DOUBTFUL ? CAME | DAMAGED : MISSING;
            if (mark === MARK_MISSING) continue;
            const value = log.top(entry);
            if (value < this.low[at]) this.low[at] = value;
            if (value > this.high[at]) this.high[at] = value;
        }
    }

    // The same where all are sound and of at most 32 bits: the usual case, and the quick one.
    plain(log, entry, past, at) {
        const {samples} = log.library, up = 32 - log.bits, step = 2 * this.channels;
        let low = this.low[at], high = this.high[at];
        for (let from = 2 * entry; from < 2 * past; from += step) {
            const value = samples[from] << up;
            if (value < low) low = value;
            if (value > high) high = value;
        }
        this.low[at] = low;
        this.high[at] = high;
        this.seen[at] |= CAME;
    }

    // Makes room up to a sample time: two columns become one, as often as it takes.
    fit(past) {
        for (; past > this.unit * this.count; this.unit *= 2)
            for (let column = 0, at = 0; column < this.count; column++)
                for (let channel = 0; channel < this.channels; channel++, at++)
                    this.join(at, 2 * column + 1 < this.count ? 2 * column * this.channels + channel : -1);
    }

    // Lets go of the columns past a sample time.
    trim(past) {
        this.count = Math.ceil(past / this.unit);
        for (const name of ['low', 'high', 'seen']) this[name] = this[name].slice(0, this.count * this.channels);
    }

    join(at, a) {
        const b = a + this.channels, isThere = a >= 0;
        this.low[at] = isThere ? Math.min(this.low[a], this.low[b]) : HIGHEST;
        this.high[at] = isThere ? Math.max(this.high[a], this.high[b]) : LOWEST;
        this.seen[at] = isThere ? this.seen[a] | this.seen[b] : 0;
    }
}

// ---- Stretches of sample times that are missing, or damaged in the same channels ----
class Stretches {
    constructor(log, told) {
        Object.assign(this, {log, told, open: null});
    }

    take(given) {
        const {marks} = this.log.library, {channels} = this.log;
        if (this.log.isSound) return this.end();
        for (let entry = 0, time = this.log.at.time; entry < given; entry += channels, time++) {
            let any = 0;
            for (let channel = 0; channel < channels; channel++) any |= marks[entry + channel];
            if (any !== RIME.MARK_SOUND) this.one(marks.subarray(entry, entry + channels), time);
            else if (this.open) this.end();
        }
    }

    one(marks, time) {
        const channels = [...marks.keys()].filter(channel => marks[channel] === RIME.MARK_DOUBTFUL);
        const mark = channels.length > 0 ? RIME.MARK_DOUBTFUL : RIME.MARK_MISSING, {open} = this;
        if (open && open.mark === mark && open.channels.join() === channels.join()) return void open.past++;
        this.end();
        this.open = {mark, channels, from: time, past: time + 1};
    }

    end() {
        if (this.open) this.told(this.open);
        this.open = null;
    }
}

// ---- Channel status (EBU Tech 3250, clause 4) ----
const RATES = {0x80: 48000, 0x40: 44100, 0xC0: 32000}; // bits 6 and 7 of octet 0
// Bits of a word, by bits 0 to 5 of octet 2.
const LENGTHS = {0x08: 16, 0x30: 17, 0x10: 18, 0x20: 19, 0x28: 20, 0x34: 21, 0x14: 22, 0x24: 23, 0x2C: 24, 0x0C: 20};
const ALIKE = 14, FLAGS = 22; // octets up to the sample addresses, which count on; the flags after them
const ANSWERS = ['neither', "doesn't fit", 'fits', 'none carried'];

function rateOf(block) {
    return RATES[block[0] & 0xC0] ?? 0;
}

function lengthOf(block) {
    const code = block[2] & 0x3F;
    return LENGTHS[code % 8 === 2 ? code - 2 : code] ?? 0;
}

function isFlagged(block) {
    return (block[FLAGS] & 0x10) !== 0;
}

// Blocks in a row of one channel that are alike are one, with their count.
class Status {
    constructor(log) {
        Object.assign(this, {log, lines: [], count: 0, first: []});
        this.open = Array(log.channels).fill(null);
        log.library.blocks.fill(0);
    }

    take(given) {
        const {library, channels, at} = this.log, {next, out} = library, length = BigInt(given), found = [];
        const ancillary = library.lend('ancillary', 0, given), marks = library.lend('marks', 0, given);
        for (let channel = 0; channel < channels; channel++) {
            const block = library.lend('blocks', channel * RIME.BLOCK, RIME.BLOCK);
            for (let from = channel; from < given; from = next[0]) {
                library.ask('rime_status_run', block, ancillary, length, marks, length, BigInt(from), BigInt(channels),
                    library.all('out'), library.all('next'));
                if (out[RIME.OUT_ANSWER] === RIME.STATUS_NONE) continue;
                found.push({channel, answer: out[RIME.OUT_ANSWER], block: out.slice(RIME.OUT_OCTETS), entry: next[0] - channels});
            }
        }
        for (const one of found.sort((a, b) => a.entry - b.entry))
            this.block(one, at.time + Math.floor(one.entry / channels) + 1);
    }

    block({channel, answer, block}, past) {
        const last = this.open[channel];
        if (answer === RIME.STATUS_FITS && !isFlagged(block) && past <= RATE_TIMES) this.first.push({channel, block});
        if (last && last.answer === answer && last.block[FLAGS] === block[FLAGS]
            && last.block.subarray(0, ALIKE).every((octet, at) => octet === block[at])) {
            last.count++;
            last.past = past;
            return;
        }
        if (last) this.close(last);
        this.open[channel] = {channel, answer, block, count: 1, from: past - 8 * RIME.STATUS_OCTETS, past};
    }

    close(line) {
        this.count++;
        if (this.lines.length < MOST_ROWS) this.lines.push(line);
    }

    end() {
        for (const [channel, open] of this.open.entries()) this.close(open ?? {channel});
        return this;
    }

    // What the first sample times name, the first first: rates with their blocks, and the lengths of words.
    named() {
        const rates = new Map(), lengths = new Set();
        for (const {channel, block} of this.first) {
            if (lengthOf(block)) lengths.add(lengthOf(block));
            const rate = rateOf(block);
            if (!rate) continue;
            if (!rates.has(rate)) rates.set(rate, {rate, channel, blocks: 0});
            rates.get(rate).blocks++;
        }
        return {rates: [...rates.values()], lengths: [...lengths].sort((a, b) => a - b)};
    }
}

function letters(octets) {
    return [...octets].map(octet => octet === 0 ? '' : octet >= 0x20 && octet < 0x7F ? String.fromCharCode(octet)
        : `\\x${octet.toString(16).toUpperCase().padStart(2, '0')}`).join('');
}

function professional(block) {
    const rate = rateOf(block), length = lengthOf(block);
    return `, professional${rate ? `, ${rate} Hz` : ''}${length ? `, ${length} bits` : ''}`
        + `${isFlagged(block) ? ' (flagged as unreliable)' : ''}, origin "${letters(block.subarray(6, 10))}"`
        + `, destination "${letters(block.subarray(10, 14))}"`;
}

// A line of the desk tool's `labels`. Its seconds are by the rate that was asked for, by the blocks' own, or by the log's.
function statusLine({channel, answer, block, count, from, past}, {asked, rate, isAssumed}) {
    if (!count) return `channel ${channel + 1}: no channel status block`;
    const isConsumer = answer === RIME.STATUS_NONE_CARRIED, own = isConsumer ? 0 : rateOf(block);
    const counts = answer === RIME.STATUS_FITS && !isFlagged(block);
    const used = asked || (own && (counts || isAssumed) ? own : rate);
    return `channel ${channel + 1}: ${seconds(from, used)} to ${seconds(past, used)} s, ${count} block${count === 1 ? '' : 's'}: `
        + `${ANSWERS[answer]}${isConsumer ? ', consumer use' : professional(block)}`;
}

function statusLines({status, channels}, rate) {
    if (status) return status.lines.map(line => statusLine(line, rate));
    return Array.from({length: channels}, (_, channel) => `${statusLine({channel}, rate)}: the format has no ancillary bits`);
}

// ---- The lines of the list that aren't `sound 0` ----

// The list's calls are asked of the pieces that have such lines, and of the last. What would have been taken before is put into
// their state by its names: the receiver's state, and what the figures count.
class Rows {
    constructor(log) {
        const {library} = log, {list} = library;
        Object.assign(this, {log, lines: [], last: [], isOver: false});
        library.start('list');
        this.first = linesOf(library.said(listed(library, log.place)));
        this.begun = list.slice();
        this.left = numberAt(list, RIME.PIECES_LEFT);
    }

    // A piece of so many octets, with what was counted before it. `isOdd`: it has such lines.
    take(length, counted, isOdd) {
        const {log} = this, {library} = log, past = log.at.place + length;
        const isLast = past === log.size || past - log.place > this.left || library.figures[2 * RIME.PIECES_STAGE] > 1;
        if (this.isOver || !isLast && (!isOdd || this.lines.length >= MOST_ROWS)) return;
        this.isOver = isLast;
        this.putForward(counted);
        this.put(listed(library, length));
        if (isLast) this.put(listedLast(library));
    }

    putForward({sound, missing, refused}) {
        const {log} = this, {library} = log, {list, state} = library, {place, record} = log.at;
        list.set(this.begun);
        const numbers = {
            PIECES_LEFT: this.left - (place - log.place), PIECES_RECORDS: record, PIECES_STARTED: state[RIME.RECEIVER_STARTED],
            PIECES_LAST: state[RIME.RECEIVER_LAST], PIECES_COUNT: library.calls.rime_receiver_placed(library.all('state')) >>> 0,
            LIST_RECORDS: record, LIST_SOUND: sound, LIST_MISSING: missing, LIST_REFUSED: refused,
        };
        for (const [name, number] of Object.entries(numbers)) putNumber(list, RIME[name], number);
    }

    put(octets) {
        for (const line of linesOf(this.log.library.said(octets)))
            if (/^end | broken /.test(line)) this.last.push(line);
            else if (!line.includes(' sound 0 ') && this.lines.length < MOST_ROWS) this.lines.push(line);
    }
}

// ---- The first walk ----
const REFUSED = {8: RIME.SHEET_REFUSED_8, 9: RIME.SHEET_REFUSED_9, 15: RIME.SHEET_REFUSED_15, 20: RIME.SHEET_REFUSED_20};

class Scan {
    constructor(log) {
        const {size, octet, channels, order, bits, overhead, ancillary, library} = log;
        this.log = log;
        this.about = {size, refusal: 0, octet, channels, order, bits, overhead, ancillary, stretches: [], stretchCount: 0};
        const most = Math.ceil(size / RIME.RECORD_OCTETS) * (RIME.MOST_MISSING + 1 + MOST_SLIPPED) * log.times; // sample times
        this.columns = new Columns(log, Math.max(1, Math.min(BINS, most)));
        this.status = ancillary ? new Status(log) : null;
        this.stretches = new Stretches(log, stretch => {
            if (this.about.stretchCount++ < MOST_STRETCHES) this.about.stretches.push({...stretch, said: wordsOf(stretch)});
        });
        log.load(0, log.place);
        library.start('figures');
        library.start('anything');
        this.rows = new Rows(log);
        this.count(log.place);
    }

    // Whether there is anything, and the figures.
    count(length) {
        const {library} = this.log;
        if (this.mayChange !== 0) {
            library.take('anything', length, library.lend('written', 0, 1));
            this.mayChange = numberAt(library.written, 0);
        }
        library.take('figures', length);
    }

    counted() {
        const of = place => numberAt(this.log.library.figures, RIME.FIGURES_COUNTS + place), by = {};
        for (const [refusal, place] of Object.entries(REFUSED)) if (of(place)) by[refusal] = of(place);
        const refused = Object.values(by).reduce((sum, count) => sum + count, 0);
        const [sound, missing, damaged] = [RIME.SHEET_SOUND, RIME.SHEET_MISSING, RIME.SHEET_MARKED_1].map(of);
        return {sound, missing, damaged, refused, refusedBy: by};
    }

    piece(length) {
        const before = this.counted();
        this.count(length);
        const {missing, refused} = this.counted();
        this.rows.take(length, before, missing + refused > before.missing + before.refused);
    }

    handed(given) {
        this.columns.fit(this.log.at.time + given / this.log.channels);
        this.columns.take(this.log, given);
        this.stretches.take(given);
        this.status?.take(given);
    }

    end(fault) {
        const {log, columns, rows: {first, lines, last}} = this, status = this.status?.end();
        const {library} = log, {row, answer} = library;
        this.stretches.end();
        columns.trim(log.at.time);
        if (log.size === log.place) this.rows.take(0, this.counted(), false); // there was no piece
        library.ask('rime_anything_end', library.all('anything'), library.all('anythingHeld'), library.all('answer'));
        const rowRefusal = library.ask('rime_figures_end', library.all('figures'), library.all('row'));
        const named = status?.named() ?? {rates: [], lengths: []}, {gaps, refusedLast, slipped, slips, perhaps} = log;
        return Object.assign(this.about, this.counted(), {
            isFound: numberAt(answer, 0) === 1, number: numberAt(answer, 1), row: [...row], rowRefusal,
            fault, records: log.at.record, times: log.at.time, cut: log.size - log.at.place,
            gaps, refusedLast, slipped, slips, perhaps, columns, first, rows: lines, last,
            named, rate: named.rates[0]?.rate ?? 0, status: status && {lines: status.lines, count: status.count},
        });
    }
}

function scan(log) {
    if (log.refusal) return {size: log.size, refusal: log.refusal};
    const all = new Scan(log);
    return all.end(log.walk(all));
}

function anything({refusal, isFound, number}) {
    return refusal ? `log refused ${refusal}` : `${isFound ? 'yes' : 'no'} ${number}`;
}

// ---- What is asked for while one looks and listens ----
function picture(log, from, past, count) {
    const columns = new Columns(log, count, from, (past - from) / count);
    log.walk({handed(given) { columns.take(log, given); return log.at.time + given / log.channels >= past; }}, log.before(from));
    return columns;
}

// Each channel's sound from a sample time on, as numbers from -1 to 1.
function sound(log, from, count) {
    const channels = Array.from({length: log.channels}, () => new Float32Array(count));
    log.walk({
        handed(given) {
            for (let entry = 0, time = log.at.time - from; entry < given; entry += log.channels, time++)
                if (time >= 0 && time < count)
                    for (let channel = 0; channel < log.channels; channel++)
                        channels[channel][time] = log.top(entry + channel) / 0x80000000;
            return log.at.time + given / log.channels >= from + count;
        },
    }, log.before(from));
    return channels;
}
