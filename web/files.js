// The files that the page gives away, octet for octet as the desk tool writes them of the same log. What writes one hands its
// parts to `put`: octets, or text.

// Seconds with six decimals, as C's printf has them: of a tie it takes the even digit, and toFixed the upper one.
function seconds(time, rate) {
    const value = time / rate, isTie = Number.isInteger(value * 128) && !Number.isInteger(value * 64);
    if (!isTie) return value.toFixed(6);
    const below = Math.floor(value * 1e6);
    return ((below + below % 2) / 1e6).toFixed(6);
}

// ---- The list, and the salvaged log ----

// The octets of `text` that are the list of a piece, and those that end the list.
function listed(library, length) {
    library.take('list', length, ...library.run('text'), library.lend('written', 0, 1));
    return numberAt(library.written, 0);
}

function listedLast(library) {
    const words = ['list', 'listHeld'].map(name => library.all(name));
    library.ask('rime_list_end', ...words, ...library.run('text'), library.lend('written', 0, 1));
    return numberAt(library.written, 0);
}

function list(log, put) {
    const {library} = log, putText = octets => put(library.text.slice(0, octets));
    library.start('list');
    log.each(length => {
        putText(listed(library, length));
        return library.list[2 * RIME.PIECES_STAGE] > 1; // behind a fault nothing more is read
    });
    putText(listedLast(library));
}

// The new log as places in the old one, by the lines that say which records are left out, and those lines.
function salvage(log) {
    const {library} = log, {written} = library, runs = [], lines = [];
    let from = 0, octets = 0;
    const keep = past => {
        if (past > from) runs.push([from, past]);
        octets -= Math.max(past - from, 0);
    };
    library.start('salvage');
    log.each(length => {
        library.take('salvage', length, ...library.run('made'), ...library.run('text'), library.all('written'));
        octets += numberAt(written, RIME.WRITTEN_OUT);
        for (const line of linesOf(library.said(numberAt(written, RIME.WRITTEN_NOTES)))) {
            const place = log.place + parseInt(line) * RIME.RECORD_OCTETS;
            keep(place);
            from = place + RIME.RECORD_OCTETS;
            lines.push(`${line}\n`);
        }
    });
    keep(numberAt(library.salvage, RIME.SALVAGE_TAKEN));
    if (octets !== 0) throw Error('the slices aren’t the salvaged log'); // as the calls wrote it
    const words = ['salvage', 'salvageHeld'].map(name => library.all(name));
    library.ask('rime_salvage_end', ...words, ...library.run('text'), library.lend('written', 0, 1));
    lines.push(library.said(numberAt(written, 0)));
    return {runs, lines};
}

function linesOf(text) {
    return text.split('\n').slice(0, -1);
}

// ---- The label track ----

// "1, 2 and 5".
function joined(words) {
    return words.length < 2 ? words.join() : `${words.slice(0, -1).join(', ')} and ${words.at(-1)}`;
}

// What a stretch is, as the label track and the page have it.
function wordsOf({mark, channels, from, past}) {
    const what = mark === RIME.MARK_MISSING ? 'missing'
        : `damaged in channel${channels.length > 1 ? 's' : ''} ${joined(channels.map(channel => channel + 1))}`;
    return `${what}: ${past - from === 1 ? `sample ${from}` : `samples ${from} to ${past - 1}`}`;
}

function labelTrack(log, rate, put) {
    const stretches = new Stretches(log, stretch =>
        put(`${seconds(stretch.from, rate)}\t${seconds(stretch.past, rate)}\t${wordsOf(stretch)}\n`));
    log.walk({handed(given) { stretches.take(given); }});
    stretches.end();
}

// ---- The sound ----

// Octets of a sample in the file. Samples of 40 bits are floating point of 64: each has its own value there.
function widthOf(bits) {
    return bits <= 16 ? 2 : bits <= 24 ? 3 : bits <= 32 ? 4 : 8;
}

const SPEAKERS = {1: 0x4, 2: 0x3, 4: 0x33, 6: 0x3F, 8: 0xFF}; // as libsndfile gives them to channels, 0 for other numbers

// The head of a WAV file as libsndfile writes it: extensible, with room for the lengths of RF64, which it is from 4 GiB on.
function wavHead(log, frames, rate, peaks) {
    const width = widthOf(log.bits), data = frames * log.channels * width, block = log.channels * width;
    const peak = peaks.length > 0 ? 16 + 8 * peaks.length : 0, length = 112 + peak;
    const head = new DataView(new ArrayBuffer(length));
    let at = 0;
    const word = letters => { for (const letter of letters) head.setUint8(at++, letter.charCodeAt(0)); };
    const u16 = (...values) => { for (const value of values) head.setUint16(at, value, true), at += 2; };
    const u32 = (...values) => { for (const value of values) head.setUint32(at, value, true), at += 4; };
    const u64 = value => u32(value % 2 ** 32, Math.floor(value / 2 ** 32));
    const file = length + data + data % 2, isLong = file >= 0xFFFFFFFF;
    word(isLong ? 'RF64' : 'RIFF'), u32(isLong ? 0xFFFFFFFF : file - 8), word('WAVE');
    if (isLong) word('ds64'), u32(28), u64(file - 8), u64(data), u64(frames), u32(0);
    else word('JUNK'), u32(24), at += 24;
    word('fmt '), u32(40), u16(0xFFFE, log.channels), u32(rate, rate * block), u16(block, 8 * width, 22, 8 * width);
    u32(SPEAKERS[log.channels] ?? 0, width === 8 ? 3 : 1, 0x00100000, 0xAA000080, 0x719B3800);
    if (isLong) word('PAD '), u32(0);
    else word('fact'), u32(4, frames);
    if (peak) {
        word('PEAK'), u32(peak - 8, 1, 0);
        for (const {value, time} of peaks) head.setFloat32(at, value, true), at += 4, u32(time);
    }
    word('data'), u32(isLong ? 0xFFFFFFFF : data);
    return new Uint8Array(head.buffer);
}

// The samples that were handed out, as the file has them.
function soundOf(log, given) {
    const width = widthOf(log.bits), part = new Uint8Array(given * width), {samples} = log.library;
    if (width === 8) {
        const real = new Float64Array(part.buffer);
        for (let entry = 0; entry < given; entry++)
            real[entry] = ((samples[2 * entry + 1] << 24 >> 24) * 2 ** 32 + samples[2 * entry]) / 2 ** 39;
        return part;
    }
    const up = 32 - log.bits, down = 32 - 8 * width;
    for (let entry = 0, at = 0; entry < given; entry++) {
        let value = samples[2 * entry] << up >> down;
        for (let octet = 0; octet < width; octet++, value >>= 8) part[at++] = value;
    }
    return part;
}

// The highest of each channel in a file of floating point: its head has them as numbers of 32 bits, with the first time of each.
// Of several that are alike in 32 bits libsndfile's time depends on the parts in which the samples came to it.
class Peaks {
    constructor(log) {
        this.found = Array.from({length: widthOf(log.bits) === 8 ? log.channels : 0}, () => ({value: 0, time: 0}));
    }

    take(log, part) {
        const real = new Float64Array(part.buffer);
        for (const [channel, peak] of this.found.entries())
            for (let entry = channel; entry < real.length; entry += log.channels) {
                const value = Math.fround(Math.abs(real[entry]));
                if (value > peak.value) Object.assign(peak, {value, time: log.at.time + Math.floor(entry / log.channels)});
            }
    }
}

// Returns the head, which is known last and stands first.
function wav(log, rate, put) {
    const peaks = new Peaks(log);
    let frames = 0;
    log.walk({
        handed(given) {
            const part = soundOf(log, given);
            if (peaks.found.length > 0) peaks.take(log, part);
            frames += given / log.channels;
            put(part);
        },
    });
    if (frames * log.channels * widthOf(log.bits) % 2) put(new Uint8Array(1));
    return wavHead(log, frames, rate, peaks.found);
}

// ---- The figures of many logs ----

const FIGURES = ['sound', 'missing', 'refused 8', 'refused 9', 'refused 15', 'refused 20', 'marked 0', 'marked 1', 'marked 2'];
const NO_FIGURES = Array(RIME.SHEET_ROW).fill(0);

// The state in a row: empty where all is well.
function stateOf(about) {
    if (!about) return 'unreadable';
    if (about.refusal || about.rowRefusal) return `refused ${about.refusal || about.rowRefusal}`;
    return about.fault ? `broken ${about.fault} at ${about.records}` : '';
}

function perMillion([sound, missing]) {
    return sound + missing === 0 ? 0 : Number(BigInt(missing) * 1000000n / BigInt(sound + missing));
}

// Of {name, about}; about is missing where a log couldn't be read.
function sheet(logs) {
    const rows = logs.map(({about}) => about?.row ?? NO_FIGURES);
    const all = FIGURES.map((_, at) => rows.reduce((sum, row) => sum + row[at], 0));
    const lines = logs.map(({name, about}, at) => [at, ...rows[at], stateOf(about), `"${name.replaceAll('"', '""')}"`].join());
    const names = `log,${FIGURES.join()},missing per million,state,file`;
    return [names, ...lines, `all,${all.join()},${perMillion(all)},,`, ''].join('\n');
}
