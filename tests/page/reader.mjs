// The page's reader under Node, over logs of which desk.py has the desk tool's answers.   usage: reader.mjs READER.js FOLDER
// Compared octet for octet: anything, list, sheet; and of the logs that it was asked them of, the salvaged log with its lines,
// channel status, WAV and label track.
import fs from 'node:fs';
import path from 'node:path';
import vm from 'node:vm';

const NAMES = 'Library, Log, scan, anything, sheet, list, salvage, labelTrack, statusLines, wav, wavHead, seconds, picture,'
    + 'sound';
const RATE = 44100, ASSUMED = 48000; // as desk.py asks every third log
const [reader, folder] = process.argv.slice(2);
const room = vm.runInThisContext(`${fs.readFileSync(reader)}\n;({${NAMES}})`), library = new room.Library();
const logs = path.join(folder, 'logs'), desk = path.join(folder, 'desk');
let compared = 0, wrong = 0;

function same(what, got, want) {
    compared++;
    if (Buffer.compare(Buffer.from(got), Buffer.from(want)) === 0) return;
    const [mine, its] = [got, want].map(made => made.toString().slice(0, 300));
    if (wrong++ < 5) console.log(`${what}:\n  the reader    ${mine}\n  the desk tool ${its}`);
}

const linesOf = text => text.toString().split('\n');

function source(octets) {
    return {size: octets.length, read: (from, past) => new Uint8Array(octets.subarray(from, past))};
}

function gathered(make) {
    const parts = [], first = make(part => parts.push(Buffer.from(part)));
    return Buffer.concat([...first ? [first] : [], ...parts]);
}

// Of samples of 40 bits the head has each channel's peak, and when it was. libsndfile's times depend on the parts it was given.
function withoutPeakTimes(log, wav) {
    for (let channel = 0; channel < log.channels && log.bits === 40; channel++) wav.writeUInt32LE(0, 104 + 16 + 8 * channel + 4);
    return wav;
}

function one(name, octets, log, about, asked) {
    const base = path.join(desk, name), has = ending => fs.existsSync(`${base}.${ending}`);
    const made = ending => fs.readFileSync(`${base}.${ending}`), rate = asked || about.rate || ASSUMED;
    if (!has('status')) return;
    if (log.refusal) return same(`${name}: no file of a refused log`, String(has('wav') || has('salvaged')), 'false');
    const {runs, lines} = room.salvage(log);
    same(`${name}: the salvaged log`, Buffer.concat(runs.map(([from, past]) => octets.subarray(from, past))), made('salvaged'));
    same(`${name}: the salvage's lines`, lines.join(''), made('lines'));
    same(`${name}: the label track`, gathered(put => room.labelTrack(log, rate, put)), made('labels'));
    const wav = gathered(put => room.wav(log, rate, put));
    same(`${name}: the sound`, withoutPeakTimes(log, wav), withoutPeakTimes(log, made('wav')));
    const {sound, missing, gaps, slipped, slips, perhaps, refused, refusedLast} = about;
    const cells = {sound, missing, gaps, slipped, slips, waits: perhaps > 0, refused, refused_last: refusedLast};
    same(`${name}: the counts of cells`, JSON.stringify(cells), JSON.stringify(JSON.parse(made('json')).cells));
    same(`${name}: damaged samples`, String(about.damaged), String(JSON.parse(made('json')).samples_damaged));
    const status = room.statusLines(about, {asked, rate, isAssumed: !asked && !about.rate});
    same(`${name}: channel status`, status.map(line => `${line}\n`).join(''), made('status'));
}

// A near picture and a second of sound, from any point, are what a walk from the start gives.
function near(name, log, about, part) {
    const from = Math.floor(about.times * part), count = Math.min(about.times - from, 300);
    const columns = room.picture(log, from, from + count, count), heard = room.sound(log, from, count);
    const whole = room.sound(new room.Log(library, log.source), from, count);
    same(`${name}: the sound from ${from} on`, heard.join(), whole.join());
    for (let time = 0; time < count; time++)
        for (let channel = 0; channel < log.channels; channel++) {
            const at = time * log.channels + channel, value = columns.seen[at] & 1 ? columns.low[at] : 0;
            if (Math.fround(value / 0x80000000) === heard[channel][time] && columns.seen[at] !== 0) continue;
            return same(`${name}: a near picture and the sound at ${from + time}`, String(heard[channel][time]), String(value));
        }
    wide(name, room.picture(log, from + 0.3, from + count, 7), heard, from, count);
}

// Columns that begin between two samples and have several each: the lowest and highest of what was heard in each.
function wide(name, columns, heard, from, count) {
    const low = new Array(columns.low.length).fill(Infinity), seen = (columns.seen ?? []).slice();
    for (let time = 0; time < count; time++)
        for (const [channel, samples] of heard.entries()) {
            const column = Math.floor((from + time - columns.from) / columns.unit), at = column * heard.length + channel;
            if (column >= 0 && column < columns.count && !(seen[at] & 4)) low[at] = Math.min(low[at], samples[time]);
        }
    const got = [...columns.low].map((value, at) => seen[at] & 4 || !seen[at] ? Infinity : Math.fround(value / 0x80000000));
    same(`${name}: a picture of several samples a column`, got.join(), low.join());
}

// The lines of the list that are shown: all that aren't `sound 0`, the first thousand, and what ends it.
function shown(name, about, text) {
    if (about.refusal) return;
    const lines = linesOf(text).slice(0, -1).filter(line => !/^\d+ sound 0 /.test(line)), {first, rows, last} = about;
    const few = [...lines.slice(0, 1 + rows.length), ...lines.slice(-last.length)], count = 1 + rows.length + last.length;
    if (rows.length < 1000) same(`${name}: how many lines are shown`, String(count), String(lines.length));
    same(`${name}: the lines that are shown`, [...first, ...rows, ...last].join('\n'), few.join('\n'));
}

// As `list` and `anything` print several logs: a list begins with its log's name, and an answer stands behind it.
const names = fs.readFileSync(path.join(desk, 'anything'), 'utf8').trim().split('\n').map(line => line.split(': ')[0]);
const scanned = [], lists = [], answers = [];
for (const [at, name] of names.entries()) {
    const octets = fs.readFileSync(path.join(logs, name)), log = new room.Log(library, source(octets)), about = room.scan(log);
    scanned.push({name, about});
    answers.push(`${name}: ${room.anything(about)}\n`);
    const text = gathered(put => room.list(log, put));
    lists.push(`${name}:\n`, text);
    shown(name, about, text);
    one(name, octets, log, about, at % 3 === 0 ? RATE : 0);
    for (const part of log.refusal || about.times === 0 ? [] : [0.7, 0.99]) near(name, log, about, part);
}
const differ = (what, got, want) => {
    const mine = linesOf(got), its = linesOf(want), at = mine.findIndex((line, index) => line !== its[index]);
    same(`${what}, line ${at}`, `${mine.length} ${mine[at]}`, `${its.length} ${its[at]}`);
};
differ('anything', answers.join(''), fs.readFileSync(path.join(desk, 'anything')));
differ('list', lists.map(String).join(''), fs.readFileSync(path.join(desk, 'list')));
differ('sheet', room.sheet(scanned), fs.readFileSync(path.join(desk, 'sheet')));
// As the desk tool wrote it of 1,432,013,592 samples in one channel of 56 hex.
const RF64 = '52463634ffffffff57415645647336341c000000b061100001000000486110000100000018cb5a550000000000000000666d742028000000'
    + 'feff010080bb0000803202000300180016001800040000000100000000001000800000aa00389b71504144200000000064617461ffffffff';
const mono = new room.Log(library, source(Buffer.from([0x56, 1, 0])));
same('the head of RF64', Buffer.from(room.wavHead(mono, 1432013592, 48000, [])).toString('hex'), RF64);
same('a tie of printf', room.seconds(375, 48000), '0.007812');
console.log(`page: ${names.length} logs through the reader, ${compared} comparisons with the desk tool, ${wrong} differences`);
process.exit(wrong > 0 || names.length < 100 ? 1 : 0);
