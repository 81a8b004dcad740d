// The page: logs come in, what they say is shown, and files go out. picture.js has the picture, sound.js the sound. Logs are read
// in two Workers (door.js): one for long work, one for the picture and the sound, so that one can listen meanwhile.
'use strict';

const $ = id => document.getElementById(id);
const ASSUMED_RATE = 48000, MOST_SHOWN = 500;
const MOST_FULL = 100; // logs of which all is kept; of one after them the figures alone, and it is read again when it is chosen
const logs = [];
let current = null;

// ---- The Workers ----
class Helper {
    constructor() {
        this.url = URL.createObjectURL(new Blob([$('reader').textContent], {type: 'text/javascript'}));
        this.asked = new Map();
        this.next = 0;
        this.start();
    }

    start() {
        this.worker = new Worker(this.url);
        this.worker.onmessage = ({data: {id, done, answer, error}}) => {
            const {well, ill, told} = this.asked.get(id);
            if (done !== undefined) return told?.(done);
            this.asked.delete(id);
            error === undefined ? well(answer) : ill(Error(error));
        };
        this.worker.onerror = event => {
            event.preventDefault();
            this.end(`it can’t be read here (${event.message})`);
        };
    }

    end(why) {
        this.worker.terminate();
        const left = [...this.asked.values()];
        this.asked.clear();
        this.start();
        for (const {ill} of left) ill(Error(why));
    }

    ask(what, given, told) {
        return new Promise((well, ill) => {
            this.asked.set(++this.next, {well, ill, told});
            this.worker.postMessage({...given, what, id: this.next});
        });
    }
}
const long = new Helper(), quick = new Helper();

// Long work, one at a time, with a bar. Stop ends what is under way and what waits.
let busy = Promise.resolve(), stops = 0;
async function workOn(words, what, {log, ...given}) {
    $('work').hidden = false;
    $('bar').value = 0;
    $('bar-words').textContent = words;
    try {
        if (log) await long.ask('open', {key: log.key, file: log.file, points: log.points});
        return await long.ask(what, {...given, key: log?.key}, done => { $('bar').value = done; });
    } finally {
        $('work').hidden = true;
    }
}

function work(...words) {
    const mine = stops, done = busy.then(() => {
        if (stops !== mine) throw Error('it was stopped');
        return workOn(...words);
    });
    busy = done.catch(() => {});
    return done;
}
$('halt').onclick = () => {
    stops++;
    long.end('it was stopped');
};

// ---- Words ----
const say = words => { $('say').textContent = words; };
const number = value => value.toLocaleString('en');
const many = (value, word) => `${number(value)} ${word}${value === 1 ? '' : 's'}`;
const hex = octet => octet.toString(16).toUpperCase().padStart(2, '0');

function clock(seconds) {
    const ms = Math.round(seconds * 1000), two = value => String(Math.floor(value)).padStart(2, '0');
    return `${Math.floor(ms / 3600000)}:${two(ms / 60000 % 60)}:${two(ms / 1000 % 60)}.${String(ms % 1000).padStart(3, '0')}`;
}

// The rate by which a log's times are counted: what was asked for, what its channel status says, or what is assumed.
const rateOf = log => log.asked || log.about.rate || ASSUMED_RATE;

function answerOf({about}) {
    if (about.refusal) return `This isn’t a log that can be read: refused ${about.refusal}, ${about.words[about.refusal]}.`;
    return about.isFound ? `Yes, there is something on it: first in record ${about.number} (${about.answer}).`
        : `No, there is nothing on it in ${many(about.number, 'record')} (${about.answer}).`;
}

function rateWords({about, asked}) {
    const others = about.named.rates.filter(({rate}) => rate !== (asked || about.rate));
    const by = asked ? 'As you say.' : about.rate ? 'By channel status.'
        : 'Assumed: a log doesn’t carry it. Change it if it was another.';
    const said = others.map(({rate, blocks, channel}) =>
        `Channel status says ${number(rate)} Hz in ${many(blocks, 'block')}, the first of them in channel ${channel + 1}.`);
    return [by, ...said].join(' ');
}

// Each fact with its kind: something to look at, or nothing.
function factsOf(log) {
    const {about} = log, {words} = about;
    const facts = [
        [`${clock(about.times / rateOf(log))} long; ${many(about.channels, 'channel')} of ${about.bits} bits `
            + `(format ${hex(about.octet)} hex, order ${about.order}).`],
        [`${many(about.sound, 'sound cell')}, ${number(about.missing)} missing in ${many(about.gaps, 'place')}, `
            + (about.slipped ? `${number(about.slipped)} more in ${many(about.slips, 'place')} by second numbers, ` : '')
            + `${number(about.refused)} refused.`, about.missing + about.slipped + about.refused ? 'bad' : ''],
        ...Object.entries(about.refusedBy).map(([refusal, times]) =>
            [`Refused ${refusal}, ${many(times, 'time')}: ${words[refusal]}.`, 'bad']),
    ];
    if (about.refusedLast)
        facts.push([`${number(about.refusedLast)} of them after the last sound cell: no silence stands for them.`, 'bad']);
    if (about.perhaps)
        facts.push([`The second number of the last cell is out of step: perhaps ${many(about.perhaps, 'cell')} more are missing `
            + 'before it; nothing is put in.', 'bad']);
    if (about.damaged) facts.push([`${many(about.damaged, 'sample')} damaged: the protection bits disagree.`, 'doubt']);
    if (about.fault)
        facts.push([`Broken ${about.fault} at record ${number(about.records)}: ${words[about.fault]}; `
            + `${many(about.cut, 'octet')} cut.`, 'bad']);
    if (about.named.lengths.length > 0) facts.push([`Channel status says words of ${about.named.lengths.join(' and ')} bits.`]);
    return facts;
}

// ---- Files come in ----
async function add(files) {
    await Promise.all(files.map(async file => {
        const log = {file, key: logs.length, name: file.name, asked: 0};
        logs.push(log);
        try {
            Object.assign(log, await work(`Reading ${file.name}`, 'scan', {log}));
        } catch (error) {
            log.error = error.message;
        }
        showRow(log);
        say(`${file.name}: ${log.error ?? answerOf(log)}`);
        if (!current && log.about) show(log);
        else if (log.key >= MOST_FULL && log.about) thin(log);
    }));
}

function thin(log) {
    const {columns, stretches, status, rows, ...figures} = log.about;
    log.about = {...figures, isThin: !figures.refusal};
}
$('files').onchange = event => {
    add([...event.target.files]);
    event.target.value = '';
};
for (const kind of ['dragenter', 'dragover', 'dragleave', 'drop'])
    addEventListener(kind, event => {
        event.preventDefault();
        document.body.classList.toggle('over', kind === 'dragenter' || kind === 'dragover');
        if (kind === 'drop') add([...event.dataTransfer.files]);
    });

// ---- The table ----
function cell(row, content, kind = '') {
    const td = row.insertCell();
    td.className = kind;
    td.append(content);
    return td;
}

function button(words, onclick) {
    return Object.assign(document.createElement('button'), {type: 'button', textContent: words, onclick});
}

function showRow(log) {
    const {about} = log;
    $('table').hidden = false;
    log.row ??= $('rows').insertRow();
    log.row.replaceChildren();
    if (log === current) log.row.setAttribute('aria-current', 'true');
    else log.row.removeAttribute('aria-current');
    cell(log.row, about ? button(log.name, () => show(log, true)) : log.name);
    if (!about) return void (cell(log.row, `Not read: ${log.error}`).colSpan = 7);
    if (about.refusal) return void (cell(log.row, about.answer).colSpan = 7);
    cell(log.row, about.answer);
    cell(log.row, clock(about.times / rateOf(log)));
    for (const key of ['sound', 'missing', 'refused', 'damaged']) cell(log.row, number(about[key]), 'n');
    cell(log.row, about.fault ? `broken ${about.fault}, ${many(about.cut, 'octet')} cut` : 'whole');
}

// ---- One log ----
async function show(log, go = false) {
    stop();
    try {
        if (log.about.isThin) Object.assign(log, await work(`Reading ${log.name}`, 'scan', {log}));
    } catch (error) {
        return say(`${log.name}: ${error.message}`);
    }
    const before = current, {about} = log, isRead = !about.refusal;
    current = log;
    for (const one of [before, log]) if (one) showRow(one);
    $('log').hidden = false;
    $('log-head').textContent = log.name;
    $('answer').textContent = answerOf(log);
    for (const id of ['saves', 'more', 'rate-part']) $(id).hidden = !isRead;
    $('hear').hidden = !isRead || about.times === 0;
    showList(about);
    $('facts').replaceChildren();
    if (isRead) {
        showChannels(about);
        log.view ??= {from: 0, past: Math.max(about.times, 1)};
        log.cursor ??= 0;
        showTimes(log);
        quick.ask('open', {key: log.key, file: log.file, points: log.points})
            .then(() => draw(), error => say(`${log.name}: ${error.message}`));
    }
    if (go) $('log-head').focus();
}

function showList(about) {
    const lines = about.refusal ? [about.answer] : [...about.first, ...about.rows, ...about.last];
    $('list').textContent = lines.join('\n');
    const told = about.refusal ? 0 : about.gaps + about.refused, shown = about.rows?.length ?? 0;
    $('list-say').textContent = told > shown ? `The first ${number(shown)} of ${number(told)}; the whole list has all.`
        : 'The lines that aren’t “sound 0”: records before which cells are missing, and records that were refused.';
}

function showChannels({channels}) {
    const pairs = Array.from({length: channels >> 1}, (_, pair) => [2 * pair, 2 * pair + 1]);
    const options = [...pairs, ...Array.from({length: channels}, (_, channel) => [channel])];
    $('hear-channels').replaceChildren(...options.map(chosen =>
        new Option(`channel${chosen.length > 1 ? 's' : ''} ${chosen.map(channel => channel + 1).join(' and ')}`, chosen.join())));
}

// All that depends on the rate.
function showTimes(log) {
    const {about} = log, rate = rateOf(log);
    $('rate').value = rate;
    $('rate-say').textContent = rateWords(log);
    $('facts').replaceChildren(...factsOf(log).map(([words, kind = '']) =>
        Object.assign(document.createElement('li'), {textContent: words, className: kind})));
    showStretches(log);
    const by = {asked: log.asked, rate, isAssumed: !log.asked && !about.rate};
    const few = {status: about.status, channels: about.channels};
    quick.ask('statusLines', {about: few, rate: by}).then(lines => {
        if (log !== current) return;
        $('status').textContent = lines.join('\n');
        const left = (about.status?.count ?? 0) - lines.length;
        $('status-say').textContent = left > 0 ? `The first ${number(lines.length)} lines; ${number(left)} more.` : '';
    });
}

function stretchWords(count, shown, overhead) {
    if (count > shown) return `The first ${number(shown)} of ${many(count, 'place')}; the labels have all.`;
    if (count > 0) return `${many(count, 'place')}. Choose one to go there.`;
    return overhead ? 'Nothing is missing or damaged.' : 'A format without overhead doesn’t show what is missing or damaged.';
}

function showStretches(log) {
    const {stretches, stretchCount, overhead} = log.about, rate = rateOf(log), shown = stretches.slice(0, MOST_SHOWN);
    $('stretch-table').hidden = stretchCount === 0;
    $('stretch-say').textContent = stretchWords(stretchCount, shown.length, overhead);
    $('stretches').replaceChildren();
    for (const stretch of shown) {
        const row = $('stretches').insertRow();
        cell(row, button(clock(stretch.from / rate), () => goTo(stretch)));
        cell(row, clock(stretch.past / rate));
        cell(row, stretch.said, stretch.said.startsWith('missing') ? 'bad' : 'doubt');
    }
}

$('rate').onchange = () => {
    const rate = Number($('rate').value);
    if (!$('rate').checkValidity() || !rate) return say('The rate is a whole number from 1 to 655,350.');
    stop();
    current.asked = rate;
    showRow(current);
    showTimes(current);
    draw();
};

// ---- Files go out ----
function save(blob, name) {
    const url = URL.createObjectURL(blob), link = Object.assign(document.createElement('a'), {href: url, download: name});
    link.click();
    setTimeout(() => URL.revokeObjectURL(url), 60000);
    say(`${name}: ${many(blob.size, 'octet')}.`);
}

$('saves').onclick = async ({target}) => {
    const what = target.dataset.get, log = current, base = log.name.replace(/\.log$/, '');
    if (!what) return;
    const name = {wav: `${base}.wav`, labels: `${base}.txt`, salvage: `${base}-salvaged.log`, list: `${base}-list.txt`}[what];
    try {
        const made = await work(`Making ${name}`, what, {log, rate: rateOf(log)});
        if (made.size === 0) return say('Nothing is missing or damaged: there are no labels to save.');
        save(made.blob ?? made, name);
        if (made.lines) say(`${name}: ${made.lines.at(-1)}`);
    } catch (error) {
        say(`${name}: ${error.message}`);
    }
};

$('get-sheet').onclick = async () => {
    const few = ({refusal, row, rowRefusal, fault, records}) => ({refusal, row, rowRefusal, fault, records});
    const rows = logs.filter(log => log.about || log.error).map(({name, about}) => ({name, about: about && few(about)}));
    try {
        save(await work('Making the figures', 'sheet', {rows}), 'figures.csv');
    } catch (error) {
        say(`figures.csv: ${error.message}`);
    }
};
