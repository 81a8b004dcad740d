// The page in Chromium: logs are dropped, texts are read, and every file that it saves is compared octet for octet with what the
// desk tool made (desk.py).   usage: page.mjs PAGE.html FOLDER TOOL [PICTURES]
import assert from 'node:assert/strict';
import {spawnSync} from 'node:child_process';
import fs from 'node:fs';
import path from 'node:path';
import {Browser} from './browser.mjs';

const [page, folder, tool, pictures] = process.argv.slice(2), logs = path.join(folder, 'logs'), desk = path.join(folder, 'desk');
const ASKED = 44100, ASKED_OF = ['pieces.log', 'all-02.log', 'slips.log']; // as desk.py asks every third log
const NAMED = '<img src=x onerror=boom()>"&.log';
fs.copyFileSync(path.join(logs, 'last.log'), path.join(logs, NAMED));
const LOGS = ['pieces.log', 'tie.log', 'all-02.log', 'slips.log', 'all-5a.log', 'no-records.log', 'nothing.log', NAMED];
const made = (log, ending) => fs.readFileSync(path.join(desk, `${log === NAMED ? 'last.log' : log}.${ending}`));
const of = command => {
    const out = spawnSync(tool, [command, '-q', ...LOGS], {cwd: logs, maxBuffer: 1 << 28}).stdout;
    return out.toString();
};
let compared = 0;

function same(file, want, what) {
    const got = fs.readFileSync(file);
    if (what.includes('all-5a.log.wav')) for (const wav of [got, want]) // libsndfile's times of peaks: reader.mjs
        for (let channel = 0; channel < 8; channel++) wav.writeUInt32LE(0, 104 + 16 + 8 * channel + 4);
    assert.ok(got.equals(want), `${what} differs`);
    fs.rmSync(file);
    compared++;
}

async function nothingLeaves(browser) {
    const image = "new Promise(well => { const image = new Image(); image.onload = () => well('sent');"
        + " image.onerror = () => well('refused'); image.src = 'http://127.0.0.1:9/x.png'; })";
    assert.equal(await browser.eval("fetch('http://127.0.0.1:9/').then(() => 'sent', () => 'refused')"), 'refused');
    assert.equal(await browser.eval(image), 'refused');
    const refused = browser.pipes.told('Log.entryAdded').filter(({entry}) => entry.text.includes('Content Security Policy'));
    assert.ok(refused.length >= 2, 'the policy refuses both, and not only a port where nobody listens');
}

async function comeIn(browser) {
    await browser.drop([path.join(logs, LOGS[0])]);
    await browser.until("$('rows').rows.length === 1 && !$('log').hidden");
    await browser.choose(LOGS.slice(1).map(name => path.join(logs, name)));
    await browser.until(`$('rows').rows.length === ${LOGS.length}`);
}

async function save(browser, log, what, ending) {
    same(await browser.save(`document.querySelector('[data-get=${what}]').click()`), made(log, ending), `${log}.${ending}`);
}

async function tryLog(browser, log, at, answers, lists) {
    const text = id => browser.eval(`$('${id}').textContent`);
    await browser.eval(`document.querySelectorAll('#rows button')[${at}].click()`);
    await browser.until(`$('log-head').textContent === ${JSON.stringify(log)}`);
    assert.ok((await browser.eval(`$('rows').rows[${at}].innerText`)).includes(answers[at]), `${log}: ${answers[at]}`);
    assert.equal((await text('answer')).includes(answers[at].replace(/^log /, '')), true, `${log}: the sentence`);
    const plain = lists[at].trim().split('\n').filter(line => !/^\d+ sound 0 /.test(line)).join('\n');
    assert.equal(await text('list'), plain);
    if (plain.startsWith('log refused')) return assert.ok(await browser.eval("$('saves').hidden"));
    if (ASKED_OF.includes(log)) await browser.eval(`$('rate').value = ${ASKED}; $('rate').onchange()`);
    const {slipped, slips} = JSON.parse(made(log, 'json')).cells;
    const grouped = count => count.toLocaleString('en-US');
    const told = `, ${grouped(slipped)} more in ${grouped(slips)} place${slips === 1 ? '' : 's'} by second numbers, `;
    assert.equal((await text('facts')).includes(told), slips > 0, `${log}: what second numbers tell`);
    await browser.until(`$('status').textContent === ${JSON.stringify(made(log, 'status').toString().trim())}`);
    for (const [what, ending] of [['list', 'list'], ['salvage', 'salvaged'], ['wav', 'wav']])
        if (ending === 'list') same(await browser.save("document.querySelector('[data-get=list]').click()"),
            Buffer.from(lists[at]), `${log}: the list`);
        else await save(browser, log, what, ending);
    if (made(log, 'labels').length > 0) return save(browser, log, 'labels', 'labels');
    await browser.eval("document.querySelector('[data-get=labels]').click()");
    await browser.until("$('say').textContent.startsWith('Nothing is missing or damaged')");
}

// By keys alone: to the next gap, closer, play, to the ends.
async function tryKeys(browser) {
    await browser.eval("document.querySelectorAll('#rows button')[0].click()");
    await browser.until('current === logs[0] && current.drawn');
    await browser.eval("$('canvas').focus()");
    await browser.key('n', 'n');
    const [gap, cursor] = await browser.eval('[current.about.stretches[0].from, current.cursor]');
    assert.equal(cursor, Math.max(gap - ASKED, 0), 'a second before the gap');
    await browser.key('n', 'n');
    assert.equal(await browser.eval('current.gap === current.about.stretches[1]'), true, 'the next gap');
    await browser.key('p', 'p');
    assert.equal(await browser.eval('current.gap === current.about.stretches[0]'), true, 'the gap before');
    const wide = await browser.eval('current.view.past - current.view.from');
    await browser.key('+', '+');
    assert.ok(await browser.eval('current.view.past - current.view.from') < wide, 'closer');
    await browser.key('Home');
    assert.equal(await browser.eval('current.cursor'), 0);
    await browser.key('ArrowRight');
    assert.ok(await browser.eval('current.cursor') > 0);
    await browser.key('End');
    assert.equal(await browser.eval('current.cursor === current.about.times'), true);
}

// What is handed to WebAudio is what the WAV has, silence in gaps; the cursor moves; space ends it.
async function tryPlay(browser) {
    await browser.eval(`window.heard = []; const was = AudioBuffer.prototype.copyToChannel;
        AudioBuffer.prototype.copyToChannel = function (from, channel) {
            heard.push([channel, ...from]);
            return was.call(this, from, channel);
        }`);
    const from = await browser.eval('goTo(current.about.stretches[1]), current.cursor');
    await browser.key(' ', ' ');
    await browser.until(`current.cursor > ${from} + ${ASKED / 4} && $('play').textContent === 'Pause' && heard.length >= 2`);
    await browser.key(' ', ' ');
    assert.equal(await browser.eval("$('play').textContent"), 'Play');
    const wav = made(LOGS[0], 'wav'), heard = await browser.eval('heard.slice(0, 2)');
    for (const [channel, ...samples] of heard)
        for (const [at, sample] of samples.entries())
            assert.equal(sample * 0x800000, wav.readIntLE(112 + ((from + at) * 2 + channel) * 3, 3), `sample ${from + at}`);
    assert.equal(heard[0].length, ASKED + 1);
}

// A file that changes is told of, and so is a folder; a log of nothing is no blank page.
async function tryBad(browser) {
    const count = LOGS.length, gone = path.join(folder, 'gone.log');
    fs.mkdirSync(path.join(folder, 'a folder'), {recursive: true});
    fs.copyFileSync(path.join(logs, 'pieces.log'), gone);
    await browser.choose([gone]);
    await browser.until(`$('rows').rows.length === ${count + 1}`);
    fs.truncateSync(gone, 1000);
    await browser.eval(`document.querySelectorAll('#rows button')[${count}].click()`);
    await browser.until(`$('log-head').textContent === 'gone.log'`);
    await browser.eval("document.querySelector('[data-get=wav]').click()");
    await browser.until("/gone.*(changed|shorter)/.test($('say').textContent)");
    await browser.drop([path.join(folder, 'a folder')]);
    await browser.until(`$('rows').rows.length === ${count + 2} && $('rows').rows[${count + 1}].innerText.includes('Not read')`);
}

async function tryPictures(browser) {
    if (!pictures) return;
    await browser.eval("document.querySelectorAll('#rows button')[0].click()");
    for (const scheme of ['light', 'dark']) await browser.shot(path.join(pictures, `${scheme}.png`), scheme);
    await browser.size(360);
    assert.ok(await browser.eval('document.documentElement.scrollWidth <= 360'), 'usable at 360 pixels');
    await browser.shot(path.join(pictures, 'narrow.png'), 'light');
}

const browser = await Browser.open(page, process.env.BROWSER ?? 'chromium');
try {
    const answers = of('anything').trim().split('\n').map((line, at) => line.slice(LOGS[at].length + 2));
    const lists = LOGS.map(name => spawnSync(tool, ['list', '-q', name], {cwd: logs, maxBuffer: 1 << 28}).stdout.toString());
    await nothingLeaves(browser);
    await comeIn(browser);
    for (const [at, log] of LOGS.entries()) {
        await new Promise(well => setTimeout(well, 1200)); // Chromium drops the eleventh of downloads that follow within a second
        await tryLog(browser, log, at, answers, lists);
    }
    same(await browser.save("$('get-sheet').click()"), Buffer.from(of('sheet')), 'the sheet');
    await tryKeys(browser);
    await tryPlay(browser);
    await tryBad(browser);
    await tryPictures(browser);
    const asked = browser.pipes.told('Network.requestWillBeSent').map(({request}) => request.url);
    assert.deepEqual(asked.filter(url => !/^(file|blob|data):/.test(url) && !url.startsWith('http://127.0.0.1:9/')), []);
    const wrong = browser.pipes.told('Runtime.exceptionThrown');
    assert.equal(wrong.length, 0, JSON.stringify(wrong[0]));
    console.log(`page: ${LOGS.length} logs in the browser, ${compared} files compared with the desk tool's, all alike`);
} finally {
    await browser.close();
}
