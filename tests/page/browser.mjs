// A browser, driven through two pipes by the DevTools protocol: no driver, no package, no port.
import {spawn} from 'node:child_process';
import fs from 'node:fs';
import os from 'node:os';
import path from 'node:path';

const WAIT = 20; // seconds, at most, for anything
const FLAGS = ['--headless', '--remote-debugging-pipe', '--no-first-run', '--disable-gpu', '--window-size=1280,1000',
    '--autoplay-policy=no-user-gesture-required'];
const pause = ms => new Promise(well => setTimeout(well, ms));

// The pipes: what is asked gets its answer, and what is told is kept.
class Pipes {
    constructor(child) {
        Object.assign(this, {child, waiting: new Map(), heard: [], next: 0});
        let held = '';
        child.stdio[4].setEncoding('utf8').on('data', text => {
            const parts = (held + text).split('\0');
            held = parts.pop();
            parts.forEach(part => this.take(JSON.parse(part)));
        });
        child.on('exit', () => { for (const {ill} of this.waiting.values()) ill(Error('the browser ended')); });
    }

    take(message) {
        const asked = this.waiting.get(message.id);
        this.waiting.delete(message.id);
        if (!asked) this.heard.push(message);
        else if (message.error) asked.ill(Error(JSON.stringify(message.error)));
        else asked.well(message.result);
    }

    call(method, params, sessionId) {
        return new Promise((well, ill) => {
            this.waiting.set(++this.next, {well, ill});
            this.child.stdio[3].write(`${JSON.stringify({id: this.next, method, params, sessionId})}\0`);
        });
    }

    told(method) {
        return this.heard.filter(message => message.method === method).map(({params}) => params);
    }
}

export class Browser {
    static async open(page, program) {
        const browser = new Browser();
        browser.folder = fs.mkdtempSync(path.join(os.tmpdir(), 'page-'));
        browser.saved = path.join(browser.folder, 'saved');
        browser.known = new Set();
        fs.mkdirSync(browser.saved);
        const root = process.getuid() === 0 ? ['--no-sandbox'] : []; // its sandbox doesn't start as root
        browser.child = spawn(program, [...FLAGS, `--user-data-dir=${browser.folder}/profile`, ...root],
            {stdio: ['ignore', 'ignore', 'ignore', 'pipe', 'pipe']});
        browser.pipes = new Pipes(browser.child);
        await browser.begin(page);
        return browser;
    }

    async begin(page) {
        const {targetId} = await this.pipes.call('Target.createTarget', {url: 'about:blank'});
        ({sessionId: this.session} = await this.pipes.call('Target.attachToTarget', {targetId, flatten: true}));
        await this.pipes.call('Browser.setDownloadBehavior', {behavior: 'allow', downloadPath: this.saved, eventsEnabled: true});
        for (const domain of ['Page', 'Runtime', 'Network', 'Log', 'DOM']) await this.call(`${domain}.enable`);
        await this.call('Page.navigate', {url: `file://${path.resolve(page)}`});
        await this.until("document.readyState === 'complete' && typeof $ === 'function'");
    }

    call(method, params = {}) {
        return this.pipes.call(method, params, this.session);
    }

    async eval(expression) {
        const given = {expression, awaitPromise: true, returnByValue: true, userGesture: true};
        const {result, exceptionDetails} = await this.call('Runtime.evaluate', given);
        if (exceptionDetails) throw Error(exceptionDetails.exception?.description ?? exceptionDetails.text);
        return result.value;
    }

    async until(expression) {
        for (const end = Date.now() + 1000 * WAIT; Date.now() < end; await pause(50))
            if (await this.eval(expression).catch(() => false)) return;
        throw Error(`waited ${WAIT} s in vain for ${expression}`);
    }

    async drop(files) {
        const data = {items: [], files: files.map(file => path.resolve(file)), dragOperationsMask: 1};
        for (const type of ['dragEnter', 'dragOver', 'drop'])
            await this.call('Input.dispatchDragEvent', {type, x: 300, y: 300, data});
    }

    async choose(files) {
        const {root} = await this.call('DOM.getDocument');
        const {nodeId} = await this.call('DOM.querySelector', {nodeId: root.nodeId, selector: '#files'});
        await this.call('DOM.setFileInputFiles', {nodeId, files: files.map(file => path.resolve(file))});
    }

    async key(key, text) {
        await this.call('Input.dispatchKeyEvent', {type: 'keyDown', key, text});
        await this.call('Input.dispatchKeyEvent', {type: 'keyUp', key});
    }

    // The file that a click saves. Each download is told of twice.
    async save(click) {
        await this.eval(click);
        for (const end = Date.now() + 1000 * WAIT; Date.now() < end; await pause(20)) {
            const begun = this.pipes.told('Browser.downloadWillBegin').find(({guid}) => !this.known.has(guid));
            const ended = begun && this.pipes.told('Browser.downloadProgress')
                .find(({guid, state}) => guid === begun.guid && state !== 'inProgress');
            if (ended?.state === 'canceled') throw Error(`${click}: the download was cancelled`);
            if (!ended) continue;
            this.known.add(begun.guid);
            return path.join(this.saved, begun.suggestedFilename);
        }
        throw Error(`nothing was saved by ${click}`);
    }

    async size(width) {
        await this.call('Emulation.setDeviceMetricsOverride', {width, height: 1000, deviceScaleFactor: 1, mobile: false});
        await pause(400);
    }

    async shot(file, scheme) {
        await this.call('Emulation.setEmulatedMedia', {features: [{name: 'prefers-color-scheme', value: scheme}]});
        await pause(400);
        const {data} = await this.call('Page.captureScreenshot', {captureBeyondViewport: true});
        fs.writeFileSync(file, Buffer.from(data, 'base64'));
    }

    async close() {
        this.pipes.call('Browser.close', {}).catch(() => {});
        const ended = new Promise(well => this.child.exitCode === null ? this.child.on('exit', well) : well());
        await Promise.race([ended, pause(1000 * WAIT).then(() => this.child.kill('SIGKILL'))]);
        fs.rmSync(this.folder, {recursive: true, force: true, maxRetries: 5});
    }
}
