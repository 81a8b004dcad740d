// The vectors through the library as WebAssembly, under Node.   usage: vectors.mjs LIBRARY.wasm FOLDER
// tests/vectors/README.md has the form of a line. A case with a number that a type can't hold is passed over.
import fs from 'node:fs';
import path from 'node:path';
import {Lender, Wide, both, hex, list, numbers, octets, one, some, u32, u64, u8} from './lent.mjs';

const [wasm, folder] = process.argv.slice(2), lender = new Lender(wasm);
const ask = (...words) => lender.ask(...words);
const lent = (...words) => lender.lent(...words), empty = (...words) => lender.empty(...words);

// A receiver's state stands as six numbers, its count as one; in memory the count is four octets.
function receiver(field) {
    const fields = numbers(field), count = fields[5];
    if (count >= 1n << 32n) throw new Wide();
    return lent(1, [...fields.slice(0, 5), ...[0n, 8n, 16n, 24n].map(by => count >> by & 255n)]);
}
const said = state => [...some(state, 5), lender.memory.getUint32(state.at + 5, true)].join();

// What a fresh receiver hands out of records in a row.
function line([format, channels, order, arrivals]) {
    const state = empty(1, 9), report = empty(1, 4), cells = octets(arrivals);
    const runs = [empty(8, 720), empty(1, 720), empty(1, 720)];
    const cell = empty(1, 48), facts = empty(4, 4), answers = [], out = [[], [], []];
    ask('rime_format', u32(format), facts.at);
    const slots = Number(one(facts, 3)), entries = slots - slots % Number(channels);
    ask('rime_receiver_open', u32(format), u32(channels), u32(order), state.at);
    for (let at = 0; at < cells.length; at += 49) {
        cells.slice(at + 1, at + 49).forEach((octet, index) => lender.put(cell, index, BigInt(octet)));
        const refusal = ask('rime_receive', state.at, ...both(cell), cells[at], ...runs.flatMap(both), report.at);
        answers.push(refusal, ...some(report, 3));
        const given = refusal ? 0 : (Number(one(report)) + 1) * entries;
        runs.forEach((run, index) => out[index].push(...some(run, given)));
    }
    return [answers.join() || '-', said(state), ...out.map(run => run.join() || '-')];
}

const boxes = {
    format([format]) {
        const facts = empty(4, 4);
        return [ask('rime_format', u32(format), facts.at), ...some(facts, 4)];
    },
    sender_open([format, channels, order, number, wanted, second]) {
        const state = empty(1, 7), words = [format, channels, order, number, wanted, second].map(u32);
        return [ask('rime_sender_open', ...words, state.at), list(state)];
    },
    receiver_open([format, channels, order]) {
        const state = empty(1, 9);
        return [ask('rime_receiver_open', u32(format), u32(channels), u32(order), state.at), said(state)];
    },
    send([state, indication, samples, ancillary, cell]) {
        const s = lent(1, numbers(state)), c = lent(1, octets(cell));
        const a = lent(8, numbers(samples)), b = lent(1, numbers(ancillary));
        return [ask('rime_send', s.at, Number(indication), ...both(a), ...both(b), ...both(c)), list(s), hex(c)];
    },
    receive([state, cell, indication, samples, ancillary, marks]) {
        const s = receiver(state), c = lent(1, octets(cell)), report = empty(1, 4);
        const runs = [lent(8, numbers(samples)), lent(1, numbers(ancillary)), lent(1, numbers(marks))];
        const refusal = ask('rime_receive', s.at, ...both(c), Number(indication), ...runs.flatMap(both), report.at);
        return [refusal, said(s), ...runs.map(list), ...some(report, 4)];
    },
    line,
    slip([watch, report]) {
        const w = lent(1, numbers(watch)), slip = empty(1, 2);
        return [ask('rime_slip', w.at, lent(1, numbers(report)).at, slip.at), list(w), ...some(slip, 2)];
    },
    status_step([bits, block, ancillary, mark]) {
        const b = lent(1, [bits, ...octets(block)]), out = empty(1, 25);
        return [ask('rime_status_step', b.at, u8(ancillary), u8(mark), out.at), one(b), hex(b, 1), one(out), hex(out, 1)];
    },
    status_run([bits, block, ancillary, marks, from, step]) {
        const b = lent(1, [bits, ...octets(block)]), a = lent(1, octets(ancillary)), m = lent(1, octets(marks));
        const out = empty(1, 25), next = empty(8, 1);
        const refusal = ask('rime_status_run', b.at, ...both(a), ...both(m), u64(from), u64(step), out.at, next.at);
        return [refusal, one(b), hex(b, 1), one(out), hex(out, 1), one(next)];
    },
    check_character([block]) {
        return [ask('rime_check_character', lent(1, [...octets(block), 0].slice(0, 24)).at)];
    },
};

const logs = {
    read_header([log]) {
        const header = empty(4, 4);
        return [ask('rime_log_header', ...both(lent(1, octets(log))), header.at), ...some(header, 4)];
    },
    read_record([log, place]) {
        const record = empty(8, 4);
        return [ask('rime_log_record', ...both(lent(1, octets(log))), u64(place), record.at), ...some(record, 4)];
    },
    judge_log([state, log, place, reports]) {
        const s = receiver(state), r = lent(1, octets(reports)), counts = empty(8, 3);
        const refusal = ask('rime_judge_log', s.at, ...both(lent(1, octets(log))), u64(place), ...both(r), counts.at);
        return [refusal, said(s), hex(r), ...some(counts, 3)];
    },
    send_log([state, indications, samples, ancillary, log, place]) {
        const s = lent(1, numbers(state)), l = lent(1, octets(log)), counts = empty(8, 4);
        const a = lent(8, numbers(samples)), b = lent(1, numbers(ancillary));
        const words = [Number(indications), ...both(a), ...both(b), ...both(l), u64(place)];
        return [ask('rime_send_log', s.at, ...words, counts.at), list(s), hex(l), ...some(counts, 4)];
    },
    receive_log([state, log, place, samples, ancillary, marks]) {
        const s = receiver(state), runs = [lent(8, numbers(samples)), lent(1, octets(ancillary)), lent(1, octets(marks))];
        const words = [...both(lent(1, octets(log))), u64(place), ...runs.flatMap(both)], counts = empty(8, 9);
        const refusal = ask('rime_receive_log', s.at, ...words, counts.at);
        return [refusal, said(s), list(runs[0]), hex(runs[1]), hex(runs[2]), ...some(counts, 9)];
    },
    linelist([log]) {
        const run = lent(1, octets(log)), out = empty(1, 100 + 2 * run.length), listed = empty(8, 2);
        ask('rime_log_list', ...both(run), ...both(out), listed.at);
        return [hex(out, 0, Number(one(listed)))];
    },
    // In pieces of twenty octets, with the octets that may still come put into the state.
    linelist_limit([log, limit]) {
        const state = empty(8, 15), held = empty(1, 49), piece = empty(1, 20), text = empty(1, 216 + 76), written = empty(8, 1);
        const all = octets(log), said = [], take = () => { if (one(written) !== '0') said.push(hex(text, 0, Number(one(written)))); };
        ask('rime_list_start', state.at, held.at);
        lender.put(state, 3, u64(limit));
        for (let from = 0; from < all.length; from += 20) {
            const some = all.slice(from, from + 20);
            some.forEach((octet, at) => lender.put(piece, at, BigInt(octet)));
            ask('rime_list_take', state.at, held.at, piece.at, BigInt(some.length), ...both(text), written.at);
            take();
        }
        ask('rime_list_end', state.at, held.at, ...both(text), written.at);
        take();
        return [said.join('') || '-'];
    },
    anything([log]) {
        const answer = empty(8, 2);
        return [ask('rime_anything', ...both(lent(1, octets(log))), answer.at), ...some(answer, 2)];
    },
    salvage([log, out, left]) {
        const o = lent(1, octets(out)), n = lent(8, numbers(left)), counts = empty(8, 3);
        const refusal = ask('rime_salvage', ...both(lent(1, octets(log))), ...both(o), ...both(n), counts.at);
        return [refusal, hex(o), list(n), ...some(counts, 3)];
    },
    sheet([all, lengths, count]) {
        const rows = empty(4, Number(count)), totals = empty(4, 10);
        const words = [lent(1, octets(all)), lent(8, numbers(lengths)), rows];
        const refusal = ask('rime_sheet', ...words.flatMap(both), totals.at);
        return [refusal, refusal ? '-' : list(rows), list(totals)];
    },
};

const beside = {
    aes3_import([preambles, subframes]) {
        const p = lent(1, octets(preambles)), f = lent(4, numbers(subframes)), a = empty(8, 2), b = empty(1, 2);
        return [ask('rime_aes3_import', p.at, f.at, a.at, b.at), list(a), list(b)];
    },
    aes3_export([samples, ancillary]) {
        const a = lent(8, numbers(samples)), b = lent(1, numbers(ancillary)), p = empty(1, 2), f = empty(4, 2);
        return [ask('rime_aes3_export', a.at, b.at, p.at, f.at), hex(p), list(f)];
    },
    units_export([format, channels, size, samples, ancillary, out]) {
        const a = lent(8, numbers(samples)), b = lent(1, numbers(ancillary)), o = lent(1, octets(out)), units = empty(8, 3);
        const words = [u32(format), u32(channels), u64(size), ...both(a), ...both(b), ...both(o)];
        return [ask('rime_units_export', ...words, units.at), hex(o), ...some(units, 3)];
    },
    unit_read([format, channels, unit, samples, ancillary]) {
        const a = lent(8, numbers(samples)), b = lent(1, numbers(ancillary)), entries = empty(8, 1);
        const words = [u32(format), u32(channels), ...both(lent(1, octets(unit))), ...both(a), ...both(b)];
        return [ask('rime_unit_read', ...words, entries.at), list(a), list(b), one(entries)];
    },
    circuits_check([format, channels, frequency, shares, allowances]) {
        const s = lent(4, numbers(shares)), a = lent(4, numbers(allowances)), answer = empty(4, 2);
        const words = [u32(format), u32(channels), u32(frequency), ...both(s), ...both(a)];
        return [ask('rime_circuits_check', ...words, answer.at), ...some(answer, 2)];
    },
    circuits_plan([format, channels, shares]) {
        const s = lent(4, numbers(shares));
        return [ask('rime_circuits_plan', u32(format), u32(channels), ...both(s)), list(s)];
    },
};

// Of `slips` the reader is asked (desk.py); the others are calls of rime_management.h.
const ELSEWHERE = new Set(['slips', 'controller', 'equipment', 'port_packing', 'port_settings']);
const kinds = {...boxes, ...logs, ...beside};
let cases = 0, wide = 0, wrong = 0;

function compare(text) {
    const [given, want] = text.split(' => '), [kind, ...fields] = given.split(' ');
    if (want === undefined || ELSEWHERE.has(kind)) return;
    if (!kinds[kind]) throw Error(`no call is known for the vectors ${kind}`);
    lender.clear();
    let got;
    try {
        got = kinds[kind](fields).join(' ');
    } catch (error) {
        if (!(error instanceof Wide)) throw error;
        wide++;
        return;
    }
    cases++;
    if (got === want && !lender.isSpilled()) return;
    const more = lender.isSpilled() ? ', and it wrote past the end of a run' : '';
    if (wrong++ < 5) console.log(`${text.slice(0, 300)}\n  got ${got.slice(0, 300)}${more}`);
}

for (const file of fs.readdirSync(folder).filter(name => name.endsWith('.txt')))
    for (const text of fs.readFileSync(path.join(folder, file), 'utf8').split('\n')) compare(text);
console.log(`page: ${cases} vectors through the wasm library, ${wrong} differences, ${wide} passed over`);
process.exit(wrong > 0 || cases < 6000 ? 1 : 0);
