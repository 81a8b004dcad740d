// The picture: each channel's lowest and highest samples, under them a strip of what is missing and damaged, and an axis of time.
const STRIP = 14, AXIS = 20, TALL = 320; // in pixels of the page
const SOUND = 1, DAMAGED = 2, MISSING = 4; // of what was seen in a column
const NEAREST = 64; // sample times over the whole width
const canvas = $('canvas');

// What is nearer than the overview is read anew.
let drawing = 0;
async function draw() {
    const log = current, turn = ++drawing, {about, view} = log;
    if (!view || about.times === 0) return;
    const width = Math.max(1, Math.round(canvas.clientWidth * devicePixelRatio));
    let columns = {...about.columns};
    try {
        if ((view.past - view.from) / about.columns.unit < 2 * width)
            columns = await quick.ask('picture', {key: log.key, from: view.from, past: view.past, count: width});
    } catch (error) {
        return say(`${log.name}: ${error.message}`);
    }
    if (turn !== drawing || log !== current) return;
    log.drawn = columns;
    paint();
}

function colours() {
    const style = getComputedStyle(document.documentElement);
    return name => style.getPropertyValue(`--${name}`);
}

// What the columns between two sample times have of a channel.
function gathered(drawn, channel, from, past) {
    let low = 0x7FFFFFFF, high = -0x80000000, seen = 0;
    const first = Math.floor((from - drawn.from) / drawn.unit + 1e-6);
    const end = Math.min(Math.max(Math.ceil((past - drawn.from) / drawn.unit - 1e-6), first + 1), drawn.count);
    for (let column = first; column < end; column++) {
        const at = column * drawn.channels + channel;
        low = Math.min(low, drawn.low[at]);
        high = Math.max(high, drawn.high[at]);
        seen |= drawn.seen[at];
    }
    return {low, high, seen};
}

// One channel in its part of the picture. No gap is too short to be seen: it is two pixels wide at least.
function paintChannel(pen, log, channel, {top, tall, width, scale}, colour) {
    const {drawn, view} = log, strip = STRIP * scale, per = (view.past - view.from) / width;
    const middle = top + (tall - strip) / 2, half = Math.max((tall - strip) / 2 - 2 * scale, 1);
    pen.fillStyle = colour('line');
    pen.fillRect(0, middle, width, 1);
    for (let x = 0; x < width; x++) {
        const {low, high, seen} = gathered(drawn, channel, view.from + x * per, view.from + (x + 1) * per);
        if (seen & SOUND) {
            pen.fillStyle = colour('wave');
            pen.fillRect(x, middle - high / 0x80000000 * half, 1, Math.max((high - low) / 0x80000000 * half, scale));
        }
        if (seen & (MISSING | DAMAGED)) {
            const short = seen & MISSING ? 0 : strip / 2;
            pen.fillStyle = colour(seen & MISSING ? 'missing' : 'damaged');
            pen.fillRect(x, top + tall - strip + short, Math.max(1, 2 * scale), strip - short - 2 * scale);
        }
    }
}

// A step of 1, 2 or 5 in some place of the number, so that at least 90 pixels lie between two marks.
function stepOf(seconds, wide) {
    const least = seconds * 90 / wide, ten = 10 ** Math.floor(Math.log10(least));
    return [1, 2, 5, 10].map(by => by * ten).find(step => step >= least);
}

function paintAxis(pen, log, {width, height, scale}, colour) {
    const rate = rateOf(log), {from, past} = log.view, seconds = (past - from) / rate, step = stepOf(seconds, width / scale);
    const places = Math.max(0, -Math.floor(Math.log10(step) + 1e-9));
    pen.fillStyle = colour('ink');
    pen.font = `${12 * scale}px system-ui, sans-serif`;
    for (let mark = Math.ceil(from / rate / step); mark * step <= past / rate; mark++) {
        const x = (mark * step - from / rate) / seconds * width, at = mark * step;
        const words = at < 60 ? `${at.toFixed(places)} s`
            : `${Math.floor(at / 60)}:${(at % 60).toFixed(places).padStart(places ? places + 3 : 2, '0')}`;
        pen.fillRect(x, height - AXIS * scale, scale, 5 * scale);
        pen.fillText(words, x + 4 * scale, height - 5 * scale);
    }
}

function paint() {
    const log = current, {about, view, drawn} = log, scale = devicePixelRatio;
    if (!drawn) return;
    const width = canvas.width = Math.round(canvas.clientWidth * scale), height = canvas.height = TALL * scale;
    const pen = canvas.getContext('2d'), colour = colours(), tall = (height - AXIS * scale) / about.channels;
    const memo = new Map(), known = name => memo.get(name) ?? memo.set(name, colour(name)).get(name);
    for (let channel = 0; channel < about.channels; channel++)
        paintChannel(pen, log, channel, {top: channel * tall, tall, width, scale: Math.min(scale, tall / (3 * STRIP))}, known);
    paintAxis(pen, log, {width, height, scale}, known);
    pen.fillStyle = known('ink');
    pen.fillRect((log.cursor - view.from) / (view.past - view.from) * width - scale, 0, 2 * scale, height - AXIS * scale);
    const rate = rateOf(log), at = clock(log.cursor / rate);
    $('where').textContent = `${at} · shown ${clock(view.from / rate)} to ${clock(view.past / rate)}`;
    const values = {valuemin: 0, valuemax: about.times, valuenow: Math.round(log.cursor), valuetext: at};
    for (const [name, value] of Object.entries(values)) canvas.setAttribute(`aria-${name}`, value);
}

// ---- Moving about ----
function look(from, past) {
    const {times} = current.about, length = Math.min(Math.max(past - from, NEAREST), times);
    const start = Math.min(Math.max(from, 0), times - length);
    current.view = {from: start, past: start + length};
    draw();
}

function zoom(by, around = current.cursor) {
    const {from, past} = current.view, at = around >= from && around <= past ? around : (from + past) / 2;
    look(at - (at - from) * by, at + (past - at) * by);
}

function move(to) {
    const {about, view} = current, isPlaying = player !== null, half = (view.past - view.from) / 2;
    stop();
    current.cursor = Math.min(Math.max(to, 0), about.times);
    if (current.cursor < view.from || current.cursor > view.past) look(current.cursor - half, current.cursor + half);
    else paint();
    if (isPlaying) play();
}

// A second before the gap, and near enough to see it.
function goTo(stretch) {
    const rate = rateOf(current), side = Math.max(2 * (stretch.past - stretch.from), rate);
    look(stretch.from - 2 * side, stretch.past + 2 * side);
    move(stretch.from - rate);
    current.gap = stretch;
    say(`${clock(stretch.from / rate)}: ${stretch.said}`);
}

// From the gap that one went to last, if one is still at it; else from the cursor.
function nextGap(step) {
    const {about: {stretches}, gap, cursor} = current, isAt = gap && cursor === Math.max(gap.from - rateOf(current), 0);
    const at = isAt ? stretches.indexOf(gap) + step : step > 0 ? stretches.findIndex(stretch => stretch.from > cursor)
        : stretches.findLastIndex(stretch => stretch.from < cursor);
    stretches[at] ? goTo(stretches[at]) : say(step > 0 ? 'There is no gap after this.' : 'There is no gap before this.');
}

const timeAt = event => current.view.from + event.offsetX / canvas.clientWidth * (current.view.past - current.view.from);
canvas.onclick = event => move(timeAt(event));
canvas.addEventListener('wheel', event => {
    if (!event.ctrlKey && !event.shiftKey && Math.abs(event.deltaX) <= Math.abs(event.deltaY)) return; // the page scrolls
    event.preventDefault();
    const {from, past} = current.view, by = Math.sign(event.deltaX || event.deltaY) * (past - from) / 10;
    event.ctrlKey ? zoom(event.deltaY > 0 ? 1.25 : 0.8, timeAt(event)) : look(from + by, past + by);
}, {passive: false});

const KEYS = {
    ' ': () => player ? stop() : play(),
    ArrowLeft: step => move(current.cursor - step),
    ArrowRight: step => move(current.cursor + step),
    Home: () => move(0),
    End: () => move(current.about.times),
    '+': () => zoom(0.5),
    '=': () => zoom(0.5),
    '-': () => zoom(2),
    n: () => nextGap(1),
    p: () => nextGap(-1),
};
canvas.onkeydown = event => {
    if (!Object.hasOwn(KEYS, event.key) || event.ctrlKey || event.metaKey || event.altKey) return;
    event.preventDefault();
    KEYS[event.key]((current.view.past - current.view.from) / 50);
};
$('closer').onclick = () => zoom(0.5);
$('wider').onclick = () => zoom(2);
$('all').onclick = () => look(0, current.about.times);
$('gap-after').onclick = () => nextGap(1);
$('gap-before').onclick = () => nextGap(-1);
addEventListener('resize', () => { if (current?.drawn) draw(); });
matchMedia('(prefers-color-scheme: dark)').addEventListener('change', () => { if (current?.drawn) paint(); });
