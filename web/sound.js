// The sound: a second at a time, two of them ahead; silence in gaps.
let player = null;

// The cursor goes with the sound.
function follow(me) {
    const {log, context} = me, {about, view} = log;
    if (player !== me) return;
    log.cursor = Math.min(me.from + Math.max(context.currentTime - me.begun, 0) * me.rate, about.times);
    if (log.cursor > view.past && view.past < about.times) look(log.cursor, log.cursor + view.past - view.from);
    else paint();
    if (log.cursor >= about.times) stop();
    else requestAnimationFrame(() => follow(me));
}

// Hands one second to the browser. Returns its sample times.
async function second(me, from, chosen) {
    const count = Math.min(me.rate, me.log.about.times - from);
    const channels = await quick.ask('sound', {key: me.log.key, from, count});
    if (player !== me) return 0;
    const buffer = me.context.createBuffer(chosen.length, count, me.rate), node = me.context.createBufferSource();
    chosen.forEach((channel, at) => buffer.copyToChannel(channels[channel], at));
    node.buffer = buffer;
    node.connect(me.context.destination);
    if (from === me.from) {
        me.begun = me.context.currentTime + 0.1;
        requestAnimationFrame(() => follow(me));
    }
    node.start(me.begun + (from - me.from) / me.rate);
    return count;
}

// Without a sound device a browser's clock may stand still, and then nothing would happen.
function watch(me) {
    if (player !== me || me.context.currentTime > 0) return;
    stop();
    say('The browser plays nothing here. Is there a sound device, and may this page use it?');
}

async function play() {
    stop();
    const log = current, rate = rateOf(log), {times} = log.about, chosen = $('hear-channels').value.split(',').map(Number);
    if (log.cursor >= times) log.cursor = 0;
    const from = Math.floor(log.cursor);
    try {
        const me = player = {log, rate, from, begun: 0, context: new AudioContext({sampleRate: rate})};
        $('play').textContent = 'Pause';
        $('play').setAttribute('aria-pressed', 'true');
        setTimeout(watch, 3000, me);
        for (let next = from; player === me && next < times;) {
            next += await second(me, next, chosen);
            while (player === me && me.begun + (next - from) / rate - me.context.currentTime > 2)
                await new Promise(well => setTimeout(well, 200));
        }
    } catch (error) {
        stop();
        say(error.name === 'NotSupportedError' ? `This browser can’t play ${number(rate)} Hz.` : `${log.name}: ${error.message}`);
    }
}

function stop() {
    player?.context?.close();
    player = null;
    $('play').textContent = 'Play';
    $('play').setAttribute('aria-pressed', 'false');
}
$('play').onclick = () => player ? stop() : play();
$('hear-channels').onchange = () => { if (player) play(); };
