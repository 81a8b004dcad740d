// The Worker's door: {id, what, ..} comes in; {id, done} goes out now and then, and {id, answer} or {id, error} at the end.
if (typeof FileReaderSync !== 'undefined') {
    const library = new Library(), logs = new Map(), reader = new FileReaderSync();
    const source = file => ({
        size: file.size,
        read: (from, past) => new Uint8Array(reader.readAsArrayBuffer(file.slice(from, past))),
    });

    // A file of its parts. Blobs in between let the browser keep them on disk; `make` may return a part that stands first.
    const gather = (type, make) => {
        const blobs = [];
        let parts = [], held = 0;
        const first = make(part => {
            parts.push(part);
            held += part.length;
            if (held > 1 << 24) blobs.push(new Blob(parts)), parts = [], held = 0;
        });
        return new Blob([...first ? [first] : [], ...blobs, ...parts], {type});
    };

    const work = {
        open({key, file, points}) { // points: those of another Worker's walk
            const log = new Log(library, source(file));
            if (points) log.points = points;
            logs.set(key, Object.assign(log, {file}));
        },
        close({key}) { logs.delete(key); },
        scan({key}) {
            const log = logs.get(key), about = scan(log);
            return {about: {...about, answer: anything(about), words: REFUSALS}, points: log.points};
        },
        statusLines({about, rate}) { return statusLines(about, rate); },
        sheet({rows}) { return new Blob([sheet(rows)], {type: 'text/csv'}); },
        list({key}) { return gather('text/plain', put => list(logs.get(key), put)); },
        labels({key, rate}) { return gather('text/plain', put => labelTrack(logs.get(key), rate, put)); },
        wav({key, rate}) { return gather('audio/wav', put => wav(logs.get(key), rate, put)); },
        salvage({key}) { // slices of the file, which take no memory
            const log = logs.get(key), {runs, lines} = salvage(log);
            return {blob: new Blob(runs.map(([from, past]) => log.file.slice(from, past))), lines};
        },
        picture({key, from, past, count}) { return picture(logs.get(key), from, past, count); },
        sound({key, from, count}) { return sound(logs.get(key), from, count); },
    };

    // A browser says by an exception of these names that a file can't be read, was changed, or is gone.
    const why = ({name, message}) => name.startsWith('Not')
        ? 'it can’t be read, or it changed or went away meanwhile; a folder isn’t a log' : message;

    onmessage = ({data}) => {
        let last = 0;
        const told = done => {
            if (Date.now() - last > 100) postMessage({id: data.id, done}), last = Date.now();
        };
        if (logs.has(data.key)) logs.get(data.key).told = told;
        try {
            postMessage({id: data.id, answer: work[data.what](data)});
        } catch (error) {
            postMessage({id: data.id, error: why(error)});
        }
    };
}
