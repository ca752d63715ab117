// The media on which the page keeps its store and its past. Durability rests on the lines that end with "// durable".
'use strict';
const SYNC = 0xffffffff, SECTOR = 1024, CHUNK = 64 * SECTOR;
const STORE = 15621;                                      // how many sectors a store has, without its past
const AT_ONCE = 16 * CHUNK;                               // how many bytes are read of a file at once
const SECOND = ' (second)';                               // what the name of the second file ends with

// ---- The sectors of a disk, in memory. Most of them are zeros: the others stand in chunks.
function isZeros(bytes) {
    for (let i = 0; i < bytes.length; i++) if (bytes[i]) return false;
    return true;
}
class Sectors {
    chunks = new Map();
    constructor(size = 0) {                               // how many bytes a file of them has at least
        this.size = size;
    }
    write(n, bytes) {                                     // one or more of them, from sector n on
        const end = n * SECTOR + bytes.length;
        this.size = Math.max(this.size, end);
        for (let at = n * SECTOR, from = 0; at < end;) {
            const number = Math.floor(at / CHUNK), within = at % CHUNK, count = Math.min(CHUNK - within, end - at);
            const part = bytes.subarray(from, from + count);
            if (this.chunks.has(number) || !isZeros(part)) this.chunk(number).set(part, within);
            at += count;
            from += count;
        }
    }
    chunk(number) {
        const there = this.chunks.get(number) || new Uint8Array(CHUNK);
        this.chunks.set(number, there);
        return there;
    }
    numbers() {                                           // of the chunks, in order
        return [...this.chunks.keys()].sort((a, b) => a - b);
    }
    *runs() {                                             // the first sector and the bytes of each run that has no sector of zeros
        for (const number of this.numbers()) {
            const chunk = this.chunks.get(number);
            for (let at = 0, from = 0; at <= CHUNK; at += SECTOR) {
                if (at < CHUNK && !isZeros(chunk.subarray(at, at + SECTOR))) continue;
                if (from < at) yield [(number * CHUNK + from) / SECTOR, chunk.subarray(from, at)];
                from = at + SECTOR;
            }
        }
    }
    isEmpty() {
        return this.runs().next().done;
    }
    file() {
        const parts = [], zeros = new Uint8Array(CHUNK);
        for (let at = 0; at < this.size; at += CHUNK) parts.push(this.chunks.get(at / CHUNK) || zeros);
        return new Blob(parts).slice(0, this.size);
    }
}
async function sectorsOf(file) {
    const sectors = new Sectors();
    for (let at = 0; at < file.size; at += AT_ONCE) {
        sectors.write(at / SECTOR, new Uint8Array(await file.slice(at, at + AT_ONCE).arrayBuffer()));
    }
    return sectors;
}

// ---- First files of the browser's own (OPFS), which one worker at a time can have open. There are two, of fixed names,
// since a browser may lose a change of names when the power fails. In the sector behind the store stands the number of the
// file, and the past behind that: the one with the larger number is the store. A file without one was made when there was one
// file alone: its number is 0.
const HEAD = 0x6f65614e, SIZE = STORE * SECTOR;
const placeOf = n => (n < STORE ? n : n + 1) * SECTOR;    // of sector n in a file
function numberOf(file) {
    const words = new Uint32Array(3), got = file.read(words, { at: SIZE });
    return got === words.byteLength && words[0] === HEAD && words[2] === ~words[1] >>> 0 ? words[1] : 0;
}
function writeAll(file, bytes, at) {
    if (file.write(bytes, { at }) !== bytes.byteLength) throw Error('The browser gave no room for a write');
}
function readPart(file, first, from, to, sectors) {       // the bytes of a file between two places are the sectors from `first` on
    const bytes = new Uint8Array(AT_ONCE), end = Math.min(file.getSize(), to);
    for (let at = from; at < end;) {
        const most = Math.min(AT_ONCE, end - at);
        let got = 0;
        while (got < most) {
            const more = file.read(bytes.subarray(got, most), { at: at + got });
            if (!more) throw Error('The browser gave less of its file than there is');
            got += more;
        }
        sectors.write(first + (at - from) / SECTOR, bytes.subarray(0, most));
        at += most;
    }
}
function readAll(file) {
    const sectors = new Sectors();
    readPart(file, 0, 0, SIZE, sectors);
    readPart(file, STORE, SIZE + SECTOR, file.getSize(), sectors);
    return sectors;
}
async function opened(folder, name) {
    const handle = await folder.getFileHandle(name, { create: true });
    for (let tries = 40; ; tries--) {
        try {
            return await handle.createSyncAccessHandle();
        } catch (error) {                                 // a worker that has just ended may have it still
            if (!tries || error.name !== 'NoModificationAllowedError') throw error;
        }
        await new Promise(done => setTimeout(done, 50));
    }
}
function writeRun(file, n, bytes) {                       // the sectors from n on, on both sides of the number
    const before = Math.min(Math.max(STORE - n, 0) * SECTOR, bytes.length);
    if (before) writeAll(file, bytes.subarray(0, before), placeOf(n));
    if (before < bytes.length) writeAll(file, bytes.subarray(before), placeOf(n + before / SECTOR));
}
async function fileMedium(folder, name) {
    const names = [name, name + SECOND], files = [await opened(folder, names[0]), await opened(folder, names[1])];
    if (typeof files[0].getSize() !== 'number') {         // an early browser answers later, out of order
        files.forEach(file => file.close());
        return null;
    }
    const numbers = files.map(numberOf);
    let at = numbers[1] > numbers[0] ? 1 : 0;
    folder.removeEntry(name + '.part').catch(() => {});   // what is left of an earlier way to do this
    return {
        kind: 'file',
        load: () => readAll(files[at]),
        make(sectors) {                                   // the other file becomes the store, once it is there in whole
            const former = at, other = 1 - at, next = numbers[at] + 1;
            files[other].truncate(0);
            files[other].truncate(SIZE);
            for (const [n, bytes] of sectors.runs()) writeRun(files[other], n, bytes);
            files[other].flush();                         // durable
            writeAll(files[other], new Uint32Array([HEAD, next, ~next]), SIZE);
            files[other].flush();                         // durable: from here on this one is the store
            numbers[other] = next;
            at = other;
            files[former].truncate(0);                    // and nothing of the other one is left
        },
        write: (n, bytes) => writeAll(files[at], bytes, placeOf(n)),  // durable: in whole
        sync: () => files[at].flush(),                    // durable
        isThere: () => folder.getFileHandle(names[at]).then(() => true, () => false),
    };
}

// ---- Else a table of sectors (IndexedDB). The writes before a sync are one transaction.
const answered = request => new Promise((done, failed) => {
    request.onsuccess = () => done(request.result);
    request.onerror = () => failed(request.error);
});
function isSector(n, bytes) {                             // and nothing that somebody else has put there
    return Number.isInteger(n) && 0 <= n && n < SYNC && bytes instanceof Uint8Array && bytes.length === SECTOR;
}
async function tableMedium(name) {
    const opening = indexedDB.open(name, 1);
    opening.onupgradeneeded = () => opening.result.createObjectStore('sectors');
    const db = await answered(opening), pending = [];
    let there = true;
    db.onclose = db.onversionchange = () => { there = false; };
    const put = (pairs, anew) => new Promise((done, failed) => {
        const all = db.transaction('sectors', 'readwrite', { durability: 'strict' });  // durable
        if (anew) all.objectStore('sectors').clear();
        for (const [n, bytes] of pairs) all.objectStore('sectors').put(bytes, n);
        all.oncomplete = done;                            // durable: not before it is complete
        all.onabort = () => failed(all.error || Error('The browser gave up a write'));
    });
    return {
        kind: 'table',
        async load() {
            const table = db.transaction('sectors').objectStore('sectors'), sectors = new Sectors(SIZE);
            const [keys, values] = await Promise.all([answered(table.getAllKeys()), answered(table.getAll())]);
            keys.forEach((n, i) => { if (isSector(n, values[i])) sectors.write(n, values[i]); });
            return sectors;
        },
        make(sectors) {
            const pairs = [];
            for (const [n, bytes] of sectors.runs()) {
                for (let at = 0; at < bytes.length; at += SECTOR) pairs.push([n + at / SECTOR, bytes.slice(at, at + SECTOR)]);
            }
            return put(pairs, true);
        },
        write: (n, bytes) => pending.push([n, bytes.slice()]),
        sync: () => put(pending.splice(0), false),        // durable
        isThere: async () => there,
    };
}

// ---- Else memory, with the reason.
function memoryMedium(why, kind = 'memory', all = new Sectors(SIZE)) {
    return {
        kind, why,
        load: () => all,
        make(sectors) { all = sectors; },
        write: (n, bytes) => all.write(n, bytes),
        sync() {},
        isThere: async () => true,
    };
}

// ---- Beside a medium there is a copy of its sectors in memory: where the data of the site are cleared it goes on alone.
function withCopy(medium) {
    let copy = new Sectors();
    return {
        ...medium,
        async load() {
            copy = await medium.load();
            return copy;
        },
        async make(sectors) {
            await medium.make(sectors);
            copy = sectors;
        },
        write(n, bytes) {
            copy.write(n, bytes);
            medium.write(n, bytes);                       // durable
        },
        alone: () => memoryMedium('', 'cleared', copy),
    };
}

// ---- Which of them. One page at a time has the store: a second one waits until the first is closed.
function locked(name, waits) {
    const lock = 'store ' + name;
    let isSettled = false;
    setTimeout(async () => {                              // not where a browser is slow alone
        const { held } = await navigator.locks.query();
        if (!isSettled && held.some(other => other.name === lock)) waits();
    }, 1000);
    return new Promise((done, failed) => {
        navigator.locks.request(lock, () => {             // durable: one page at a time has the store
            isSettled = true;
            done();
            return new Promise(() => {});                 // until this worker ends
        }).catch(error => { isSettled = true; failed(error); });
    });
}
async function chosenMedium(name, waits) {
    if (!navigator.locks) return memoryMedium('The address of this page is not a safe one (https, or a file of your disk)');
    try {
        await locked(name, waits);
    } catch (error) {                                     // where the data of sites are blocked
        return memoryMedium(refusing(error));
    }
    const folder = await navigator.storage?.getDirectory?.().catch(() => null);
    const files = folder && self.FileSystemSyncAccessHandle && await fileMedium(folder, name);
    return files ? withCopy(files) : tableMedium(name).then(withCopy, error => memoryMedium(refusing(error)));
}
function refusing(error) {
    return `The browser lets this page keep nothing: ${told(error)}`;
}
async function repeat(calls, on) {
    const numbers = new DataView(calls.buffer, calls.byteOffset, calls.byteLength);
    for (let at = 0; at < calls.length;) {
        const n = numbers.getUint32(at, true);
        if (n !== SYNC) on.write(n, calls.subarray(at + 4, at + 4 + SECTOR));  // durable: one after another
        else if (!on.clean) await on.sync();              // durable: where anything was written since the last one
        at += (on.clean = n === SYNC) ? 4 : 4 + SECTOR;
    }
}
