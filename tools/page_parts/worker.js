// The worker of the page: it runs the proved module, and repeats the calls of its disk on a medium of the browser's, each
// after the one before, before what they led to is shown.
const DRAWING = 0, LINE = 1, CALLS = 2, TEXT = 3;         // what the module hands out
const ENDS = [1, 2, 3, 4, 5];                             // statuses after which nothing is kept; status.js has the words
const NO_ROOM = 9;                                        // the status where documents don't fit, one or all of them
const text = bytes => new TextDecoder().decode(bytes), spelled = words => new TextEncoder().encode(words);
const told = error => error?.message || error?.name || error;

// ---- The module over one store. A place in its memory is a number of 64 bits; bytes go in and out as copies.
class Desk {
    static async of(code, sectors, past = 1) {            // with those of a store; where there are none, with a new one
        const desk = new Desk();
        desk.module = (await WebAssembly.instantiate(code, {})).exports;
        desk.held = desk.place(new Uint8Array(8));
        desk.call('page_start');
        for (const [first, bytes] of sectors.runs()) desk.call('page_load', first, bytes);
        desk.call('page_begin', past);
        return desk;
    }
    memory() {
        return new Uint8Array(this.module.memory.buffer);
    }
    place(bytes) {
        const at = this.module.page_room(BigInt(bytes.length + 8));
        if (!at) throw 1;
        this.memory().set(bytes, Number(at));
        return at;
    }
    call(name, ...parts) {                                // its status; of numbers, and of bytes with their length
        const places = [], words = parts.flatMap(part => {
            if (typeof part === 'number') return [part];
            places.push(this.place(part));
            return [places.at(-1), BigInt(part.length)];
        });
        const status = this.module[name](this.held, ...words);
        places.forEach(at => this.module.page_give_back(at));
        if (ENDS.includes(status)) throw status; else return status;
    }
    made(kind) {                                          // what the last call made
        const size = this.module.page_size(this.held, kind), at = this.place(new Uint8Array(Number(size)));
        this.module.page_copy(this.held, kind, at, size);
        const bytes = this.memory().slice(Number(at), Number(at + size));
        this.module.page_give_back(at);
        return bytes;
    }
    selected() {                                          // all of it; '' where nothing is
        return this.call('page_copied') ? '' : text(this.made(TEXT));
    }
    scene(status) {
        const { page_rings: rings, page_leaves: leaves, page_looks: looks, page_pointer: pointer } = this.module;
        const held = this.held;
        return {
            svg: text(this.made(DRAWING)), line: text(this.made(LINE)), selected: this.selected(), status,
            rings: rings(held), left: leaves(held), looks: looks(held), pointer: pointer(held),
        };
    }
}

// ---- What the page asks for, and what it is answered.
let code, desk, medium, pastless = '';                    // and why no past is kept, where none is
async function done(status) {                             // the scene, after the calls that led to it
    await repeat(desk.made(CALLS), medium);               // durable: before the scene is shown
    return desk.scene(status);
}
async function newDesk(past) {                            // which goes on the medium as a whole
    const fresh = await Desk.of(code, new Sectors(), past), disk = memoryMedium();
    await repeat(fresh.made(CALLS), disk);
    await medium.make(disk.load());
    desk = fresh;
}
async function makeDesk() {                               // with a past, if the medium has room for one
    try {
        await newDesk(1);
        pastless = '';
    } catch (error) {
        await newDesk(0);
        pastless = told(error);
    }
}
async function take(found) {                              // a desk of what is on the medium. Its past goes on or begins there
    pastless = '';
    try {
        await repeat(found.made(CALLS), medium);          // durable: before the first scene
        desk = found;
    } catch (error) {                                     // a browser without room for that: the store alone goes on
        pastless = told(error);
        desk = await Desk.of(code, await medium.load(), 0);
    }
}
async function openDesk() {
    const sectors = await medium.load();
    if (!sectors.isEmpty()) {
        await take(await Desk.of(code, sectors));
        return false;
    }
    try {
        await makeDesk();
    } catch (error) {                                     // a browser without room
        medium = memoryMedium(`The browser took no store: ${told(error)}`);
        await makeDesk();
    }
    return true;
}
function opening(isNew) {
    return { ...desk.scene(0), kind: medium.kind || 'memory', why: told(medium.why), pastless, isNew };
}
async function takeMedium(store) {
    try {
        medium = await chosenMedium(store, () => postMessage({ waits: true }));
    } catch (error) {                                     // memory has nothing, but takes another desktop
        medium = memoryMedium(error, '');
        throw error;
    }
}
async function isThere() {                                // where it was cleared its copy goes on
    const there = await medium.isThere();
    if (!there) medium = medium.alone();
    return there;
}
async function replaced(sectors) {                        // this one in the place of the store, or everything as before
    if (sectors.isEmpty()) return { refused: 2 };
    let next;
    try {
        next = await Desk.of(code, sectors);
        await medium.make(sectors);
    } catch (error) {
        return { refused: told(error) };
    }
    await take(next);
    over = false;
    return opening(false);
}
async function anew() {
    try {
        await makeDesk();
    } catch (error) {
        return { refused: told(error) };
    }
    over = false;
    return opening(false);
}
async function loaded(file) {
    let sectors;
    try {
        sectors = await sectorsOf(file);
    } catch (error) {
        return { refused: told(error) };
    }
    return replaced(sectors);
}
async function saved() {
    const sectors = await medium.load();
    return { file: sectors.isEmpty() ? null : sectors.file() };
}
const ASKED = {
    async open({ store, module }) {
        code = module;
        await takeMedium(store);
        return opening(await openDesk());
    },
    async rescue({ store, module }) {                     // the medium alone, whatever is on it
        code = module;
        over = true;
        await takeMedium(store);
        return { kind: medium.kind };
    },
    reopen: async () => opening(await openDesk()),
    press: ({ press }) => done(desk.call('page_press', press)),
    past() {                                              // it is shown from now on
        const refused = desk.call('page_look');
        return refused ? { refused } : done(0);
    },
    async forget() {                                      // it begins anew, or stays; the page is shown then
        const refused = desk.call('page_forget');
        if (refused) desk.call('page_press', spelled(''));
        return { ...await done(0), refused };
    },
    there: ({ names }) => ({ there: names.filter(name => desk.call('page_give', spelled(name)) === 0) }),
    async bring({ documents }) {                          // all of them, or none where one is refused
        for (const [i, { name, bytes }] of documents.entries()) {
            const isLast = i === documents.length - 1;
            const refused = desk.call(isLast ? 'page_bring' : 'page_bring_more', spelled(name), bytes);
            if (refused) return { refused, of: refused === NO_ROOM ? '' : name };
        }
        return done(0);
    },
    give({ name }) {
        const refused = desk.call('page_give', spelled(name));
        return refused ? { refused } : { bytes: desk.made(TEXT) };
    },
    selected: () => ({ selected: desk.selected() }),
    save: saved,
    load: ({ file }) => loaded(file),
    anew,
    look: async () => ({ there: await isThere() }),
};
const AFTER_THE_END = ['save', 'load', 'anew', 'reopen'];  // what can be asked when the sitting is over

// One request after another. What throws ends the sitting; the next one opens what is on the medium.
let queue = Promise.resolve(), over = false;
async function answer({ number, ask, words }) {
    if (over && !AFTER_THE_END.includes(ask)) return;
    try {
        const answered = await ASKED[ask](words);
        if (ask === 'reopen') over = false;
        postMessage({ number, ...answered });
    } catch (error) {
        over = true;
        await isThere();
        postMessage({ number, failed: told(error), kind: medium.kind });
    }
}
onmessage = ({ data }) => { queue = queue.then(() => answer(data)); };
