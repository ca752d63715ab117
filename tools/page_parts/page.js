// ---- How the page begins, and begins again.
const BY_FINGER = [
    '1 Tap here, and type. Each key is on the disk',
    '  before you see it. "undo" undoes it.',
    '2 Press "Pull the plug": all ends, and is there.',
    '3 Tap a command: System.Directory',
    '4 Hold a word, select it, and then tap',
    '  Edit.ChangeColor 3',
    '5 "store" stores this text under the name above.',
];
const BY_MOUSE = [
    '1 Type: the caret is below. Each key is on the',
    '  disk before you see it. Ctrl-Z undoes it.',
    '2 Press "Pull the plug": all ends, and is there.',
    '3 Double click a command: System.Directory',
    '4 Drag over words with the right button (or F3),',
    '  then double click Edit.ChangeColor 3',
    '5 Ctrl-S stores this text under the name above.',
];
function greeting() {
    const steps = matchMedia('(pointer: coarse)').matches ? BY_FINGER : BY_MOUSE;
    const about = ['Oberon\'s desktop, proved. Close this tab amid a', 'word: nothing you saw is lost. Five steps:', ''];
    return [...about, ...steps, '', ''].join('\n');
}
async function welcome() {                                // a new desktop opens a text with the caret in it
    const open = texts().find(text => text.x >= BORDER && text.words.startsWith('Edit.Open'));
    if (!open) return;
    await click(MIDDLE, [open.x, open.y]);
    await send(`\x1b[200~${greeting()}\x1b[201~`);
    state.changed = false;
}
async function opened({ kind, why, pastless, isNew, said = '' }) {
    tell({ kind, why, pastless, said, failed: '', left: false });
    performance.mark('opened');
    await lookWhetherPersisted();
    if (isNew) await welcome();
    document.title = 'Nealtsjom';
    document.body.dataset.ready = kind;
    keys.focus();
    followed = String(caretCell());
    follows = true;
}
async function open(how) {
    const answer = await ask(how, { store, module });
    if (answer.kind && !answer.failed) await opened(answer);
    return answer;
}
async function again() {                                  // what is in memory is in the worker alone
    tell({ failed: '', left: false, said: '' });
    if (isInMemory() && worker) return open('reopen');
    stop();
    tell({ kind: '' });
    return open('open');
}
async function pullThePlug() {                            // the worker is ended amid what it does
    const before = screen_.textContent;
    stop();
    await open('open');
    const same = screen_.textContent === before;
    const there = same ? 'all that you saw is there.' : 'what you saw is there, and what was done just then.';
    if (!state.failed) tell({ said: `The plug was pulled, and the desktop opened again: ${there}` });
}
by('again').onclick = again;
by('plug').onclick = pullThePlug;
by('whole-link').onclick = async () => {                  // Chrome and Edge then hand out the keys too that they keep
    await document.documentElement.requestFullscreen();
    await navigator.keyboard?.lock?.();
    keys.focus();
};

// Every ten seconds: whether the data of the site were cleared while the desktop is open, and whether the worker answers.
const MOST_TURNS = 3;
let oldest = 0, turns = 0;                                // what waits for an answer, and since how many turns
setInterval(async () => {
    const [first] = asked.keys();
    turns = first && first === oldest ? turns + 1 : 0;
    oldest = first;
    if (turns >= MOST_TURNS && state.kind !== 'waiting') {
        stop();
        fail('The worker of this page doesn\'t answer');
    }
    if (!isKept() || !worker || state.failed || asked.size) return;
    const { there } = await ask('look');
    if (there === false) tell({ kind: 'cleared' });
}, 10000);

// ---- The module, which stands here packed, in base64 with . and _ for its two signs.
async function unpacked() {
    const letters = atob(by('wasm').textContent.trim().replaceAll('.', '+').replaceAll('_', '/'));
    const packed = Uint8Array.from(letters, letter => letter.charCodeAt(0));
    const stream = new Blob([packed]).stream().pipeThrough(new DecompressionStream('deflate-raw'));
    return new Uint8Array(await new Response(stream).arrayBuffer());
}
const TOO_OLD = 'This browser can\'t run the desktop: it lacks what Chrome and Edge have from 108 on, Firefox from 113 on and ' +
    'Safari from 16.4 on, or its WebAssembly is off. The picture shows what it looks like.';
function showStill() {                                    // where it can't run
    screen_.append(...by('still').children);
    tell({ failed: TOO_OLD });
    by('ways').hidden = true;
}
async function main() {
    empty();
    tell({});
    try {
        module = await WebAssembly.compile(await unpacked());
    } catch {
        return showStill();
    }
    return open('open');
}
main();
