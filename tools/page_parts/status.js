// The line that says how the desktop is kept, and what came of what was asked for last. It is written here alone.
const state = {
    kind: '',                                             // opening is '', waiting, file, table, memory, cleared
    persisted: false,                                     // whether the browser has promised to keep it
    why: '',                                              // why it is in memory
    pastless: '',                                         // why no past is kept, where none is
    looks: 0,                                             // whether the past is shown: 2 while it is sought for a word
    changed: false,                                       // whether anything was done that no saved copy has
    said: '',                                             // what came of the last request
    failed: '',                                           // why the sitting is over
    isUnread: false,                                      // whether that is since the bytes that are kept can't be read
    left: false,                                          // whether the person has left the desktop
};

// What a status of the module says.
const WORDS = {
    1: 'There is no memory left in this page.', 2: 'These bytes are no store of this desktop.', 3: 'This store is damaged.',
    4: 'This store takes no more: its epochs are used up.', 5: 'The page has to open the desktop again.',
    6: 'A document\'s name is a letter, and then letters, digits and periods: 31 characters at most.',
    7: 'Only a plain text can be a document: ASCII, and at most 262,144 characters.',
    8: 'There is no document of that name.', 9: 'The desktop has no room for that.', 10: 'This desktop keeps no past.',
    11: 'The past stays: there is no room for one that begins anew.',
};
const UNREAD = [2, 3, 4];
function wordsOf(error) {
    return WORDS[error] || String(error?.message || error).replace(/\.?$/, '.');
}
const COPY = '“Save the desktop” gives you a copy.';
const KEPT = {
    '': 'The desktop is being opened …',
    waiting: 'This desktop is open in another tab. It opens here when that one is closed.',
    file: 'Kept in this browser with its past: each key is on the disk before you see it.',
    table: 'Kept in this browser with its past, in a database of this page: each key is on the disk before you see it.',
    memory: `In memory alone, gone with this tab. ${COPY}`,
    cleared: `The data of this site were cleared: what you see is in this tab alone. ${COPY}`,
};
function isKept() {                                       // whether it outlives this tab
    return state.kind === 'file' || state.kind === 'table';
}
function isInMemory() {                                   // of the worker, alone
    return state.kind === 'memory' || state.kind === 'cleared';
}
function isOver() {
    return Boolean(state.failed || state.left);
}
function isOpen() {                                       // or being opened: then it takes what is pressed already
    return !isOver() && state.kind !== 'waiting';
}
function kept() {
    if (!isKept()) return KEPT[state.kind] + (state.why ? ` (${wordsOf(state.why)})` : '');
    const until = state.persisted ? 'It stays until you clear the data of this site.'
        : `The browser may drop it for want of room; a private window does when it closes or the machine fails. ${COPY}`;
    const without = state.pastless ? ` No past is kept in this sitting: ${wordsOf(state.pastless)}` : '';
    return `${KEPT[state.kind]}${without} ${until}`;
}
function leaving() {
    return isKept() ? 'You have left. What you saw is kept; sit down again when you like.'
        : `You have left. The desktop stays in this tab until you close it. ${COPY}`;
}
function ending() {                                       // what a failure leaves
    if (state.isUnread) return 'Its bytes are kept as they are: save them before you put another desktop in their place.';
    if (!isInMemory()) return isKept() ? 'What you saw before is kept.' : '';
    const why = state.kind === 'cleared' ? 'The data of this site were cleared. ' : '';
    return why + (worker ? 'What this tab has in memory can be saved or opened again.' : 'What this tab had in memory is gone.');
}
function tell(change) {
    Object.assign(state, change);
    if (change.kind === 'cleared') state.changed = true;  // no copy has it but that of the worker
    const how = state.failed ? `${state.failed} ${ending()}` : state.left ? leaving() : kept();
    const words = [state.said, how].filter(Boolean).join(' ');
    if (by('note').textContent !== words) by('note').textContent = words;
    by('ways').hidden = !isOver();
    document.body.classList.toggle('ended', isOver());
    document.body.classList.toggle('waits', state.kind === 'waiting');
    document.body.classList.toggle('past', state.looks > 0);
    for (const way of document.querySelectorAll('#ways .after-failure')) way.hidden = !state.failed;
    by('plug').disabled = !isKept() || isOver();
    document.body.dataset.failed = state.failed;
}
function fail(error) {
    tell({ failed: wordsOf(error), isUnread: UNREAD.includes(error), said: '' });
}
addEventListener('unhandledrejection', event => {
    event.preventDefault();
    tell({ said: wordsOf(event.reason) });
});
addEventListener('beforeunload', event => {
    if (state.changed && isInMemory()) event.preventDefault();
});

// ---- The browser's promise to keep it is asked for when there is something to keep: after the first document.
async function askToKeep() {
    if (!isKept() || state.persisted) return;
    tell({ persisted: await navigator.storage?.persist?.() === true });
}
async function lookWhetherPersisted() {
    tell({ persisted: await navigator.storage?.persisted?.() === true });
}
