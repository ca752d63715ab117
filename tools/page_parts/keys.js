// ---- Keys, as xterm spells them. `held` is 1 for Shift, 2 for Alt and 4 for Ctrl, added up.
const SHIFT = 1, ALT = 2, CTRL = 4;
const PLAIN = { Enter: '\r', Tab: '\t', Backspace: '\x7f', Escape: '\x1b' };
const LETTERS = {
    ArrowUp: 'A', ArrowDown: 'B', ArrowRight: 'C', ArrowLeft: 'D', End: 'F', Home: 'H', F1: 'P', F2: 'Q', F3: 'R', F4: 'S',
};
const NUMBERS = { Delete: 3, PageUp: 5, PageDown: 6, F5: 15, F6: 17, F7: 18, F8: 19, F9: 20, F10: 21, F11: 23 };
const MEANT = new Set('abefghkopqrstuwyz[');                 // letters that mean something with Ctrl; C, X and V come as events
const MAC = /^(Mac|iP)/.test(navigator.platform);
function control(letter) {                                // the byte of a letter with Ctrl
    return String.fromCharCode(letter.toUpperCase().charCodeAt(0) & 31);
}
function spell(key, held) {                               // nothing where the key stays the browser's
    const more = held ? ';' + (1 + held) : '';
    if (key in NUMBERS) return `\x1b[${NUMBERS[key]}${more}~`;
    if (key in LETTERS) {
        if (held) return `\x1b[1${more}${LETTERS[key]}`;
        return (key[0] === 'F' ? '\x1bO' : '\x1b[') + LETTERS[key];
    }
    let byte = PLAIN[key] || (key.length === 1 ? key : '');
    if (held & CTRL && byte === key) byte = held & SHIFT || !/[ @-_a-z]/.test(key) ? '' : control(key);
    return byte && (held & ALT ? '\x1b' : '') + byte;
}
function isBrowsers({ key, metaKey, isComposing, shiftKey, altKey }, held) {  // whether it means nothing to the desktop
    if (isComposing || key === 'F5' || key === 'F12') return true;
    if (metaKey) return !/^[asyz]$/i.test(key);
    if (held & CTRL && key.length === 1) return shiftKey || !altKey && !MEANT.has(key.toLowerCase());
    return false;
}
function pressed(event) {                                 // the bytes of a key that goes down
    const { key, code, shiftKey, altKey, ctrlKey, metaKey } = event;
    const held = SHIFT * shiftKey + ALT * altKey + CTRL * (ctrlKey || metaKey);
    // A sign that needs AltGr, or Alt on a Mac, is typed as it is.
    const isTyped = event.getModifierState('AltGraph') || MAC && altKey && /^[!-/:-@[-`{-~]$/.test(key);
    if (isTyped) return key.length === 1 ? key : spell(key, 0);
    // Where the key of another alphabet is held with Ctrl or Alt, the letter is that of its place.
    const isForeign = held >= ALT && /^(Digit|Key)/.test(code) && !/^[ -~]$/.test(key);
    const letter = isForeign ? code.at(-1).toLowerCase() : key;
    if (isBrowsers({ ...modifiers(event), key: letter }, held)) return '';
    if (key.length === 1 && held < ALT) return key;
    return spell(letter, held);
}
function modifiers({ metaKey, isComposing, shiftKey, altKey }) {
    return { metaKey, isComposing, shiftKey, altKey };
}
keys.addEventListener('keydown', event => {
    if (!isOpen()) return;                                // Tab leads to the ways out
    const bytes = pressed(event);
    if (event.key === 'Tab' && event.shiftKey) bar().querySelector('[data-key]').focus();  // Shift-Tab leaves the screen
    else if (bytes === control('p') && !state.looks) look();
    else if (bytes === control('o') || bytes === spell('F8', 0)) by('typed').click();
    else if (bytes.length === 1 && bytes > '~') type(bytes);
    else if (bytes) send(bytes);
    else return;
    event.preventDefault();
});
for (const key of document.querySelectorAll('[data-key]')) {
    key.onclick = () => { send(spell(key.dataset.key, +key.dataset.held || 0)); keys.focus(); };
}
by('keyboard').onclick = () => keys.focus();

// ---- The past is shown from its present on, until a key leaves it.
const bar = () => by(state.looks ? 'past-bar' : 'bar');
async function look() {
    const { refused } = await ask('past');
    if (refused) tell({ said: wordsOf(refused) });
}
by('past').onclick = () => { look(); keys.focus(); };
async function forget() {
    const asks = 'Forget the past of this desktop? What it shows now stays, and so do all its documents. All earlier ' +
        'moments go, for good, with what was deleted or changed in them. Ctrl-Z may reach the last 256 events, until you ' +
        'have done as many more. Cancel forgets nothing.';
    if (!confirm(asks)) return tell({ said: 'Nothing was forgotten.' });
    state.changed = true;
    const { refused, failed } = await ask('forget');
    if (failed) return null;
    return tell({ said: refused ? wordsOf(refused) : 'The past is forgotten. One begins anew with what you see.' });
}
by('forget').onclick = () => { forget(); keys.focus(); };

// ---- Text goes to the desktop as a paste does, in ASCII: what isn't becomes what is nearest, as by `desk import --ascii`.
const LIKE = {
    '‘': '\'', '’': '\'', '‚': '\'', '‛': '\'', '′': '\'', '“': '"', '”': '"', '„': '"', '‟': '"', '″': '"',
    '‐': '-', '‑': '-', '‒': '-', '–': '-', '—': '-', '―': '-', '−': '-', '«': '<<', '»': '>>', '‹': '<', '›': '>',
    '•': '*', '·': '*', '×': 'x', '©': '(c)', '®': '(r)', 'ß': 'ss', 'æ': 'ae', 'Æ': 'AE', 'œ': 'oe', 'Œ': 'OE',
    'ø': 'o', 'Ø': 'O', 'đ': 'd', 'ð': 'd', 'Đ': 'D', 'Ð': 'D', 'þ': 'th', 'Þ': 'Th', 'ł': 'l', 'Ł': 'L', 'ı': 'i',
};
function inAscii(text) {
    return Array.from(text, sign => {
        if (/[\t\n\r -~]/.test(sign)) return sign;
        if (/\p{M}/u.test(sign)) return '';
        return LIKE[sign] || sign.normalize('NFKD').replace(/[^ -~]/g, '') || '?';
    }).join('');
}
let hasToldAscii = false;
function type(given) {                                    // too long a text is cut, but no room for the rest is told
    const text = given.slice(0, 2 * LONGEST), all = inAscii(text.normalize('NFC')), ascii = all.slice(0, LONGEST + 1);
    if (all !== text && !hasToldAscii) {
        hasToldAscii = true;
        tell({ said: 'Texts are ASCII: another sign is put in as the nearest one, as é as e, or as a question mark.' });
    }
    if (/^[ -~]$/.test(ascii)) send(ascii);
    else if (ascii) send(`\x1b[200~${ascii}\x1b[201~`);
}

// ---- What comes from an input method or the keyboard of a phone. The field keeps a sign, so that there is something to
// delete before the caret; what is composed shows in the field, which then stands at the caret of the desktop.
const KEEPER = '\u200b';
const DEEDS = {
    deleteContentBackward: '\x7f', deleteWordBackward: '\x7f', deleteContentForward: '\x1b[3~',
    insertLineBreak: '\r', insertParagraph: '\r',
};
let composing = false;
function empty() {
    keys.value = KEEPER;
    keys.setSelectionRange(1, 1);
}
function commit() {                                       // what was composed is typed, before a press elsewhere
    const text = keys.value.replaceAll(KEEPER, '');
    composing = false;
    keys.classList.remove('composing');
    empty();
    if (text) type(text);
}
function standAtCaret() {
    const [x, y] = caretCell() || [0, ROWS - 1];
    keys.style.left = `${100 * x / COLUMNS}%`;
    keys.style.top = `${y * screen_.clientHeight / ROWS}px`;
    keys.classList.add('composing');
}
keys.addEventListener('beforeinput', event => {
    if (composing || event.isComposing || !DEEDS[event.inputType] || !event.cancelable) return;
    event.preventDefault();
    send(DEEDS[event.inputType]);
});
keys.addEventListener('input', event => {                 // what couldn't be held back is done as well
    if (composing || event.isComposing) return;
    if (DEEDS[event.inputType]) {
        empty();
        send(DEEDS[event.inputType]);
    } else commit();
});
keys.addEventListener('compositionstart', () => { composing = true; standAtCaret(); });
keys.addEventListener('compositionend', commit);
keys.addEventListener('blur', () => { if (composing) commit(); });

// ---- Copying. What the desktop copies goes to the clipboard too, whole; from there it comes with its looks.
let copied = null;                                        // what the clipboard has of the desktop
function copy(event, letter) {
    event.preventDefault();
    if (asked.size) return copyLater(letter);             // a quick hand: what is selected now isn't known yet
    if (selection) event.clipboardData.setData('text/plain', selection);
    return goOn(selection, letter);
}
async function copyLater(letter) {
    const { selected } = await ask('selected');
    try {
        if (selected) await navigator.clipboard.writeText(selected);
        goOn(selected, letter);
    } catch {
        tell({ said: 'The browser didn\'t give the clipboard: press that again.' });
    }
}
function goOn(text, letter) {
    if (text) copied = text;
    return state.looks ? null : send(control(letter));    // of the past it is the clipboard alone that gets it
}
keys.addEventListener('copy', event => copy(event, 'c'));
keys.addEventListener('cut', event => copy(event, 'x'));
addEventListener('paste', event => {
    const text = event.clipboardData.getData('text');
    event.preventDefault();
    if (!text || text.replaceAll('\r\n', '\n') === copied) send(control('v')); else type(text);
});
