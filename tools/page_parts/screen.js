// ---- What is shown. Each line of a drawing but the first and the last is an element: those that changed are replaced.
const WIDE = 9, HIGH = 19, COLUMNS = 80, ROWS = 32, BORDER = 50;  // of a cell, the screen, and where the system's track begins
const SELECTED = '#afd7ff', CARET = 'rect[width="2"]';
let drawn = [], lastRead = 0, selection = '';           // what is selected, all of it
function draw(svg) {
    const lines = svg.split('\n').slice(1, -2), root = screen_.firstChild, least = Math.min(lines.length, drawn.length);
    let low = 0, high = 0;                                // how many lines are as before, from the first and from the last
    while (low < least && lines[low] === drawn[low]) low++;
    while (high < least - low && lines.at(-1 - high) === drawn.at(-1 - high)) high++;
    if (low) {                                            // the first one, a style, always is
        const part = document.createElementNS(root.namespaceURI, 'g');
        part.innerHTML = lines.slice(low, lines.length - high).join('');
        for (const old of [...root.children].slice(low, drawn.length - high)) old.remove();
        root.children[low - 1].after(...part.children);
    } else screen_.innerHTML = svg;
    drawn = lines;
}
function box(id, place) {                                 // a box over the drawing, or none
    const root = screen_.firstChild, there = by(id);
    if (!place) return there?.remove();
    const rect = there || root.appendChild(document.createElementNS(root.namespaceURI, 'rect'));
    for (const [key, value] of Object.entries({ id, ...place })) rect.setAttribute(key, value);
    return rect;
}
function point(cell) {                                    // a box at the pointer that keys move
    const x = (cell - 1) % COLUMNS, y = ROWS - 1 - Math.floor((cell - 1) / COLUMNS);
    box('pointer', cell && { x: x * WIDE, y: y * HIGH, width: WIDE, height: HIGH });
}
function setLine(words) {
    if (by('line').textContent !== words) by('line').textContent = words;
}
function ring() {
    by('line').classList.remove('rings');
    void by('line').offsetWidth;
    by('line').classList.add('rings');
}
function show(scene) {
    draw(scene.svg);
    if (scene.pointer || by('pointer')) point(scene.pointer);
    setLine(scene.status ? wordsOf(scene.status) : scene.line);
    selection = scene.selected;
    clearTimeout(lastRead);
    lastRead = setTimeout(tellReaders, 150);              // a reader of the screen has time
    if (scene.rings || scene.status) ring();
    if (scene.left) tell({ left: true });
    if (scene.looks !== state.looks) tell({ looks: scene.looks });
    requestAnimationFrame(() => { follow(); if (by('command')) underline(pointed); });
}
let follows = false, followed = '';                       // whether the window follows the caret, and where that was last
function follow() {                                       // where the window, or a phone, shows a part of the screen alone
    const caret = screen_.querySelector(CARET), cell = String(caretCell());
    if (follows && caret && cell !== followed) caret.scrollIntoView({ block: 'nearest', inline: 'nearest' });
    followed = cell;
}

// ---- The browser's zoom. The screen fills the window as a visitor finds it; from there it is as many times as large as the
// browser's pixels are. That it zooms is seen by that alone: the window has then as many of the machine's pixels as before.
const OF_ZOOM = 'zoom';                                   // where it is kept, with the pixels for which it holds
let pixel = devicePixelRatio, wide = innerWidth * pixel, zoom = 1;
function setZoom(times) {
    zoom = Math.min(Math.max(times, 0.25), 5);
    document.documentElement.style.setProperty('--zoom', zoom);
}
addEventListener('resize', () => {
    const now = innerWidth * devicePixelRatio, isZoomed = devicePixelRatio !== pixel && Math.abs(now - wide) < wide / 32;
    if (isZoomed) setZoom(zoom * devicePixelRatio / pixel);
    [pixel, wide] = [devicePixelRatio, now];
    try {
        if (isZoomed) localStorage.setItem(OF_ZOOM, JSON.stringify([zoom, pixel]));
    } catch { /* it isn't kept where the browser keeps nothing */ }
});
try {
    const [times, at] = JSON.parse(localStorage.getItem(OF_ZOOM)) || [];
    if (at === pixel && times > 0) setZoom(times);
} catch { /* nor where something else is kept there */ }

// ---- What a row of the drawing says: its texts between two columns, each with the column where it begins.
function texts() {
    return [...screen_.querySelectorAll('text')].map(text => ({
        x: text.getAttribute('x') / WIDE, y: Math.floor(text.getAttribute('y') / HIGH), words: text.textContent,
        marked: text.previousElementSibling?.getAttribute('fill') === SELECTED,
    }));
}
function rowOf(y, from, to, all = texts()) {              // as one string, its first character at column `from`
    let row = '';
    for (const { x, y: at, words } of all) if (at === y && from <= x && x < to) row = row.padEnd(x - from) + words;
    return row;
}
function trackOf(x) {
    return x < BORDER ? [0, BORDER] : [BORDER, COLUMNS];
}
function wordAt(x, y) {                                   // the word of letters, digits and periods at a cell, and its column
    const [from, to] = trackOf(x);
    for (const found of rowOf(y, from, to).matchAll(/[A-Za-z][A-Za-z0-9.]*/g)) {
        const first = from + found.index;
        if (first <= x && x < first + found[0].length) return { word: found[0], first };
    }
    return null;
}
function isOfMenu({ first }, y) {                         // a word behind a title, which may be cut at the edge
    const [from, to] = trackOf(first), bar = rowOf(y, from, to).indexOf('|');
    return bar > 0 && from + bar < first && titles(from, to).includes(y);
}
function commandAt(x, y) {
    const there = wordAt(x, y);
    return there && (/^(Edit|System)\.[A-Z][A-Za-z]+$/.test(there.word) || isOfMenu(there, y)) ? there : null;
}

// ---- For readers of the screen: each viewer is a region with its text; what is selected is marked, and the caret is told.
function titles(from, to) {                               // the rows in which viewers of a track begin
    const bars = [...screen_.querySelectorAll('rect')].filter(bar => +bar.getAttribute('height') === HIGH &&
        /^#(000000|444444)$/.test(bar.getAttribute('fill')) && +bar.getAttribute('x') === from * WIDE &&
        +bar.getAttribute('width') === (to - from) * WIDE);
    return bars.map(bar => bar.getAttribute('y') / HIGH).sort((a, b) => a - b);
}
function caretCell() {
    const caret = screen_.querySelector(CARET);
    return caret && [caret.getAttribute('x') / WIDE, caret.getAttribute('y') / HIGH];
}
function regionOf(all, from, to, low, high) {             // of the viewer in these rows
    const [title, ...menu] = rowOf(low, from, to, all).split('|'), [x, y] = caretCell() || [-1, -1];
    const has = from <= x && x < to && low < y && y < high;
    const label = title.trim() + (has ? `, caret in row ${y - low}, column ${x - from}` : '');
    const rows = [];
    for (let row = low + 1; row < high; row++) rows.push(partsOf(all, row, from + 1, to));
    while (rows.length && !rows.at(-1).length) rows.pop();
    return { label, menu: menu.join('|').trim(), rows };
}
function partsOf(all, row, from, to) {                    // of a row: words, and whether they are selected
    let end = from;
    return all.filter(({ x, y }) => y === row && from <= x && x < to).map(({ x, words, marked }) => {
        const gap = ' '.repeat(Math.max(x - end, 0));
        end = x + words.length;
        return [gap + words, marked];
    });
}
function regions() {
    const all = texts();
    return [[0, BORDER], [BORDER, COLUMNS]].flatMap(([from, to]) => {
        const rows = titles(from, to);
        return rows.map((low, i) => regionOf(all, from, to, low, rows[i + 1] ?? ROWS));
    });
}
function regionElement({ label, menu, rows }) {
    const region = document.createElement('section'), body = document.createElement('pre');
    region.setAttribute('aria-label', label);
    region.append(Object.assign(document.createElement('p'), { textContent: menu }), body);
    for (const row of rows) {
        for (const [words, marked] of row) {
            body.append(Object.assign(document.createElement(marked ? 'mark' : 'span'), { textContent: words }));
        }
        body.append('\n');
    }
    return region;
}
const told = [];                                          // the regions as they are told, each as one string
function tellReaders() {
    const all = regions(), there = by('words').children;
    all.forEach((region, i) => {
        const now = JSON.stringify(region);
        if (now === told[i]) return;
        const element = regionElement(region);
        if (there[i]) there[i].replaceWith(element); else by('words').append(element);
        told[i] = now;
    });
    told.length = all.length;
    while (there.length > all.length) there[all.length].remove();
}
