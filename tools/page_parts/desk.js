'use strict';
// The page: it tells the worker what is pressed, as a terminal would, and shows the drawing and the line that come back.
function by(id) {
    return document.getElementById(id);
}
const screen_ = by('screen'), keys = by('keys');
const spelled = words => new TextEncoder().encode(words);

// ---- The worker. Each request has a number, and one answer.
const source = URL.createObjectURL(new Blob([by('worker').textContent], { type: 'text/javascript' }));
const store = (new URLSearchParams(location.search).get('store') || '').replace(/[^\w-]/g, '') || 'desk';
let worker = null, module, number = 0;
const asked = new Map();                                  // the requests that wait for their answers
function ask(request, words = {}) {
    if (!worker) {
        start();
        if (request !== 'open') ask('rescue', { store, module });  // of one that died what is on the medium can be asked for
    }
    return new Promise(done => {
        asked.set(++number, done);
        worker.postMessage({ number, ask: request, words });
    });
}
function heard({ data }) {
    if (data.waits) return tell({ kind: 'waiting' });
    if ('svg' in data) show(data);
    if (data.failed) { tell({ kind: data.kind || state.kind }); fail(data.failed); }
    asked.get(data.number)?.(data);
    asked.delete(data.number);
    if (data.looks === 2 && !asked.size) ask('press', { press: spelled('') });  // it is sought on, until a key is pressed
    return null;
}
function stop() {                                         // whatever it does just now
    worker?.terminate();
    worker = null;
    asked.clear();
}
function start() {
    worker = new Worker(source);
    worker.onmessage = heard;
    worker.onerror = event => {
        event.preventDefault();
        stop();
        fail(event.message || 'The browser didn\'t start the worker of this page');
    };
}
