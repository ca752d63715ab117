// ---- Documents in and out. Several files come in together: all of them, or none.
const LONGEST = 262144, LONGEST_FILE = 2 * LONGEST, STORE_FILE = 2 ** 31;  // characters, and bytes
const LONGEST_NAME = 31;
function nameOf(file) {                                   // a document's name that is like the file's
    const letters = file.replace(/[^A-Za-z0-9.]/g, '').replace(/^\.+/, '');
    return (/^[A-Za-z]/.test(letters) ? letters : `T${letters}`).slice(0, LONGEST_NAME);
}
function numbered(name, n) {                              // the same name with a number before its last period
    const at = name.lastIndexOf('.'), end = at > 0 ? name.slice(at) : '', tail = n + end;
    return name.slice(0, Math.min(at > 0 ? at : name.length, LONGEST_NAME - tail.length)) + tail;
}
function distinctNames(files) {                           // one for each file, no two the same
    const taken = new Set();
    return files.map(file => {
        const first = nameOf(file.name);
        let name = first;
        for (let n = 2; taken.has(name); n++) name = numbered(first, n);
        taken.add(name);
        return name;
    });
}
async function bytesOf(file, most, part = file) {         // an Error where they can't be had, or are too many
    if (file.size > most) throw Error(`“${file.name}” has ${file.size.toLocaleString('en')} bytes: ${wordsOf(7)}`);
    try {
        return new Uint8Array(await part.arrayBuffer());
    } catch {
        throw Error(`“${file.name}” can't be read: a folder, or a file that is gone.`);
    }
}
const listed = names => names.length > 3 ? `${names.slice(0, 3).join(', ')} and ${names.length - 3} more` : names.join(', ');
async function importFiles(files) {
    const names = distinctNames(files), documents = [];
    for (const [i, file] of files.entries()) documents.push({ name: names[i], bytes: await bytesOf(file, LONGEST_FILE) });
    const { there, failed } = await ask('there', { names });
    if (failed) return null;
    const asks = `There ${there.length > 1 ? 'are documents' : 'is a document'} ${listed(there)} in this desktop. ` +
        'Put what is imported in its place? Cancel imports nothing.';
    if (there.length && !confirm(asks)) return tell({ said: 'Nothing was imported.' });
    state.changed = true;
    const answer = await ask('bring', { documents });
    if (answer.failed) return null;
    if (answer.refused) {
        const of = answer.of ? `“${files[names.indexOf(answer.of)].name}”: ` : '';
        return tell({ said: `${of}${wordsOf(answer.refused)} Nothing was imported.` });
    }
    tell({ said: imported(files, names) });
    return askToKeep();
}
function imported(files, names) {
    if (names.length > 1) return `${names.length} documents were imported: ${listed(names)}.`;
    return `“${files[0].name}” is the document ${names[0]}: type Edit.Open ${names[0]} anywhere, and double click Edit.Open.`;
}
async function bringIn(files) {                           // what can't be read is told, and nothing is imported
    if (!files.length) return;
    try {
        if (!isOpen()) throw Error('The desktop is not open');
        for (let tries = 3; state.looks && tries; tries--) await send(PLAIN.Escape);  // the past, and a word that is asked for
        await importFiles([...files]);
    } catch (error) {
        tell({ said: `${wordsOf(error)} Nothing was imported.` });
    }
}
function download(bytes, name) {
    const link = document.createElement('a');
    link.href = URL.createObjectURL(new Blob([bytes]));
    link.download = name;
    link.click();
    setTimeout(() => URL.revokeObjectURL(link.href), 60000);
    tell({ said: `The browser has ${name} now, and saves it where it saves downloads.` });
}
async function giveOut() {
    const name = prompt('Which document? It has to be stored (Edit.Store).', 'A.Text');
    if (!name) return;
    const { refused, bytes, failed } = await ask('give', { name });
    if (failed) return;
    if (refused) tell({ said: `${name}: ${wordsOf(refused)}` }); else download(bytes, name);
}

// ---- The whole desktop: saved, opened from a file, begun anew.
async function save() {
    const { file, failed } = await ask('save');
    if (file) {
        download(file, 'my.disk');
        state.changed = false;
    } else if (!failed) tell({ said: 'There are no bytes to save.' });
}
async function replace(request, words, done) {
    const answer = await ask(request, words);
    if (answer.failed) return;
    if (answer.refused) tell({ said: `${wordsOf(answer.refused)} Nothing was changed.` });
    else opened({ ...answer, said: done });
}
async function load(file) {
    const asks = `Put the desktop of “${file.name}” in the place of this one? Save this one first if you want it.`;
    try {
        await bytesOf(file, STORE_FILE, file.slice(0, 1));
        if (confirm(asks)) await replace('load', { file }, `This is the desktop of “${file.name}”.`);
    } catch (error) {
        tell({ said: `${wordsOf(error)} Nothing was changed.` });
    }
}
async function beginAnew() {
    const asks = 'Put a new, empty desktop in the place of this one? What this browser keeps of it is gone then: save it first.';
    if (confirm(asks)) await replace('anew', {}, 'This is a new desktop.');
}
async function typeFile(file) {
    try {
        const text = new TextDecoder('utf-8', { fatal: true }).decode(await bytesOf(file, LONGEST_FILE));
        type(text);
    } catch (error) {
        tell({ said: error instanceof TypeError ? `“${file.name}” is no text.` : wordsOf(error) });
    }
}
function chosen(id, use) {
    by(id).onchange = async event => {
        const files = [...event.target.files];
        event.target.value = '';
        await use(files);
        keys.focus();
    };
    by(id + '-link')?.addEventListener('click', () => by(id).click());
}
chosen('import', bringIn);
chosen('typed', ([file]) => typeFile(file));
chosen('load', ([file]) => load(file));
by('load-instead').onclick = () => by('load').click();
by('export-link').onclick = giveOut;
by('save-link').onclick = by('save-bytes').onclick = save;
by('anew').onclick = beginAnew;
addEventListener('dragover', event => event.preventDefault());
addEventListener('drop', event => {
    event.preventDefault();
    bringIn(event.dataTransfer.files);
});
