// The page's side of a worker: one question at a time, and of several of one kind the newest alone. There are three:
// one for what is shown, one aside for pictures and for what a step would do, so that a step never waits for these, and
// one for hunts, which is started with the first.
import {MEMORY, STOPPED, TRAPPED} from './text.js';
import {$, make, say} from './elements.js';

const SLOW = 100;
const DOING = {start: 'starting', audit: 'auditing', judge: 'judging', draw: 'drawing', compare: 'comparing',
    hunt: 'hunting'};
const workerCode = new Blob([$('worker').textContent], {type: 'text/javascript'});
export const failure = {text: ''};

export class Asker {
    constructor(name) {
        this.name = name;
        /** @type {Worker | null} */
        this.worker = null;
        this.busy = null;
        this.waiting = new Map();
        this.pace = 0;
        this.items = () => 0;
    }

    start() {
        try {
            this.worker = new Worker(URL.createObjectURL(workerCode));
        } catch (error) {
            return tellFailure(String(error));
        }
        this.worker.onmessage = ({data}) => this.end(data);
        this.worker.onerror = event => this.end({code: TRAPPED, text: event.message || 'its worker does not start'});
        const done = ({code, text}) => code === TRAPPED && tellFailure(text);
        this.send({kind: 'start', request: $('module').textContent.trim(), done});
    }

    // Asks for a task of the worker; answers null where a newer question has taken its place.
    ask(kind, request, key = kind) {
        return new Promise(done => {
            this.waiting.get(key)?.done(null);
            this.waiting.set(key, {kind, request, done});
            if (!this.worker && !failure.text) this.start();
            this.next();
        });
    }

    next() {
        if (this.busy || failure.text || !this.waiting.size) return;
        const key = this.waiting.has('look') ? 'look' : this.waiting.keys().next().value;
        const question = this.waiting.get(key);
        this.waiting.delete(key);
        this.send(question);
    }

    send({kind, request, done}) {
        const timer = setInterval(() => this.showProgress(), SLOW);
        this.busy = {kind, done, begun: performance.now(), timer};
        this.worker.postMessage({kind, request});
    }

    end(answer) {
        const {begun, timer, done} = this.busy, total = answer.report?.total;
        this.busy = null;
        clearInterval(timer);
        $('progress').hidden = true;
        if (total > 1000) this.pace = (performance.now() - begun) / total;
        done(answer);
        if (answer.code === STOPPED) this.start();
        else this.next();
    }

    // The bar has the share of the time that so many items took before; with nothing to go by it moves to and fro.
    showProgress() {
        const [bar, words] = $('progress').children, spent = performance.now() - this.busy.begun;
        const expected = this.pace * this.items();
        if (expected > spent) bar.value = spent / expected;
        else bar.removeAttribute('value');
        words.textContent = `${DOING[this.busy.kind] ?? 'running'}, ${(spent / 1000).toFixed(1)} s`;
        $('progress').hidden = this.busy.kind === 'peek';
    }

    stop() {
        if (!this.busy || this.busy.kind === 'start') return;
        this.worker.terminate();
        this.end({code: STOPPED, text: ''});
    }

    get idle() {
        return Boolean(failure.text) || !this.busy && !this.waiting.size;
    }
}

export const asker = new Asker('shown'), aside = new Asker('aside'), hunter = new Asker('hunter');
export const stopAsking = () => [asker, aside, hunter].forEach(one => one.stop());

// What the page tells without a script, it tells without its module, too.
function showStill() {
    const box = make('div', {innerHTML: $('still')?.textContent ?? ''});
    $('still')?.replaceWith(...box.childNodes);
}

// Without the module nothing works, and nothing looks as if it did.
export function tellFailure(text) {
    failure.text = text || 'no reason is told';
    $('broken-why').textContent = `(${failure.text})`;
    $('broken').hidden = false;
    const controls = 'header button, section button, main button, footer button, input, select, textarea';
    for (const control of document.querySelectorAll(controls)) Object.assign(control, {disabled: true});
    for (const part of document.querySelectorAll('main, footer, header, #stage')) Object.assign(part, {inert: true});
    document.body.classList.add('dead');
    showStill();
    say('');
}

// Where the module's explanation of a refusal stands: a line of a part of the input.
const PLACE = /^line \d+ of the input, line (\d+) of the (listing|schedule)\b/m;

// What was refused: its code and name, the part that it is of, the module's explanation where that was asked for, and
// the line of the part that it names; 0 where it names none.
export function readRefusal({code, text, why = ''}) {
    const page = {[MEMORY]: 'The module found no memory for this.',
        [STOPPED]: 'Stopped: what is shown is the state before.',
        [TRAPPED]: `The module stopped (${text.trim()}), and was started anew.`}[code];
    if (page) return {part: 'page', text: page, why: '', line: 0};
    const [, name] = text.trim().split(' '), [, line = 0, where] = PLACE.exec(why) ?? [];
    const part = where ?? {L: 'listing', P: 'listing', S: 'schedule', W: 'schedule'}[name?.[0]] ?? 'page';
    return {part, text: text.trim(), name, why, line: Number(line)};
}
