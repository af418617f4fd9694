// What the page asks of a run's anatomy: its operations, what stood where at a position, and what a scan had read.
const ENDS = ['answered', 'finished', 'crashed', 'trapped'];

// A run with what is looked up often: its operations, and its scans by the items that began them.
export function prepared(anatomy, order) {
    const {scans, steps} = anatomy, byCall = new Map(scans.map(scan => [scan.call, scan]));
    const operations = operationsOf(steps).map(one => ({...one, scans: scans.filter(({call, update}) =>
        update === one.call || update === null && call === one.call)}));
    return {...anatomy, byCall, operations, order: {order: [], reasons: [], event: 0, misfit: 0, verdict: '',
        ...order, ...order?.verdict === 'not linearizable' && !order.misfit ?
            {misfit: callAt(operations, order.event)} : {}}};
}

const callAt = (operations, end) => operations.find(one => one.end === end)?.call ?? 0;

// The operations in the order of their calls; the end is 0 of one that goes on.
function operationsOf(steps) {
    const found = [], open = new Map();
    for (const {item, process, does, op, word, value, view} of steps) {
        if (does === 'called') {
            open.set(process, {process, kind: op, word, value, call: item, end: 0, does: '', answer: null});
            found.push(open.get(process));
        } else if (ENDS.includes(does) && open.has(process)) {
            Object.assign(open.get(process), {end: item, does, answer: view ?? null});
            open.delete(process);
        }
    }
    return found;
}

export const isOver = (operation, at) => operation.end > 0 && operation.end <= at;
export const valuesAt = (run, at) => run.memory.find(({from, to}) => from <= at && at <= to)?.values ?? [];
export const viewWords = view => view ? view.join(' ') : '';

// What an operation is, in words.
export const callWords = ({kind, word, value}) => kind === 'scan' ? 'scan' : `update r[${word}] = ${value}`;

// What a register holds at a position: the word last written, or all zeros.
export function wordAt(run, word, at) {
    const wrote = run.steps.findLast(step => step.item <= at && step.does === 'wrote' && step.word === word);
    return wrote?.has ?? zeros(run);
}

function zeros({kind, processes, words}) {
    const view = Array(words).fill(0), hands = Array(processes).fill(0);
    return {seq: {datum: 0, seq: 0, view}, bit: {datum: 0, hands, toggle: 0, view},
        multi: {datum: 0, id: 0, toggle: 0}}[kind];
}

// The scan that a class looks at: the last one of this process that has been called by now, or of any.
export function scanAt(run, hero, at) {
    const begun = run.operations.filter(({kind, call}) => kind === 'scan' && call <= at);
    return begun.findLast(({process}) => process === hero) ?? begun.at(-1) ?? null;
}

// The scan whose answer is told: the last one that has ended by now.
export function toldAt(run, hero, at) {
    const over = run.operations.filter(one => one.kind === 'scan' && one.answer && isOver(one, at));
    return over.findLast(({process}) => process === hero) ?? over.at(-1) ?? null;
}

// Of the double collects of a scan, what was done by now.
export function collectsAt(scan, at) {
    const past = one => one && one.item <= at ? one : null;
    return scan.collects.map(({reads, test, moved, gap}) => ({reads: reads.filter(({item}) => item <= at),
        last: secondOf(reads), test: past(test), moved: past(moved), gap})).filter(({reads}) => reads.length);
}

// The local of the second collect; none where there is but one.
const secondOf = reads => reads.some(({into}) => into !== reads.at(-1).into) ? reads.at(-1).into : '';

// The last reads of each word into the first local and into the second, the words themselves.
export function readWords(run, {reads, last}) {
    const has = ({item}) => run.steps[item - 1].has, of = (word, second) => {
        const read = reads.findLast(one => one.word === word && (one.into === last) === second);
        return read ? {item: read.item, has: has(read)} : null;
    };
    return word => ({a: of(word, false), b: of(word, true)});
}

// Whether what both collects read of a word is the same: by the test where that was of words, else by what was read.
export function isEqual(run, {test}, word, {a, b}) {
    if (!a || !b) return null;
    if (test && run.kind !== 'multi') return !test.differ.includes(word);
    return tagOf(a.has) === tagOf(b.has);
}

// What tells one write of a word from another one.
const tagOf = ({seq, toggle, id, hands}) => JSON.stringify([seq, toggle, id, hands]);

// The gap of a double collect that is sure: it is the one that its scan is sure of.
export const sureGap = (scan, {gap, test}) => gap && test?.passed && scan.sure?.scan === scan.call &&
    scan.sure.from === gap[0] && scan.sure.to === gap[1] ? gap : null;

// The first item at which two runs differ, in what it did or in the line at which its process goes on; 0 where none
// does.
export function partedAt(one, other) {
    const next = ({steps}, k) => steps.slice(k + 1).find(({process}) => process === steps[k].process)?.line;
    const most = Math.min(one.items, other.items), did = ({steps}, k) => JSON.stringify(steps[k]);
    for (let k = 0; k < most; k++) {
        const lines = [next(one, k), next(other, k)];
        if (did(one, k) !== did(other, k) || lines[0] !== lines[1] && !lines.includes(undefined)) return k + 1;
    }
    return one.items === other.items ? 0 : most + 1;
}
