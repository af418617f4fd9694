// What an item did, in words; and what an instruction is for.
import {badge, fill, make} from './elements.js';
import {callWords, viewWords} from './run.js';

const LINES_AROUND = 5, MOST_CHANGED = 3;
const INSTRUCTIONS = {
    each: 'sets a row, for each process', let: 'sets a local', get: 'reads a register, all of it at once',
    next: 'goes on to the next one, until all are done', if: 'goes on elsewhere, if this holds',
    first: 'looks for the first one of which this holds', goto: 'goes on at that line', view: 'takes a view',
    look: 'reads a view that a process shows', bit: 'reads a bit', put: 'writes a register, all of it at once',
    call: 'begins a scan of its own', return: 'answers; the scan of an update gives its view back',
        finish: 'ends the update',
};

// What a line of the listing is for, by its first word.
export const glossOf = text => INSTRUCTIONS[text.split(/[ :]/)[0]] ?? '';

const times = count => count === 1 ? 'once' : count === 2 ? 'twice' : `${count} times`;
const WORDS = {
    called: step => `is called: ${callWords({...step, kind: step.op})}.`,
    read: ({word, into, has}) => `reads r[${word}] into ${into}: ${has.datum}.`,
    wrote: ({word, has}) => `writes r[${word}] = ${has.datum}.`,
    tested: ({passed, differ}, {kind}) => passed ? 'compares: all equal.' :
        `compares: ${differ.map(place => kind === 'multi' ? `process ${place}` : `r[${place}]`).join(', ')} ` +
            `${kind === 'multi' ? 'has written' : differ.length > 1 ? 'are not equal' : 'is not equal'}.`,
    looked: ({view}) => `borrows the view ${viewWords(view)}.`,
    borrowed: ({view}) => `borrows the view ${viewWords(view)}.`,
    published: ({view}) => `shows its view ${viewWords(view)}, for others to borrow.`,
    collected: ({view}) => `takes what it has read: ${viewWords(view)}.`,
    entered: () => 'begins a scan of its own.',
    left: ({view}) => `has scanned: it saw ${viewWords(view)}.`,
    answered: ({view}) => `answers ${viewWords(view)}.`,
    finished: () => 'has ended its update.', crashed: () => 'crashes: it stops for good.', trapped: () =>
        'traps: it cannot go on.',
    skipped: ({item, process}, {steps}) => steps.some(one => one.does === 'crashed' && one.process === process &&
        one.item < item) ? 'makes no step: it has crashed.' : 'is skipped: it has nothing to do.',
};

// What an item did: the line that ran, and words that go on behind the process. An item 0 has done nothing.
export function stepOf(run, at, lines) {
    const step = run.steps[at - 1];
    if (!step) return {who: 0, line: 0, words: 'Nothing has happened yet.'};
    const {process, line, does} = step, text = lines.get(line)?.text ?? '';
    const words = does === 'set' ? setWords(run, step) : WORDS[does]?.(step, run) ?? jumpWords(run, at, text);
    return {who: process, line, words};
}

// What a line that reads and writes nothing led to, by the line at which its process stands behind it.
function jumpWords(run, at, text) {
    const {process, line} = run.steps[at - 1], later = run.steps.slice(at).find(step => step.process === process);
    const [verb, name = '', bound = '', from = ''] = text.split(' ');
    const target = Number(text.split('goto ')[1] ?? 0), jumps = later?.line === target;
    const always = {goto: `goes ${target < line ? 'back' : 'on'} to line ${target}.`, let: `sets ${name}.`,
        put: `writes ${name}.`, bit: `reads ${from} into ${name}.`}[verb];
    if (always || !later) return always ?? `${glossOf(text)}.`;
    const kind = bound.startsWith('w') ? 'word' : 'process';
    return {if: jumps ? `finds that this holds: on to line ${target}.` : 'finds that this does not hold.',
        first: jumps ? `finds such a ${kind}: on to line ${target}.` : `finds no such ${kind}.`,
        next: jumps ? `takes the next ${name}: back to line ${target}.` :
            `has had each ${name}, from 1 to ${bound}.`,
    }[verb] ?? `${glossOf(text)}.`;
}

// The names of a listing that stand for something else in each run, or in each step.
const NAMES = {
    w: ({words}) => many(words, 'word'),
    n: ({kind, processes}) => `${many(processes, 'process')}${kind === 'multi' ? '' : ', each with its word'}`,
    '@': ({processes}) => `each of 1 to ${processes}`,
    me: (run, {process}) => `process ${process}`,
    arg: (run, {process, item}) => run.operations.findLast(one => one.process === process && one.call <= item)?.value,
};
const many = (count, what) => `${count} ${what}${count === 1 ? '' : what.endsWith('s') ? 'es' : 's'}`;

// What the names stand for that some lines have, at a step.
function namesIn(run, step, texts) {
    const used = new Set(texts.flatMap(one => one.split(/[^\w@]+/)));
    return Object.keys(NAMES).filter(name => used.has(name)).map(name => [name, NAMES[name](run, step)])
        .filter(([, told]) => told !== undefined);
}

// A row that is set behind a test tells who has moved, and how often.
function setWords(run, {item, process, row, values}) {
    const moved = run.scans.some(scan => scan.process === process &&
        scan.collects.some(one => one.moved?.item === item));
    const all = values.flatMap((count, k) => count ? [`process ${k + 1} has moved ${times(count)}`] : []);
    return moved && all.length ? `notes: ${all.join(', ')}.` : `sets ${row} to ${viewWords(values)}.`;
}

// The same as a whole sentence.
export function sentenceOf(run, at, lines) {
    const {who, words} = stepOf(run, at, lines);
    return who ? `Process ${who} ${words}` : words;
}

// The step in words, and its line among those around it.
export function showStep(box, {run, lines, at}) {
    const step = stepOf(run, at, lines), all = [...lines.values()],
        k = all.findIndex(({number}) => number === step.line);
    const first = Math.max(0, Math.min(k - 2, all.length - LINES_AROUND)), shown = k < 0 ? [] :
        all.slice(first, first + LINES_AROUND);
    const row = ({number, text}) => make('div', {className: number === step.line ? 'line here' : 'line',
        title: glossOf(text)},
        make('small', {}, String(number)), make('code', {}, text));
    const names = namesIn(run, run.steps[at - 1], shown.map(({text}) => text));
    const namesRow = () => make('p', {className: 'step-names'}, ...names.flatMap(([name, told]) =>
        [make('span', {}, make('code', {}, name), `: ${told}`), ' ']));
    fill(box, [step.who, step.line, step.words, at, run.items], () => [
        make('p', {className: 'step-at'}, at ? `Step ${at} of ${run.items}` : `${run.items} steps`),
        make('p', {className: 'step-words'}, ...step.who ? [badge(step.who), ' '] : [], make('span', {}, step.words)),
        ...shown.length ? [make('div', {className: 'step-lines'}, ...shown.map(row)), namesRow()] : []]);
}

// The lines that a change has made others, old beside new, where they are few.
export function changedLines({lines: older}, {lines: newer}) {
    const all = [...new Set([...older.keys(), ...newer.keys()])].sort((one, other) => one - other);
    const found = all.map(number => ({number, was: older.get(number)?.text ?? '', is: newer.get(number)?.text ?? ''}))
        .filter(({was, is}) => was !== is);
    return found.length > MOST_CHANGED ? [] : found;
}

export function showChange(box, changed) {
    const row = (className, sign, number, text) => make('div', {className: `line ${className}`},
        make('small', {}, `${sign}\u2009${number}`), make('code', {}, text));
    const [{number: first, was, is}, ...others] = changed, more = others.map(({number}) => number).join(' and ');
    fill(box, ['change', JSON.stringify(changed)], () => [make('p', {className: 'step-at'}, 'The change'),
        make('p', {className: 'step-words'},
            `Line ${first} becomes another one${more ? `, and so does ${more}` : ''}.`),
        make('div', {className: 'step-lines'}, ...was ? [row('was', '\u2212', first, was)] : [],
            ...is ? [row('here', '+', first, is)] : [])]);
}
