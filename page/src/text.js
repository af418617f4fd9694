// Reads what the program prints, and finds the items of a schedule's lines. Runs in the worker and in the page.

// The module's codes, and two of the page's own: after a trap, and where the user has stopped a run.
export const OUTPUT = 0, REFUSED = 1, MEMORY = 2, SMALL = 3, UNSAID = 5, TRAPPED = 6, STOPPED = 7;
export const KINDS = [undefined, 'scan', 'update', 'crash'], STEP = 0, MOST_ITEMS = 1000000, MOST_TOLD = 999;
const ITEM = /^[ \t\r]*(\d+)[ \t\r]*(?:\*[ \t\r]*(\d+)|(scan|crash|update)\b[^#]*)?[ \t\r]*(?:#.*)?$/;
const SHAPE = /^[ \t\r]*shape[ \t\r]+(\d+)[ \t\r]+(\d+)/;
const EMPTY = /^[ \t\r]*(?:#.*)?$/;
const EVENT = /^event (\d+) (\d+) (scan|update|answer|done|crash)/gm;
const COMMENT = /#\s*(.*?)\s*$/;

// What stands in the page deflated, in letters of 85 kinds, five of which are four bytes: its bytes.
const LETTERS = '0123456789ABCDEFGHIJKLMNOPQRSTUVWXYZabcdefghijklmnopqrstuvwxyz!#$%&()*+-;,=>?@^_`{|}~';

export async function unpacked(text) {
    const letters = text.replace(/\s/g, ''), count = letters.length, bytes = new Uint8Array(Math.ceil(count / 5) * 4);
    const view = new DataView(bytes.buffer), codes = new Uint8Array(128), last = LETTERS.length - 1;
    [...LETTERS].forEach((letter, code) => { codes[letter.charCodeAt(0)] = code; });
    for (let k = 0, at = 0; k < count; k += 5, at += 4) {
        let word = 0;
        for (let j = k; j < k + 5; j++) word = word * LETTERS.length +
            (j < count ? codes[letters.charCodeAt(j)] : last);
        view.setUint32(at, word);
    }
    const packed = new Blob([bytes.subarray(0, Math.floor(count * 4 / 5))]).stream();
    return new Response(packed.pipeThrough(new DecompressionStream('deflate-raw'))).arrayBuffer();
}

// Whether two keys, numbers, texts or lists of these, are alike, part by part.
export function same(one, other) {
    if (!Array.isArray(one) || !Array.isArray(other)) return Object.is(one, other);
    return one.length === other.length && one.every((part, k) => same(part, other[k]));
}

// A text whose last line is ended, and the input that has these parts.
export const ended = text => text && !text.endsWith('\n') ? text + '\n' : text;
export const inputOf = (...parts) => parts.map(ended).join('%\n');

// A schedule's lines with items: the process, kind and text line of each, and how many items stand before it; and what
// comments tell of their items. Whether the text is a schedule says the module alone.
export function readItems(text) {
    const items = {total: 0, processes: 0, shapeLine: -1, from: [], who: [], kind: [], line: [], told: []};
    for (const [line, raw] of text.split('\n').entries()) {
        if (EMPTY.test(raw)) continue;
        if (items.shapeLine < 0) {
            Object.assign(items, {shapeLine: line, processes: Number(SHAPE.exec(raw)?.[1] ?? 0)});
            continue;
        }
        const [, who, times = 1, call] = ITEM.exec(raw) ?? [];
        if (!who || items.total > MOST_ITEMS) break;
        items.from.push(items.total);
        items.who.push(Number(who));
        items.kind.push(KINDS.indexOf(call));
        items.line.push(line);
        const from = items.total, told = COMMENT.exec(raw)?.[1];
        items.total += Number(times);
        if (told && items.told.length < MOST_TOLD) items.told.push({at: items.total, from, text: told});
    }
    return packed(items, 'from', 'who', 'kind', 'line');
}

// Lists of numbers go fast from the worker to the page.
export function packed(found, ...lists) {
    for (const list of lists) found[list] = Uint32Array.from(found[list]);
    return found;
}

// The least place below a count at which something holds; it holds at all later ones.
export function leastPlace(count, holds) {
    let low = 0, high = count;
    while (low < high) {
        const middle = (low + high) >> 1;
        if (holds(middle)) high = middle;
        else low = middle + 1;
    }
    return low;
}

// The place, in the lists of a schedule, of the line that has this item.
export const lineOf = ({from}, item) => leastPlace(from.length, k => from[k] >= item) - 1;

// The replies of a session, each with its command, and the report behind them.
export function readSession(text) {
    const cut = text.lastIndexOf('\nreport at ') + 1, replies = [];
    for (const line of text.slice(0, cut).split('\n')) {
        if (line.startsWith('> ')) replies.push({command: line.slice(2), lines: []});
        else if (line) replies.at(-1).lines.push(line);
    }
    return {replies, report: readReport(text.slice(cut).split('\n'))};
}

// The parts of a report, each as it is printed. Locals are kept as one text, since most of them are never shown.
export function readReport([first, values, ...lines]) {
    const [, , at, , total] = first.split(' ');
    const report = {at: Number(at), total: Number(total), values: values.slice(7)};
    Object.assign(report, {registers: [], processes: [], events: []});
    for (const line of lines) {
        if (line.startsWith('  ')) report.processes.at(-1).locals.push(line.slice(2));
        else if (line.startsWith('process ')) report.processes.push(readHead(line));
        else if (line.startsWith('event ')) report.events.push(line);
        else if (line) report.registers.push(line);
    }
    for (const process of report.processes) process.locals = process.locals.join('\n');
    return report;
}

// 'process 2 update 2 5 at 32 link 31' and its like.
export function readHead(line) {
    const [, who, what, at, link] = /^process (\d+) (.*?)(?: at (\d+))?(?: link (\d+))?$/.exec(line);
    return {who: Number(who), what, at: Number(at ?? 0), link: Number(link ?? 0), locals: []};
}

// The operations that a text of events tells of, as lists: process, first item, last item or 0, and where in the text
// the words of the call and of the answer are.
export function readOperations(text) {
    const found = {who: [], from: [], to: [], called: [], ended: [], answers: 0, text}, open = new Map();
    for (const event of text.matchAll(EVENT)) {
        const [all, item, who, what] = event, words = event.index + all.length - what.length;
        if (what === 'answer' || what === 'done' || what === 'crash') {
            if (!open.has(who)) continue;
            found.to[open.get(who)] = item;
            found.ended[open.get(who)] = words;
            found.answers += what === 'answer' ? 1 : 0;
            open.delete(who);
        } else {
            open.set(who, found.who.push(who) - 1);
            found.from.push(item);
            found.called.push(words);
            found.to.push(0);
            found.ended.push(0);
        }
    }
    return packed(found, 'who', 'from', 'to', 'called', 'ended');
}

// The words at a place of the text of events: 'update 2 5', 'answer 0 5'.
export function wordsAt({text}, place) {
    const feed = text.indexOf('\n', place);
    return text.slice(place, feed < 0 ? text.length : feed);
}

// The view that a scan answered at this item.
export const viewAt = (found, item) => wordsAt(found, found.ended[found.to.indexOf(item)]).slice(7);

// 'scan 1 call 1 answer 64 point 24 collects 2', a line a verdict: five numbers each, the point 0 where there is none.
export const readVerdicts = text => Uint32Array.from(text.match(/\d+|none/g) ?? [], word => Number(word) || 0);

export function verdictAt(numbers, k) {
    const [who, call, answer, point, collects] = numbers.subarray(5 * k, 5 * k + 5);
    return {who, call, answer, point, collects, view: ''};
}

// The place of the verdict on the scan that answered at this item; -1 where there is none. Answers are in order.
export function verdictOf(numbers, item) {
    const place = leastPlace(numbers.length / 5, k => numbers[5 * k + 2] >= item);
    return numbers[5 * place + 2] === item ? place : -1;
}

// What the program prints of a judgement: its verdict; where it names an event, the item and the process of that; and
// behind a run that is not linearizable what would have been right, and why.
const VERDICT = /^(linearizable|not linearizable|undecided)(?:: event (\d+) process (\d+))?$/;
const REASON = /^(?:right answer|because): .*$/gm;

export function readJudgement(text) {
    const [, verdict, item, who] = VERDICT.exec(text.slice(0, text.indexOf('\n')));
    const reasons = verdict === 'not linearizable' ? text.match(REASON) ?? [] : [];
    return {verdict, item: Number(item ?? 0), who: Number(who ?? 0), reasons};
}

// The numbered lines of a listing by their numbers: the place of each among the text lines, and its text.
export function readLines(listing) {
    const found = new Map();
    listing.split('\n').forEach((text, place) => {
        const line = /^[ \t\r]*(\d+)[ \t\r]*:[ \t\r]*([^#]*)/.exec(text);
        if (line) found.set(Number(line[1]), {number: Number(line[1]), place, text: line[2].trim()});
    });
    return found;
}

// How many moves lend a view, by the line that looks for one who has made them; 0 where a listing has no such line.
export const lendingMoves = listing =>
    Number(/^[ \t\r]*\d+[ \t\r]*:[ \t\r]*first \w+ n: \w+\[@\] = (\d+)/m.exec(listing)?.[1] ?? 0);

// The items of a trace: the words of each, what it did in one text, and what it changed, old beside new. The text of
// the line that was executed is none of what it did.
export function readTrace(text) {
    const items = [];
    for (const line of text.split('\n')) {
        const [, item, who, words] = /^item (\d+) (\d+) (.*)$/.exec(line) ?? [];
        if (item) items.push({item: Number(item), who: Number(who), words, did: `${who} ${words.split(': ')[0]}`,
            changes: []});
        else if (line) {
            const {changes} = items.at(-1), is = line.slice(2), last = changes.at(-1);
            if (line[0] === '-') changes.push([is, '']);
            else if (last && !last[1]) last[1] = is;
            else changes.push(['', is]);
            items.at(-1).did += `\n${line}`;
        }
    }
    return items;
}

// What a picture of some items draws, as the module tells it: a line a shape, its name, its numbers, and behind these
// what is told of it in words or values.
const NUMBERS = {
    values: 'from to', scan: 'who from to', update: 'who from to word value', inner: 'who from to',
    read: 'who item line word', write: 'who item line word', pass: 'who item line', fail: 'who item line',
    trap: 'who item line', crash: 'who item line', loan: 'lender ended who item line',
    point: 'who from to item collects', none: 'who from to',
};
const TOGETHER = {scan: 'bar', update: 'bar', pass: 'test', fail: 'test'};

export function readShapes(text) {
    const found = {values: [], bar: [], inner: [], read: [], write: [], test: [], trap: [], crash: [], loan: [],
        point: [], none: []};
    for (const line of text.split('\n').slice(0, -1)) {
        const [name, ...words] = line.split(' '), names = NUMBERS[name].split(' '), shape = {name, rest: ''};
        names.forEach((each, k) => { shape[each] = Number(words[k]); });
        shape.rest = words.slice(names.length).join(' ');
        found[TOGETHER[name] ?? name].push(shape);
    }
    return found;
}
