// The anatomy of a run, in the records that the page draws: what memory held, what each item did, and of each scan its
// double collects, where its answer fits, whose view it borrowed, and the moment that it is sure of. The module tells
// of
// a run in lines, a trace and the shapes of its picture; they are read here, and nowhere else. Runs in the worker.
const OUTCOME = /^item (\d+) (\d+) (\w+)((?: \d+)*)(?: at (\d+): (.*)| .*)?$/;
const FIELD = /([a-z]+) ((?:\d+ )*\d+)(?= [a-z]|$)/g;
const MANY = {hands: true, view: true};

const numbers = text => text.split(' ').filter(Boolean).map(Number);

// 'data 5 seq 1 view 0 0' as a record.
function wordOf(text) {
    const fields = Array.from(`datum ${text}`.matchAll(FIELD), ([, name, told]) =>
        [name, MANY[name] ? numbers(told) : Number(told)]);
    return Object.fromEntries(fields);
}

// The items of a trace, each with the lines that it added to the report.
function itemsOf(trace) {
    const found = [];
    for (const line of trace.split('\n')) {
        const [, item, who, outcome, view, at, instruction] = OUTCOME.exec(line) ?? [];
        if (item) found.push({item: Number(item), who: Number(who), outcome, at: Number(at ?? 0),
            instruction: instruction ?? '', view: numbers(view), changes: new Map()});
        else if (line.startsWith('+ ')) {
            const [name, told = ''] = line.slice(2).split(' = ');
            found.at(-1).changes.set(told ? name : 'told', told ||
                `${found.at(-1).changes.get('told') ?? ''}${name}\n`);
        }
    }
    return found;
}

// What stands in registers and locals, item by item: names and texts as a report has them.
class Names {
    constructor(report) {
        this.texts = new Map(report.registers.map(line => line.split(' = ')));
        for (const {who, locals} of report.processes)
            for (const line of locals.split('\n')) this.texts.set(...named(who, line));
    }

    take(changes) {
        for (const [name, told] of changes) if (name !== 'told') this.texts.set(name, told);
    }

    of(name) {
        return this.texts.get(name) ?? '';
    }
}

const named = (who, line) => {
    const [name, told = ''] = line.split(' = ');
    return /** @type {[string, string]} */ ([`process ${who} ${name}`, told]);
};

// What an item did, by its outcome, the shapes that stand at it, and its instruction.
function readStep({item, who, outcome, at, instruction, view, changes}, here, names, valuesAt) {
    const step = {item, process: who, line: at}, told = changes.get('told') ?? '';
    const [read, write, test, trap] = ['read', 'write', 'test', 'trap'].map(kind => here(kind, item));
    const local = name => names.of(`process ${who} ${name}`), [verb, first = '', , from = ''] = instruction.split(' ');
    if (outcome === 'called') return {...step, does: 'called', ...callOf(told)};
    if (outcome === 'answered') return {...step, does: 'answered', view};
    if (outcome === 'finished' || outcome === 'crashed' || outcome === 'skipped') return {...step, does: outcome};
    if (trap) return {...step, does: 'trapped'};
    if (read) return {...step, does: 'read', word: read.word, into: first.split('[')[0], place: read.word,
        has: wordOf(names.of(`r ${read.word}`))};
    if (write) return {...step, does: 'wrote', word: write.word, values: valuesAt(item),
        has: wordOf(names.of(`r ${write.word}`))};
    if (test && verb === 'if') return {...step, does: 'tested', passed: test.name === 'pass', differ: []};
    if (verb === 'call') return {...step, does: 'entered'};
    if (verb === 'return') return {...step, does: 'left', returned: first, view: numbers(local(first))};
    if (verb === 'each') {
        const row = instruction.split(':')[1].split('[')[0].trim();
        return {...step, does: 'set', row, values: numbers(local(row))};
    }
    if (verb === 'view' && from.startsWith('data('))
        return {...step, does: 'collected', into: first, view: numbers(local(first))};
    if (verb === 'view')
        return {...step, does: 'borrowed', from: from.slice(5).split('[')[0], place: here('loan', item)?.lender ?? null,
            into: first, view: numbers(local(first))};
    if (verb === 'look') return {...step, does: 'looked', into: first, view: numbers(local(first))};
    if (verb === 'put' && first.startsWith('v[')) return {...step, does: 'published', register: who,
        view: numbers(names.of(`v ${who}`))};
    return {...step, does: 'stepped'};
}

function callOf(told) {
    const [, word, value] = /update (\d+) (\d+)/.exec(told) ?? [];
    return word ? {op: 'update', word: Number(word), value: Number(value)} : {op: 'scan'};
}

// The steps of each scan within its first and last item, cut behind each test into double collects.
function collectsOf(steps, {process, call, end}) {
    const own = steps.slice(call - 1, end ?? steps.length).filter(step => step.process === process), found = [];
    for (const step of own) {
        const last = found.at(-1);
        if (step.does === 'read') {
            const {item, word, into, place} = step;
            if (!last || last.test) found.push({reads: [], test: null, moved: null, gap: null});
            found.at(-1).reads.push({item, word, into, place});
        } else if (step.does === 'tested' && last && !last.test)
            last.test = {item: step.item, passed: step.passed, differ: step.differ};
        else if (step.does === 'set' && last?.test && !last.moved)
            last.moved = {item: step.item, row: step.row, values: step.values};
    }
    for (const collect of found) collect.gap = gapOf(collect.reads);
    return found;
}

function gapOf(reads) {
    const last = reads.at(-1)?.into, first = reads.find(({into}) => into === last)?.item;
    const before = reads.findLast(({into, item}) => into !== last && item < first)?.item;
    return before && first ? [before, first] : null;
}

// The places at which a test failed: those that have moved more often by then, or whose words differ.
function setDiffer(steps, scan) {
    let before = [];
    for (const {reads, test, moved} of scan.collects) {
        const has = ({item}) => JSON.stringify(steps[item - 1].has), last = reads.at(-1).into;
        const older = ({word}) => reads.findLast(one => one.word === word && one.into !== last);
        const others = reads.filter(one => one.into === last && older(one) && has(one) !== has(older(one)));
        const more = moved?.values.flatMap((count, k) => count > (before[k] ?? 0) ? [k + 1] : []);
        if (test && !test.passed) test.differ = more ?? others.map(({word}) => word);
        if (test) steps[test.item - 1].differ = test.differ;
        before = moved?.values ?? before;
    }
}

const isSame = (one, other) => one.join() === other.join();
const cut = ([from, to], [least, most]) => [Math.max(from, least), Math.min(to, most)];
const some = ([from, to]) => from <= to;

// The scans: those that are called, and those within updates.
function scansOf({steps, shapes, memory, total}) {
    const called = shapes.bar.filter(({name}) => name === 'scan').map(bar => ({bar, update: null}));
    const inner = shapes.inner.map(bar => ({bar, update: shapes.bar.find(({who, from, to}) => who === bar.who &&
        from <= bar.from && bar.to <= to)?.from ?? null}));
    const all = [...called, ...inner].sort((one, other) => one.bar.from - other.bar.from);
    const scans = all.map(({bar: {who, from, to}, update}) => {
        const last = steps[to - 1], ended = last.process === who &&
            ['answered', 'left', 'trapped', 'crashed'].includes(last.does);
        const answer = ended ? last.view ?? null : null;
        const scan = {process: who, call: from, end: ended ? to : null, update, answer, collects: [], fits: [],
            outside: [], borrowed: null, sure: null};
        const same = answer ? memory.filter(({values}) => isSame(values, answer)).map(one => [one.from, one.to]) : [];
        scan.fits = same.map(span => cut(span, [from, to])).filter(some);
        scan.outside = same.flatMap(span => [cut(span, [0, from - 1]), cut(span, [to + 1, total])]).filter(some);
        scan.collects = collectsOf(steps, scan);
        setDiffer(steps, scan);
        return scan;
    });
    for (const scan of scans) scan.borrowed = borrowedOf(scan, scans, steps, shapes);
    for (const scan of scans) scan.sure = sureOf(scan, scans, steps, memory);
    return scans;
}

function borrowedOf({process, call, end, answer}, scans, steps, shapes) {
    const loan = shapes.loan.findLast(({who, item}) => who === process && item > call && item <= (end ?? item));
    if (!loan) return null;
    const lender = scans.find(scan => scan.process === loan.lender && scan.end === loan.ended);
    const wrote = steps.find(step => step.process === loan.lender && step.item > loan.ended &&
        ['wrote', 'published'].includes(step.does));
    return {item: loan.item, wrote: wrote?.item ?? null, process: loan.lender, update: lender?.update ?? null,
        scan: lender?.call ?? null};
}

// The moment of a scan: the gap of its clean double collect, or that of its lender.
function sureOf(scan, scans, steps, memory) {
    if (!scan.answer) return null;
    const lender = scan.borrowed && scans.find(({call}) => call === scan.borrowed.scan);
    if (scan.borrowed) return lender ? sureOf(lender, scans, steps, memory) : null;
    const {gap, test} = scan.collects.at(-1) ?? {};
    if (!gap || !test?.passed) return null;
    const held = memory.filter(({from, to}) => from < gap[1] && to >= gap[0]);
    return held.every(({values}) => isSame(values, scan.answer)) ? {scan: scan.call, from: gap[0], to: gap[1]} : null;
}

// The whole anatomy, of the report at the beginning, the trace, and the shapes of all items.
export function anatomyOf({report, trace, shapes, kind}) {
    const items = itemsOf(trace), names = new Names(report), total = items.length;
    const memory = shapes.values.map(({from, to, rest}) => ({from, to: to < total ? to - 1 : to,
        values: numbers(rest)}));
    if (!memory.length) memory.push({from: 0, to: total, values: numbers(report.values)});
    const valuesAt = item => memory.find(({from, to}) => from <= item && item <= to)?.values ?? memory.at(-1).values;
    const at = {};
    for (const name of ['read', 'write', 'test', 'trap', 'loan']) at[name] =
        new Map(shapes[name].map(one => [one.item, one]));
    const here = (name, item) => at[name].get(item), steps = [];
    for (const item of items) {
        names.take(item.changes);
        steps.push(readStep(item, here, names, valuesAt));
    }
    return {kind, processes: report.processes.length, words: numbers(report.values).length, items: total, memory, steps,
        scans: scansOf({steps, shapes, memory, total})};
}

// The order of the operations that explains a run, or the operation that no order explains: of the lines of a
// judgement.
export function orderOf(text) {
    const [first, ...lines] = text.split('\n'), [verdict, event = ''] = first.split(': event ');
    const calls = lines.map(line => / call (\d+)/.exec(line)?.[1]).filter(Boolean).map(Number);
    const reasons = lines.filter(line => line.startsWith('because: ')).map(line => line.slice(9));
    return {verdict, event: Number(event.split(' ')[0]), order: calls, reasons};
}
