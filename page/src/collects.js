// Memory, and beside each register what a scan has read of it: in the first collect and in the second, whether both are
// equal, and how often its process has moved.
import {badge, make} from './elements.js';
import {collectsAt, isEqual, readWords, viewWords, wordAt} from './run.js';

const SHOWN_FIELDS = {seq: 'seq', id: 'writer', hands: 'hands', toggle: 'toggle', view: 'view'};
const motionless = matchMedia('(prefers-reduced-motion: reduce)');

// A word with its fields; what is folded away is not told.
function chip(has, {folded, more = '', lit = ''}) {
    if (!has) return make('span', {className: 'word none', ariaLabel: 'not read'}, '\u00a0');
    const names = Object.keys(SHOWN_FIELDS).filter(name => name in has && !folded.includes(name));
    const told = value => String(Array.isArray(value) ? viewWords(value) : value).replaceAll(' ', '\u00a0');
    const small = names.map(name => make('small', {className: `${name} ${lit === name ? 'lit' : ''}`},
        `${SHOWN_FIELDS[name]}\u00a0${told(has[name])}`));
    return make('span', {className: `word ${more}`}, make('b', {}, String(has.datum)), make('span', {}, ...small));
}

// Pips: how often somebody was seen to move, of the moves that lend a view.
function pips(count, need, whose) {
    const all = Array.from({length: Math.max(need, count)}, (_, k) =>
        make('i', {className: k < count ? 'pip on' : 'pip'}));
    return make('span', {role: 'img', ariaLabel: `${whose} has moved ${count} of ${need}`}, ...all);
}

// What a scan has read by now, as the table shows it.
export function collectsOf(run, scan, at) {
    const all = scan ? collectsAt(scan, at) : [], now = all.at(-1) ?? null, read = now ? readWords(run, now) : () =>
        ({});
    const past = scan?.borrowed && scan.borrowed.item <= at ? scan.borrowed : null;
    const rows = Array.from({length: run.words}, (_, k) => {
        const {a = null, b = null} = read(k + 1);
        return {word: k + 1, memory: wordAt(run, k + 1, at), a, b,
            equal: now ? isEqual(run, now, k + 1, {a, b}) : null};
    });
    const moved = all.findLast(one => one.moved)?.moved.values ?? [], done = scan?.end && scan.end <= at;
    return {scan, who: scan?.process ?? 0, count: all.length, rows, moved, answer: done ? scan.answer : null, done,
        lender: past?.process ?? 0, locals: columnNames(scan ?? run.scans[0])};
}

// The names of the locals of both collects; where a scan has but one collect there is one.
function columnNames(scan) {
    const reads = scan?.collects[0]?.reads ?? [], second = reads.at(-1)?.into;
    const first = reads.findLast(({into}) => into !== second)?.into;
    return first ? [first, second] : [second ?? 'a'];
}

// The table. 'need' is the number of moves that lend a view, 'lit' what stands out, 'why' what its button does.
export function collectsTable(run, told, {folded = [], lit = {}, need = 0, why = null}) {
    const {rows, who, locals} = told, multi = run.kind === 'multi', moves = need > 0 && !folded.includes('moved');
    const two = locals.length > 1, columns = ['name', 'memory', 'a', ...two ? ['b', 'equal'] : [],
        ...moves && !multi ? ['moves'] : [], 'answer'];
    const body = rows.map((row, k) => {
        const cells = [make('th', {scope: 'row'}, `r[${row.word}]`), ...wordCells(row, told, {folded, lit, two}),
            ...moves && !multi ? [movesCell(row, told, need)] : [],
            ...k ? [] : [answerCell(run, told, {lit, why, rows: rows.length + (moves && multi ? 1 : 0)})]];
        cells.forEach(cell => { cell.dataset.word = String(row.word); });
        return make('tr', {className: row.word === who && !multi ? 'own' : ''}, ...cells);
    });
    if (moves && multi) body.push(movesRow(run, told, need, columns.length));
    const widths = columns.map(className => make('col', {className}));
    const many = rows.length + (moves && multi ? 1 : 0) > 2 ? 'many-rows' : '';
    return make('table', {className: `collects ${many}`,
        ariaLabel: who ? `Memory, and what process ${who} has read` : 'Memory'}, make('colgroup', {}, ...widths),
        headOf(told, {columns, two}), make('tbody', {}, ...body));
}

function headOf({who, count, locals, scan}, {columns, two}) {
    const whose = !who ? 'No scan has begun' : !count ? 'Its scan has read nothing yet' :
        `Its scan has read${count > 1 ? `: double collect ${count}` : ''}`;
    const names = {a: [make('i', {}, locals[0]), make('span', {className: 'wide'}, two ? ' first collect' :
        ' the collect')], b: [make('i', {}, locals[1] ?? ''), make('span', {className: 'wide'}, ' second collect')],
        equal: two ? [`${locals[0]}\u2009=\u2009${locals[1]}?`] : [], moves: ['moved'], memory: ['now']};
    const head = name => name in names ? make('th', {scope: 'col', className: `head-${name}`}, ...names[name]) :
        make('td', {});
    const group = make('th', {scope: 'colgroup', colSpan: columns.length - 3}, make('span', {className: 'whose'},
        ...who ? [badge(who)] : [], make('span', {}, scan?.update ?
            whose.replace('Its scan', 'The scan of its update') : whose)));
    const groups = [make('td', {}), make('th', {scope: 'colgroup'}, 'Memory'), group,
        make('th', {scope: 'colgroup'}, 'Answer')];
    return make('thead', {}, make('tr', {className: 'groups'}, ...groups), make('tr', {}, ...columns.map(head)));
}

function wordCells({word, memory, a, b, equal}, {lender, who}, {folded, lit, two}) {
    const differs = equal === false ? 'differs' : '', borrowed = lender === word && word !== who ? 'view' : '';
    const cell = (name, ...children) => make('td', {className: name}, ...children), isNew = name => lit[name] ===
        word ? 'new' : '';
    const sign = equal === null ? '' : equal ? '=' : '\u2260', className = equal === null ? '' : equal ? 'yes' : 'no';
    const told = equal === null ? '' : equal ? 'equal' : 'not equal';
    return [cell('memory', chip(memory, {folded, more: isNew('memory')})),
        cell('a', chip(a?.has, {folded, more: `${differs} ${isNew('a')}`})),
        ...two ? [cell('b', chip(b?.has, {folded, more: `${differs} ${isNew('b')}`, lit: borrowed})),
            make('td', {className: `equal ${className}`, ariaLabel: told}, sign)] : []];
}

function movesCell({word}, {who, moved}, need) {
    const own = word === who ? make('span', {className: 'self', title: 'a scan does not count its own process'},
        'its own') : pips(moved[word - 1] ?? 0, need, `process ${word}`);
    return make('td', {className: 'moves'}, ...who ? [own] : []);
}

// Where words belong to nobody, who has moved stands below them, process by process.
function movesRow(run, {who, moved}, need, columns) {
    const all = Array.from({length: who ? run.processes : 0}, (_, k) => make('span', {className: 'mover'}, badge(k + 1),
        k + 1 === who ? make('span', {className: 'self'}, 'scans') : pips(moved[k] ?? 0, need, `process ${k + 1}`)));
    return make('tr', {className: 'movers'}, make('th', {scope: 'row'}, 'moved'),
        make('td', {colSpan: columns - 2}, ...all));
}

function answerCell(run, {answer, lender, done}, {lit, why, rows}) {
    const from = !lender ? 'what it has read' : run.kind === 'multi' ? `view of process ${lender}` :
        `view of r[${lender}]`;
    const button = () => make('button', {className: 'ask-why', onclick: why, title: 'What led to this answer (x)'},
        'Why?');
    const shown = answer ? [make('b', {}, viewWords(answer)), make('small', {}, from), ...why ? [button()] : []] :
        [make('b', {className: 'dim'}, done ? '\u2013' : '?')];
    const kind = !answer ? '' : lit.wrong ? 'wrong' : lender ? 'lent' : 'found';
    return make('td', {className: `answer ${kind}`, rowSpan: rows}, make('span', {}, ...shown));
}

// A read is a copy: the word goes from memory into its column.
export function flyWord(table, word, column) {
    const from = table.querySelector(`td.memory[data-word="${word}"] .word`);
    const to = table.querySelector(`td.${column}[data-word="${word}"] .word`);
    if (!from || !to || motionless.matches) return;
    const [start, end] = [from, to].map(one => one.getBoundingClientRect());
    const way = `translate(${start.x - end.x}px, ${start.y - end.y}px)`;
    to.animate([{transform: way, opacity: .35}, {transform: 'none', opacity: 1}],
        {duration: 260, easing: 'cubic-bezier(.3,.7,.3,1)'});
}
