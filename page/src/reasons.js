// Why a scan answered so, in sentences: the conclusion first, and then its causes, backwards.
import {fill, make} from './elements.js';
import {viewWords} from './run.js';

// The items of a span, and the words around them.
const spanWords = ([from, to]) =>
    to > from ? ['from step ', {item: from}, ' to ', {item: to}] : ['at step ', {item: from}];

// The sentences, each in parts, of which some are items that are led to. 'misfit' says why no order explains the scan,
// if none does.
export function reasonsOf(run, scan, misfit) {
    const found = [conclusion(scan, misfit)], seen = new Set();
    let one = scan;
    for (; one?.borrowed?.scan && !seen.has(one.call); one = run.byCall.get(one.borrowed.scan)) {
        seen.add(one.call);
        found.push(loanWords(run, one));
    }
    return [...found, ...one ? [readsWords(run, one)] : []];
}

function conclusion({fits, answer, call, end}, misfit) {
    const view = viewWords(answer), spans = fits.flatMap((span, k) => [k ? ' and ' : ' ', ...spanWords(span)]);
    if (fits.length && !misfit) return {parts: [`Right: memory held ${view}`, ...spans, '.']};
    if (misfit) return {parts: [`Wrong: ${misfit}`], wrong: true};
    return {parts: [`No moment fits: memory was never ${view} in this scan, `, {item: call}, ' to ', {item: end}, '.'],
        wrong: true};
}

function loanWords(run, {process, call, borrowed}) {
    const {end} = run.byCall.get(borrowed.scan), early = borrowed.scan < call;
    const wrote = borrowed.wrote ? [' wrote at ', {item: borrowed.wrote}] : [' saw'];
    const where = `, lies ${early ? 'before' : 'within'} this one.`;
    return {parts: [`Process ${process} borrowed at `, {item: borrowed.item}, ` what process ${borrowed.process}`,
        ...wrote, '; the scan for it, ', {item: borrowed.scan}, ' to ', {item: end}, where], wrong: early};
}

// How the last scan of a chain came to its view: by two collects that are equal, or by reads that make it sure of
// nothing.
function readsWords(run, {process, borrowed, sure, collects}) {
    const {reads = [], test = null} = collects.at(-1) ?? {};
    const last = reads.filter(({into}) => into === reads.at(-1).into), [first] = last;
    if (borrowed) return {parts: ['Nobody has written that view.'], wrong: true};
    if (sure) return {parts: [`Process ${process} read it in two equal collects: from `, {item: sure.from}, ' to ',
        {item: sure.to}, ' nobody wrote.']};
    if (!first) return {parts: [`Process ${process} has read no word.`]};
    const tested = test ? `; its test ${test.passed ? 'passed' : 'failed'} at ` : '';
    return {parts: [`Process ${process} read it from `, {item: first.item}, ' to ', {item: last.at(-1).item},
        ...tested ? [tested, {item: test.item}, ', though words were written meanwhile.'] :
            [', each word once, with no test.']]};
}

export function showReasons(box, {view, reasons}, go, close) {
    const step = item => make('button', {className: 'to', ariaLabel: `to step ${item}`, title: `To step ${item}`,
        onclick: () => go(item)}, String(item));
    fill(box, ['why', view, JSON.stringify(reasons)], () => [
        make('div', {className: 'why-head'}, make('h3', {}, 'Why ', make('code', {}, view), '?'),
            make('button', {ariaLabel: 'Close', title: 'Close (x)', onclick: close}, '\u2715')),
        make('ol', {className: 'why-list'}, ...reasons.map(({parts, wrong}) =>
            make('li', {className: wrong ? 'wrong' : ''},
                ...parts.map(part => part.item ? step(part.item) : part))))]);
}
