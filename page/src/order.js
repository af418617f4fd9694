// The order of the operations that explains a run, and why no order explains another one, of the operations alone.
import {callWords, viewWords} from './run.js';

const MOST_NAMED = 4;

// Where an operation took effect: an update at its write, a scan at the middle of what it is sure of; none where that
// does not lie within it.
function momentOf(run, {kind, process, call, end, scans}) {
    const last = end || run.items, sure = kind === 'scan' ? scans[0]?.sure : null;
    const at = sure ? (sure.from + sure.to) / 2 : kind === 'scan' ? null : run.steps.find(one =>
        one.process === process && one.does === 'wrote' && one.item > call && one.item <= last)?.item;
    return at && at >= call && at <= last ? at : null;
}

// Whether operations, one after the other, give the answers that they gave.
function explains(run, operations) {
    const values = Array(run.words).fill(0);
    return operations.every(({kind, word, value, answer}) => {
        if (kind === 'update') values[word - 1] = value;
        return kind === 'update' || !answer || viewWords(answer) === viewWords(values);
    });
}

// The calls of the operations in an order that explains them: that of the moments at which they took effect, if it
// does, and else the one that the module has found.
export function orderOf(run) {
    const told = run.operations.map(one => ({...one, at: momentOf(run, one)})), known = told.filter(({at}) => at);
    const all = known.sort((one, other) => one.at - other.at);
    const isWhole = told.every(({at, end, does}) => at || !end || does === 'crashed' || does === 'trapped');
    return isWhole && explains(run, all) ? all.map(({call}) => call) : run.order.order;
}

// The updates whose values a scan answers, and those that stand behind it in each order, since it answers of their word
// what was there before. Of a word one value of which was written twice nothing is told.
function seenBy(run, {answer}) {
    const updates = run.operations.filter(({kind}) => kind === 'update'), seen = [], missed = [];
    (answer ?? []).forEach((value, k) => {
        const own = updates.filter(({word}) => word === k + 1), all = [0, ...own.map(one => one.value)];
        const [source] = own.filter(one => one.value === value);
        if (new Set(all).size < all.length || !source && value) return;
        if (source) seen.push(source);
        missed.push(...own.filter(({call}) => !source || source.end && source.end < call));
    });
    return {seen, missed};
}

const isBefore = (one, other) => one.end > 0 && one.end < other.call;

// Why no order has a place for a scan: what it misses had ended before it began, or before something that it has seen
// began, or another scan has seen both the other way round, or all updates are one after the other.
function reasonWords(run, scan) {
    const {seen, missed} = seenBy(run, scan), view = viewWords(scan.answer);
    const past = missed.find(one => isBefore(one, scan));
    if (past) return `it misses ${callWords(past)}, which had ended before this scan was called.`;
    for (const older of missed) for (const newer of seen) {
        if (isBefore(older, newer))
            return `it shows ${callWords(newer)}, and misses ${callWords(older)}, ` +
                'which had ended before that was called.';
        const other = run.operations.filter(({kind, answer}) => kind === 'scan' && answer).find(one =>
            seenBy(run, one).seen.includes(older) && seenBy(run, one).missed.includes(newer));
        if (other) return `it shows ${callWords(newer)} without ${callWords(older)}, and the scan of process ` +
            `${other.process}, ${viewWords(other.answer)}, the other way round.`;
    }
    const updates = run.operations.filter(({kind}) => kind === 'update');
    const apart = updates.every((one, k) => updates.slice(k + 1).every(other => isBefore(one, other)));
    return apart ? `no two updates overlap, and memory was never ${view} in this scan.` : '';
}

// Why no order explains a run, of the scan that its judgement names; nothing where there is no such scan by an item.
export function misfitOf(run, at) {
    const {verdict, misfit, event} = run.order, wrong = run.operations.find(({call}) => call === misfit);
    if (verdict !== 'not linearizable' || event > at || !wrong?.answer) return null;
    return {call: misfit, view: viewWords(wrong.answer), reason: reasonWords(run, wrong) || 'no order explains it.'};
}

// The order that explains a run, or what no order explains.
export function orderWords(run) {
    const {verdict} = run.order, one = call => run.operations.find(each => each.call === call);
    const named = orderOf(run).map(one).filter(Boolean).map((each, k) => `${callWords(each)} (${k + 1})`);
    const wrong = misfitOf(run, run.items);
    if (wrong) return `No order explains ${wrong.view}: ${wrong.reason}`;
    if (verdict === 'not linearizable') return 'No order explains what follows.';
    if (verdict !== 'linearizable') return 'No order was found in time.';
    if (!named.length) return 'Nothing is to be explained.';
    return named.length > MOST_NAMED ? `An order that explains all answers: 1 to ${named.length} in the picture.` :
        `This order explains it: ${named.join(', then ')}.`;
}
