// The verdicts on scans, and the judgement of the run.
import {verdictAt, verdictOf, viewAt, wordsAt} from './text.js';
import {$, badge, fill, make} from './elements.js';
import {goTo, state} from './state.js';
import {toldJudgement, unexplained} from './judged.js';
import {shapeWords} from './timeline.js';
import {whyButton} from './why.js';

// The loan that the module's picture draws last in a scan, where it draws up to the answer.
function loanOf({who, call, answer}) {
    const {shapes} = state;
    if (!shapes || shapes.to < answer) return undefined;
    return shapes.loan.findLast(each => each.who === who && each.item > call && each.item <= answer);
}

// A verdict in words, with who lent its view.
export function verdictWords(verdict) {
    const {point, collects} = verdict, loan = loanOf(verdict);
    const where = point ? `point ${point}` : '\u25c7 point none', many = collects === 1 ? '' : 's';
    const lent = loan ? `, view of process ${loan.lender} (its scan that ended at item ${loan.ended})` : '';
    return `${where}, ${collects} double collect${many}${lent}`;
}

// One line for the run, and behind it why no order explains an answer.
function showJudgement() {
    const {operations, report: {total}} = state, box = $('run-verdict');
    const {verdict = '', item = 0, who = 0, reasons = [], failed = ''} = toldJudgement() ?? {};
    const end = item ? wordsAt(operations, operations.ended[operations.to.indexOf(item)]) : '';
    const words = {
        'linearizable': `The whole run, ${total} items, is linearizable.`,
        'not linearizable':
            `Not linearizable: no order of the operations explains item ${item}, process ${who}: ${end}.`,
        'undecided': `Undecided: the search for an order was given up at item ${item}, process ${who}: ${end}.`,
    }[verdict] ?? (failed ? `The run was not judged: ${failed}` : '');
    box.hidden = !words;
    box.classList.toggle('wrong', verdict === 'not linearizable');
    const why = () => make('details', {ariaLabel: 'Why no order explains it'}, make('summary', {}, 'Why'),
        ...reasons.map(line => make('p', {}, line)));
    fill(box, [words, reasons], () => [words, ...reasons.length ? [why()] : []]);
}

// The verdicts that are listed: the last ones, the first without a point, and that on the answer that no order
// explains.
function listedVerdicts() {
    const {verdicts: {near, numbers}, operations} = state, {item} = unexplained(), place = verdictOf(numbers, item);
    if (!item || place < 0 || near.some(({answer}) => answer === item)) return near;
    const verdict = {...verdictAt(numbers, place), view: viewAt(operations, item)};
    return [...near, verdict].sort((one, other) => one.answer - other.answer);
}

// The verdicts on scans that are over as a list: each leads to its point, or to the answer where there is none. The
// answer that no order explains is crossed out.
export function showVerdicts() {
    const {verdicts: {numbers}, at, shapes, audited} = state, near = listedVerdicts(), {item: wrong} = unexplained();
    const over = near.filter(({answer}) => answer <= at);
    const left = numbers.length / 5 - near.length, later = near.length - over.length;
    showJudgement();
    const told = [...left ? [`${left} other ones are not listed.`] : [],
        ...over.length ? [] : [near.length || audited ? 'No scan has ended here yet.' : '']];
    const row = verdict => {
        const {who, call, answer, point, view} = verdict, loan = loanOf(verdict), why = loan ? shapeWords(loan) : '';
        const told = `answers ${view}`, crossed = answer === wrong, more = crossed ? '; no order explains it' : '';
        const words = [` scan, items ${call} to ${answer}, `, crossed ? make('s', {className: 'wrong'}, told) : told,
            `: ${verdictWords(verdict)}${more}`];
        const title = point ? `To its point: the first state since its call that has these values. ${why}` : why;
        const button = {className: point ? '' : 'none', title, onclick: () => goTo(point || answer)};
        const asked = whyButton(`scan of process ${who}, item ${answer}`, answer);
        return [make('button', button, badge(who), ...words), asked];
    };
    const more = later ? [[`${later} more end${later === 1 ? 's' : ''} later.`]] : [];
    fill($('verdicts'), [near, over.length, shapes?.loan, audited, left, wrong], () =>
        [...told.map(each => [each]), ...over.map(row), ...more].map(each => make('li', {}, ...each)));
}
