// A card for each process: where it is, what its next step would do, its buttons and its locals.
import {OUTPUT} from './text.js';
import {$, badge, compared, fill, make, say} from './elements.js';
import {aside} from './asker.js';
import {anatomyNow, askAnatomy, goOn, hindrance, parted, press, state, withItem} from './state.js';
import {collectsOf, collectsTable} from './collects.js';
import {whyButton} from './why.js';

export const cards = [];
const MOST_CHANGES = 4, MANY = 16, PARTS = ['what', 'next', 'peek', 'changes', 'table', 'locals'];
const IS_VALUE = /^\d{1,20}$/, MOST_PEEKED = 300000, MOST_NEWS = 6, PEEK_AFTER = 90;
const peeked = {timer: 0, serial: 0, run: null, at: 0};

function makeCard(who) {
    const part = className => make('div', {className}), [what, next, peek, changes, table, locals] = PARTS.map(part);
    const button = (name, title, call) => {
        const pressed = make('button', {className: name, title: `Process ${who} ${title}`,
            ariaLabel: `${name}, process ${who}`, onclick: () => pressOf(who, call)}, name);
        pressed.onpointerenter = pressed.onfocus = () => askPeek(who, call(false));
        pressed.onpointerleave = pressed.onblur = endPeek;
        return pressed;
    };
    const told = {ontoggle: () => showReads(cards[who - 1], who), ariaLabel: `What process ${who} has read`};
    const details = make('details', told,
        make('summary', {}, 'has read\u2003', changes), table, locals);
    const buttons = [button('step', `takes a step (${who})`, () => ''),
        button('scan', 'is called for a scan', () => 'scan'),
        button('update', 'is called for an update', pressed => updateOf(who, pressed)),
        button('crash', 'crashes: it stops for good', () => 'crash')];
    const on = make('button', {className: 'finish', ariaLabel: `to the end, process ${who}`, onclick: () => goOn(who),
        title: `Process ${who} takes as many steps as lead to the end of its operation`}, '\u25B6\u25AE');
    buttons.push(on);
    const number = Object.assign(badge(who), {role: 'presentation', ariaHidden: 'true'});   // the group's name tells it
    const head = make('div', {className: 'head'}, number, what, buttons[0], on, ...buttons.slice(1, 4));
    const group = {className: 'process', role: 'group', ariaLabel: `Process ${who}`, style: `--p: var(--p${who % 8})`};
    const box = make('div', group, head, make('div', {className: 'lines'}, next, peek), details);
    $('processes').append(box);
    return {what, next, peek, changes, table, locals, details, box, buttons};
}

// A button is pressed, where the value of an update is one.
function pressOf(who, call) {
    const value = $('value');
    if (call(false).startsWith('update') && !IS_VALUE.test(value.value.trim())) {
        value.focus();
        return say('The value of an update is a whole number.');
    }
    return press(who, call(true));
}

// An update of the word that is chosen; where it is called the next one has another value.
function updateOf(who, called) {
    const word = $('word').value === 'own' ? who : $('word').value, value = $('value').value.trim() || '0';
    if (called && /^\d{1,15}$/.test(value)) $('value').value = String(Number(value) + 1);
    return `update ${word} ${value}`;
}

export function showProcesses() {
    const {report, lines, last, refusal} = state, moved = Number(last.split(' ')[0]);
    while (cards.length > report.processes.length) cards.pop().box.remove();
    while (cards.length < report.processes.length) cards.push(makeCard(cards.length + 1));
    report.processes.forEach((process, k) => showCard(cards[k], process, lines, moved));
    const own = !report.registers.some(line => line.startsWith('v '));
    const words = report.values.split(' ').map((_, k) => String(k + 1));
    fill($('word'), [own, ...words], () => [...own ? ['own'] : [], ...words].map(word => make('option', {}, word)));
    document.body.classList.toggle('stale', Boolean(refusal));
    document.body.classList.toggle('many', cards.length > MANY);
    if (peeked.run !== state.run || peeked.at !== report.at || refusal) endPeek();
    Object.assign(peeked, {run: state.run, at: report.at});
}

function showCard(card, {who, what, at, link}, lines, moved) {
    const trouble = /^(trapped|crashed)/.test(what);
    const told = what + (at ? ` at ${at}` : '') + (link ? `, then back to ${link}` : '');
    fill(card.what, [told], () => [make('span', {className: trouble ? 'gone' : ''}, told)]);
    const next = at && !trouble ? `next ${at}: ${lines.get(at)?.text ?? ''}` : trouble ? 'it does nothing more' :
        'idle: a scan or an update can be called';
    const why = () => whyButton(`process ${who} trapped`, 0, who), trapped = what.startsWith('trapped');
    fill(card.next, [next, trapped], () => [next, ...trapped ? [' ', why()] : []]);
    card.box.classList.toggle('last', moved === who);
    let left = false;      // whether the button that has the focus is one no longer
    ['', 'scan', 'update', 'crash', ''].forEach((call, k) => {
        const button = card.buttons[k], why = hindrance(who, call);
        const focused = button === document.activeElement;
        if (button.disabled !== Boolean(why)) button.disabled = Boolean(why);
        left ||= focused && Boolean(why);
        const title = why || button.dataset.title || button.title;
        if (!button.dataset.title) button.dataset.title = button.title;
        if (button.title !== title) button.title = title;
    });
    if (left) (card.buttons.find(button => !button.disabled) ?? $('timeline')).focus({preventScroll: true});
    const news = localsOf(who).filter(([was, is]) => was !== undefined && was !== is);
    const shown = ([was, is]) => [...compared(was, is), '\u2003'], more = news.length - MOST_CHANGES;
    fill(card.changes, news, () =>
        [...news.slice(0, MOST_CHANGES).flatMap(shown), ...more > 0 ? [`and ${more} more`] : []]);
    showReads(card, who);
}

// Each local of a process as it was before, where that is known, and as it is.
function localsOf(who, report = state.report, before = state.before) {
    const after = report.processes[who - 1].locals, older = before?.processes[who - 1]?.locals.split('\n') ?? [];
    return after.split('\n').map((is, k, all) => [older.length === all.length ? older[k] : undefined, is]);
}

// What a process has read is told where it is unfolded, and there alone: the table of its last scan's collects where
// the anatomy of the run is known, and all its locals.
function showReads(card, who) {
    if (!card?.details.open) return;
    const run = anatomyNow(), {at} = state, scan = run?.scans.findLast(one => one.process === who && one.call <=
        at) ?? null;
    const read = scan ? collectsOf(run, scan, at).locals : [], isTold = line => !read.includes(line.split(' ')[0]);
    const pairs = localsOf(who).filter(([, is]) => isTold(is));
    if (!run) askAnatomy();
    fill(card.table, [run, scan ? at : 0, scan], () => scan ?
        [collectsTable(run, collectsOf(run, scan, at), {need: run.need, folded: ['view', 'hands']})] : []);
    fill(card.locals, pairs, () => pairs.map(pair => make('div', {}, ...compared(...pair))));
}

// What a step or a call would do is asked of the module before it is pressed, and told in the card.
function askPeek(who, what) {
    endPeek();
    const {items, at, schedule, listing, refusal, report} = state;
    const bad = what.startsWith('update') && !IS_VALUE.test($('value').value.trim());
    if (!items || refusal || bad || schedule.length > MOST_PEEKED || report?.at !== at || hindrance(who, what)) return;
    const serial = peeked.serial, item = `${who} ${what}`.trim();
    peeked.timer = setTimeout(async () => {
        const before = at < items.total ? parted(schedule, items, at)[0] : schedule;
        const cut = {...items, total: at};
        const answer = await aside.ask('peek', {listing, schedule: withItem(before, cut, at, item), at: at + 1});
        if (answer?.code === OUTPUT && serial === peeked.serial) tellPeek(who, answer);
    }, PEEK_AFTER);
}

function tellPeek(who, {report, last}) {
    const {report: now} = state, pairs = (older, newer) => newer.map((line, k) => [older[k], line]);
    const lines = (older, newer) => pairs(older, newer).filter(([was, is]) => was !== is);
    const locals = localsOf(who, report, now).filter(([was, is]) => was !== is);
    const news = [...lines(now.registers, report.registers), ...locals], after = report.processes[who - 1];
    const place = after.at ? `, then at ${after.at}` : '', more = news.length - MOST_NEWS;
    const nothing = news.length ? ': ' : `, no register or local changes`;
    const outcome = last.split(' ').slice(1).join(' ');
    cards[who - 1].peek.replaceChildren(`would be ${outcome}${place}${nothing}`,
        ...news.slice(0, MOST_NEWS).flatMap(([was, is]) => [...compared(was, is), '\u2003']),
        more > 0 ? `and ${more} more` : '');
}

function endPeek() {
    clearTimeout(peeked.timer);
    peeked.serial++;
    for (const {peek} of cards) if (peek.firstChild) peek.replaceChildren();
}
