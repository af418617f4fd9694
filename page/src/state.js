// What the page stands on: the two texts, the position, the marks, and the lesson with its goal; these are kept, undone
// and linked together. All else is what the module printed for them.
import {MOST_ITEMS, OUTPUT, STEP, STOPPED, ended, lendingMoves, lineOf, readItems, readLines, readOperations,
    readVerdicts,
    same} from './text.js';
import {data, say, within} from './elements.js';
import {asker, aside, readRefusal} from './asker.js';
import {prepared} from './run.js';

const BIG = 300000, QUIET = 120, MOST_DRAWN = 20000;
const MOST_NAMES = 300, MOST_UNDONE = 500, MOST_UNDONE_LETTERS = 3e7, PAUSE = 1500;
const NO_VERDICTS = {numbers: readVerdicts(''), near: [], none: new Set()};
export const state = {
    listing: '', schedule: '', at: 0, marks: new Set(), idea: null, goal: null,
    lines: new Map(), items: readItems(''), report: null, before: null, since: null, last: 'none',
    operations: readOperations(''), verdicts: NO_VERDICTS, refusal: null,
    shapes: null, oldShapes: null, serial: 0, timer: 0, past: [], future: [], typed: null, typedAt: 0, audited: null,
    appended: false, judged: null, run: {}, shownRun: null, thread: {}, why: null, anatomy: null,
};
asker.items = () => state.items?.total ?? 0;

// What follows a change; main.js says what, so that the state knows none of those who show or keep it.
export const follow = {texts: () => {}, shown: () => {}, kept: () => {}};

// What is undone, kept and linked.
export function work() {
    const {listing, schedule, at, marks, idea, goal} = state;
    return {listing, schedule, at, marks: [...marks], idea, goal};
}

const WHAT = ['listing', 'schedule', 'idea', 'goal'];
const alike = (one, other) => WHAT.every(part => one[part] === other[part]) && same(one.marks, other.marks);

// Takes on other texts, marks, lesson or goal, another position, or several of them. 'appended' where items were added
// at the end alone, 'kept' where the items up to the position stay, 'typed' with the part where one types letter by
// letter, which is undone as one step.
/** @param {any} to @param {{appended?: boolean, kept?: boolean, undone?: boolean, typed?: string}} how */
export function change(to, {appended = false, kept = false, undone = false, typed = ''} = {}) {
    const older = work();
    Object.assign(state, to, {appended: state.appended && appended});
    if (to.marks) state.marks = new Set(to.marks);
    if (!undone && !alike(older, work())) remember(older, typed);
    if (state.listing !== older.listing) state.lines = readLines(state.listing);
    if (state.schedule !== older.schedule) state.items = state.schedule.length < BIG ? readItems(state.schedule) : null;
    if (state.listing !== older.listing || state.schedule !== older.schedule) {
        const shown = kept && state.shownRun === state.run && state.report?.at === older.at;
        state.run = {};
        if (shown) state.shownRun = state.run;
        if (!appended)
            Object.assign(state, {shapes: null, oldShapes: state.shapes ?? state.oldShapes, verdicts: NO_VERDICTS,
                audited: null, judged: null, thread: {}});
    }
    if (!appended) follow.texts();
    follow.kept();
    return refresh();
}

// Keeps what was there before a step: letters typed without a pause are one step, and old steps go where they take
// much room.
function remember(older, typed) {
    const now = performance.now(), goesOn = typed && state.typed === typed && now - state.typedAt < PAUSE;
    Object.assign(state, {typed, typedAt: now, future: []});
    if (goesOn && state.past.length) return;
    state.past.push(older);
    let letters = 0, first = state.past.length;
    while (first > 0 && state.past.length - first < MOST_UNDONE && letters < MOST_UNDONE_LETTERS) {
        first--;
        letters += state.past[first].listing.length + state.past[first].schedule.length;
    }
    state.past = state.past.slice(first);
}

export function undo(from, to) {
    if (!state[from].length) return say('There is no change left.');
    state[to].push(work());
    state.typed = null;
    return change(state[from].pop(), {undone: true});
}

// A mark is a line, as 'line 23' for every process or 'line 23 of 1', or a register, as 'r 1'.
export function markCommands() {
    const processes = Array.from({length: within(state.items?.processes ?? 0, 0, 64)}, (_, k) => k + 1);
    return [...state.marks].flatMap(mark => {
        const [, line, who] = /^line (\d+)(?: of (\d+))?$/.exec(mark) ?? [];
        if (!line) return [`watch ${mark}`];
        return (who ? [who] : processes).map(one => `break ${one} ${line}`);
    });
}

// The marks that the module has read, as 'break 1 23' and 'watch r 1'; a line is marked for every process where each
// one of them has a breakpoint there.
export function marksOf(told, processes) {
    const all = told.split('\n').filter(Boolean).map(mark => mark.split(' '));
    const breaks = Object.groupBy(all.filter(([verb]) => verb === 'break'), ([, , line]) => line);
    const isOne = ([, who]) => within(Number(who), 1, processes) === Number(who);
    const areAll = each => each.length === processes && each.every(isOne);
    const lines = Object.entries(breaks).flatMap(([line, each]) => areAll(each) ? [`line ${line}`] :
        each.map(([, who]) => `line ${line} of ${who}`));
    return [...lines, ...all.filter(([verb]) => verb === 'watch').map(([, ...register]) => register.join(' '))];
}

export function toggle(mark) {
    const marks = new Set(state.marks), [, line, who] = /^line (\d+)(?: of (\d+))?$/.exec(mark) ?? [];
    const some = [...marks].filter(one => one === mark || line && !who && one.startsWith(`line ${line} of `));
    some.forEach(one => marks.delete(one));
    if (!some.length) marks.add(mark);
    const processes = who ? `process ${who}` : 'every process';
    const where = line ? `at line ${line}, for ${processes}` : `where ${mark} has changed`;
    const told = change({marks});
    say(`A run ${some.length ? 'no longer stops' : 'stops'} ${where}.`);
    return told;
}

// Asks for the state at the position, or for that to which a run leads.
export async function refresh(go = '') {
    const serial = ++state.serial, {listing, schedule, at, run, report, shownRun} = state;
    const known = !go && report && shownRun === run && report.at === at - 1 ? report : null;
    const marks = go ? markCommands() : [], total = state.items?.total, wantsBefore = !known && at > 0;
    const names = shownRun === run ? namesOf(report) : null;
    const wantsShapes = state.shapes?.schedule !== schedule;
    const answer = await asker.ask('look', {listing, schedule, at, go, marks, total, wantsBefore, names, wantsShapes});
    if (!answer) return;
    if (answer.items?.from && schedule === state.schedule) state.items = answer.items;
    if (answer.code === OUTPUT) take(answer, serial === state.serial, run, known, schedule);
    else if (serial === state.serial) state.refusal = readRefusal(answer);
    follow.shown();
    askAudit();
}

// The names of what a state has, where these are not many: other states of the run have the same.
function namesOf({registers, processes}) {
    if (registers.length > MOST_NAMES) return null;
    return {registers: registers.map(line => line.split(' = ')[0]), processes: processes.length};
}

// Takes what was told. What an item changed is told by the state before it, of the same run; what changed since
// another position by the state that was shown there, if that was of this run too.
function take({report, last, operations, refused, before, drawn}, newest, run, known, schedule) {
    const older = state.shownRun === run ? state.report : null;
    if (older?.at !== report.at) state.since = older && older.at !== report.at - 1 ? older : null;
    else if (state.shownRun !== run) state.since = null;
    Object.assign(state, {report, last, before: report.at ? known ?? before : null, refusal: null, shownRun: run,
        operations: operations ?? state.operations});
    if (!report.total) state.oldShapes = null;     // a run of no items has no bars, and none of an older run
    if (drawn && run === state.run) state.shapes = {...drawn, from: 0, to: report.total, schedule};
    if (newest) state.at = report.at;
    for (const [command, refusal] of refused) dropMark(command, refusal);
}

function dropMark(command, refusal) {
    const [verb, ...words] = command.split(' '), marks = state.marks;
    if (verb === 'break') [`line ${words[1]}`, `line ${words[1]} of ${words[0]}`].forEach(mark => marks.delete(mark));
    else marks.delete(words.join(' '));
    say(`The mark is taken away: ${refusal}`);
}

// When all is quiet, these are asked for: the audit, where its run is another one or more scans have ended; what is
// drawn, where that is not known of the items around the position; and whether the run is linearizable.
function askAudit() {
    clearTimeout(state.timer);
    state.timer = 0;
    const {listing, schedule, operations: {answers}, audited, refusal, shapes, thread} = state;
    const texts = audited?.listing === listing && (audited.schedule === schedule || state.appended);
    const known = texts && audited.answers === answers;
    const seen = shapes?.schedule === schedule && isSeen(shapes);
    if (refusal || known && seen && !isToBeJudged()) return;
    state.timer = setTimeout(async () => {
        state.timer = 0;
        if (thread !== state.thread) return;
        askJudgement();
        const [answer] = await Promise.all([known ? null : asker.ask('audit', {listing, schedule}), askShapes()]);
        if (thread !== state.thread) return;
        if (answer?.code === OUTPUT)
            Object.assign(state, {verdicts: answer.verdicts, audited: {listing, schedule, answers}, appended: true});
        follow.shown();
    }, QUIET);
}

// A judgement is of the events that callers saw; with no answer among them there is nothing to judge.
const isToBeJudged = () => state.operations.answers > 0 && state.judged?.events !== state.operations.text;

// Whether the run is linearizable, asked for once: the verdict is empty until it is told, and where none was found it
// is told why.
async function askJudgement() {
    if (!isToBeJudged()) return;
    const {listing, schedule, operations} = state;
    const asked = state.judged = {events: operations.text, verdict: '', item: 0, who: 0, reasons: [], failed: ''};
    const answer = await aside.ask('judge', {listing, schedule});
    if (!answer || state.judged !== asked) return;
    const why = () => answer.code === STOPPED ? 'stopped.' : readRefusal(answer).text;
    state.judged = {...asked, ...answer.code === OUTPUT ? answer.judgement : {failed: why()}};
    follow.shown();
}

const isSeen = ({from, to}) => from < Math.max(state.at, 1) && to >= Math.min(state.at, state.report?.total ?? 0);

// What the module draws of the items around the position, all of them where these are few.
async function askShapes() {
    const {listing, schedule, report, at, run} = state, total = report?.total;
    if (!total || state.shapes?.schedule === schedule && isSeen(state.shapes)) return;
    const from = within(at - (MOST_DRAWN >> 1), 0, Math.max(total - MOST_DRAWN, 0));
    const to = Math.min(from + MOST_DRAWN, total);
    const answer = await aside.ask('shapes', {listing, schedule, from: from + 1, to});
    if (answer?.code !== OUTPUT || run !== state.run) return;
    state.shapes = {...answer.shapes, from, to, schedule};
}

// The anatomy of the run, where it is known; of a long run nobody asks for it.
export const anatomyNow = () => state.anatomy?.listing === state.listing && state.anatomy.schedule === state.schedule ?
    state.anatomy : null;

export async function askAnatomy() {
    const {listing, schedule, report, refusal} = state;
    if (refusal || !report || report.total > MOST_DRAWN / 2) return;
    const answer = await aside.ask('anatomy', {listing, schedule, wantsOrder: false});
    if (answer?.code !== OUTPUT || listing !== state.listing || schedule !== state.schedule) return;
    state.anatomy = {...prepared(answer.anatomy, null), listing, schedule, need: lendingMoves(listing)};
    follow.shown();
}

export function goTo(at) {
    state.at = within(at, 0, state.items?.total ?? MOST_ITEMS);
    state.typed = null;
    follow.kept();
    return refresh();
}

// Why a process cannot take this step or call now; empty where it can. A call has words, a step has none.
export function hindrance(who, what) {
    const {report, at, run, shownRun} = state, process = report?.processes[who - 1]?.what ?? '';
    if (!process || shownRun !== run || report.at !== at) return '';
    const [, stopped] = /^(crashed|trapped)/.exec(process) ?? [];
    if (stopped) return `Process ${who} has ${stopped}: it does nothing more.`;
    if (what === '' && process === 'idle') return `Process ${who} is idle: call it for a scan or an update first.`;
    if (/^(scan|update)/.test(what) && process !== 'idle') return `Process ${who} is busy: its operation ends first.`;
    return '';
}

// The item at a place of a schedule.
const nextIs = (items, at, who) => {
    const k = lineOf(items, at + 1);
    return at < items.total && items.who[k] === who && items.kind[k] === STEP;
};

// One more item at the position: at the end, or before what stands there. A step that comes next there is just made.
export function press(who, what = '') {
    const {items, at, schedule, refusal} = state;
    if (refusal?.name) return say('Mend what is refused first.');
    if (!items) return say('One moment: the schedule is being read.');
    if (!what && nextIs(items, at, who)) return goTo(at + 1);
    const why = hindrance(who, what);
    if (why) return say(why);
    const text = withItem(schedule, items, at, `${who} ${what}`.trim());
    return change({schedule: text, at: at + 1}, {appended: at >= items.total, kept: true});
}

// As many steps of a process as lead it to the end of its operation, or to a line.
export async function goOn(who, line = 0) {
    const {items, at, schedule, listing, refusal, run} = state, why = hindrance(who, '');
    if (refusal?.name || !items || schedule.length > BIG) return say('This schedule is too long for that, or refused.');
    if (why) return say(why);
    const answer = await aside.ask('reach', {listing, schedule, at, who, line});
    if (!answer || run !== state.run || at !== state.at) return null;
    if (answer.code !== OUTPUT) return say(`Process ${who}: ${readRefusal(answer).text.replace(/^refused: /, '')}.`);
    const count = Number(answer.text), steps = count > 1 ? `${who}*${count}` : String(who);
    return change({schedule: withItem(schedule, items, at, steps), at: at + count},
        {appended: at >= items.total, kept: true});
}

export function withItem(schedule, items, at, item) {
    if (at < items.total) return parted(schedule, items, at).join(`${item}\n`);
    const text = ended(schedule), cut = text.lastIndexOf('\n', text.length - 2) + 1;
    const step = /^(\d+)(?:\*(\d+))?$/.exec(text.slice(cut, -1));
    return step?.[1] === item ? `${text.slice(0, cut)}${item}*${Number(step[2] ?? 1) + 1}\n` : `${text}${item}\n`;
}

// A schedule, parted behind an item.
export function parted(schedule, items, at) {
    const lines = schedule.split('\n'), k = at ? lineOf(items, at) : -1, place = items.line[k] ?? items.shapeLine;
    const after = lines.splice(place + 1), end = items.from[k + 1] ?? items.total;
    if (k >= 0 && at < end) {
        const times = count => items.who[k] + (count > 1 ? `*${count}` : '');
        lines[place] = times(at - items.from[k]) + (/\s*#.*$/.exec(lines[place]) ?? '');
        after.unshift(times(end - at));
    }
    return [lines.join('\n') + '\n', after.join('\n')];
}

// A lesson is known by its title, wherever it stands in the menu.
export const titleOf = idea => data.choices[idea]?.title ?? null;
export const ideaOf = title => {
    const k = data.choices.findIndex(one => one.title === title);
    return k < 0 ? null : k;
};
