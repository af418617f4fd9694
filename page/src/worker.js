// The worker: asks the module, and reads its answers, so that the page is never held up.
import {OUTPUT, REFUSED, TRAPPED, ended, inputOf, leastPlace, readHead, readItems, readJudgement, readOperations,
    readSession, readShapes, readTrace, readVerdicts, unpacked, verdictAt, viewAt} from './text.js';
import {Glue} from './glue.js';
import {anatomyOf, orderOf} from './anatomy.js';

const NEAR = 60;        // so many scans, the last ones, are told of in words, and as many without a point
const MOST_MARKS = 64;  // of one session; more of them are asked for in several
const DRAWN_AT_ONCE = 1000;     // of so many items it is told with the state what is drawn of them
const MOST_PICTURED = 300, SHOWN_BEFORE = 3, SHOWN_AFTER = 4;   // of two runs that are compared
const SEEDS = 20, RUNS_OF_SEED = 500;  // of a hunt
const NOT_JUDGED = {verdict: '', item: 0, who: 0, reasons: []};
let glue = null, told = '', operations = null;     // the texts whose operations the page has been told, and these

const asText = ({code, bytes}) => ({code, text: new TextDecoder().decode(bytes)});

// What the module says of the parts of an input.
const askOf = (sub, ...parts) => asText(glue.answer('page_output', [sub, '', inputOf(...parts)]));

// What the module explains of an input that it refuses.
const explain = (sub, ...parts) => asText(glue.answer('page_explanation', [sub, '', inputOf(...parts)])).text;

// The picture of these items.
const draw = ({listing, schedule, from, to}) => asText(glue.answer('page_picture', [listing, schedule], [from, to]));

// What a picture of these items draws.
function shapes({listing, schedule, from, to}) {
    const answer = asText(glue.answer('page_shapes', [listing, schedule], [from, to]));
    return answer.code === OUTPUT ? {code: OUTPUT, shapes: readShapes(answer.text)} : answer;
}

// The stop to which 'run' or 'rrun' leads with these marks: of those of several sessions the nearest.
function findStop({listing, schedule, at, marks, go}) {
    const groups = [marks.slice(0, MOST_MARKS)], refused = [];
    let stop = null;
    for (let k = MOST_MARKS; k < marks.length; k += MOST_MARKS) groups.push(marks.slice(k, k + MOST_MARKS));
    for (const group of groups) {
        const answer = askOf('debug', listing, schedule, [...group, `goto ${at}`, go].join('\n'));
        if (answer.code !== OUTPUT) return answer;
        const {replies, report} = readSession(answer.text);
        for (const {command, lines: [first]} of replies)
            if (first?.startsWith('refused: ')) refused.push([command, first]);
        stop = stop === null ? report.at : Math[go === 'run' ? 'min' : 'max'](stop, report.at);
    }
    return {code: OUTPUT, stop, refused};
}

// The commands that show a position: its values, these registers, and so many processes.
const showing = ({registers, processes}, at) => [`goto ${at}`, 'values', ...registers.map(name => `show ${name}`),
    ...Array.from({length: processes}, (_, k) => `show ${k + 1}`)];

// The report that their replies make.
function shownReport(replies, {registers, processes}, at) {
    const first = replies.findIndex(({command}) => command === 'values'), shown = replies.slice(first);
    const last = shown.slice(registers.length + 1, registers.length + processes + 1);
    const heads = last.map(({lines: [head, ...locals]}) =>
        ({...readHead(head), locals: locals.map(line => line.slice(2)).join('\n')}));
    const lines = shown.slice(1, registers.length + 1).map(reply => reply.lines[0]);
    return {at, values: shown[0].lines[0].slice(7), registers: lines, processes: heads};
}

// A position of the run, or the one to which 'run' or 'rrun' leads from there, or to which these commands lead; and
// where it is wanted the state one item before it, in the same session where the names of what it has are known.
// Without the number of its items the schedule is read here.
function look({listing, schedule, total, marks, at, go, commands, wantsBefore, names, wantsShapes}) {
    const items = total === undefined ? readItems(schedule) : {total}, texts = listing + '\0' + schedule;
    const found = go ? findStop({listing, schedule, at, marks, go}) : {code: OUTPUT, stop: at, refused: []};
    if (found.code !== OUTPUT) return {...found, items};
    const known = commands !== undefined || texts === told, place = Math.min(found.stop, items.total);
    const end = place >= items.total;
    const both = names && (wantsBefore || go) && place > 0 && commands === undefined;
    const asked = commands ?? [...known || end ? [] : [`goto ${items.total}`, 'events'],
        ...both ? showing(names, place - 1) : [], `goto ${place}`, 'where'].join('\n');
    const answer = askOf('debug', listing, schedule, asked), left = commands === undefined ? '' : marksLeft(commands);
    if (answer.code === REFUSED) return {...answer, items, left, why: explain('debug', listing, schedule, asked)};
    if (answer.code !== OUTPUT) return {...answer, items};
    const {replies, report: {events, ...report}} = readSession(answer.text);
    const called = end ? events : replies.find(reply => reply.command === 'events')?.lines.slice(1) ?? [];
    const text = called.join('\n'), alike = known || text === operations?.text;
    const last = replies.at(-1)?.lines.find(line => line.startsWith('last '))?.slice(5) ?? 'none';
    if (!alike) operations = readOperations(text);
    if (commands === undefined) told = texts;
    const before = both ? shownReport(replies, names, place - 1) :
        (wantsBefore || go) && report.at ? reportAt(listing, schedule, report.at - 1) : null;
    const drawn = wantsShapes && report.total && report.total <= DRAWN_AT_ONCE ?
        shapes({listing, schedule, from: 1, to: report.total}).shapes : null;
    return {code: OUTPUT, report, last, before, refused: found.refused, items, drawn, left,
        operations: alike ? null : operations};
}

// The marks that commands leave, a line each, as the command that sets it; none where these are no commands.
function marksLeft(commands) {
    const {code, text} = asText(glue.answer('page_marks', [ended(commands)]));
    return code === OUTPUT ? text : '';
}

// The report of a position; null where there is none.
function reportAt(listing, schedule, at) {
    const answer = askOf('debug', listing, schedule, `goto ${at}`);
    return answer.code === OUTPUT ? readSession(answer.text).report : null;
}

// How many steps of a process lead from a position to a line, or where there is none to the end of its operation.
function reach({listing, schedule, at, who, line}) {
    const texts = [listing, schedule];
    return asText(line ? glue.answer('page_until', texts, [at, who, line]) : glue.answer('page_end', texts, [at, who]));
}

// The last item up to a position that changed a register; 0 where none did.
function writer({listing, schedule, at, name}) {
    const answer = askOf('debug', listing, schedule, `watch ${name}\ngoto ${at}\nrrun`);
    return answer.code === OUTPUT ? {code: OUTPUT, item: readSession(answer.text).report.at} : answer;
}

// A record that a function of the module hands over; its answer, where that is no record.
function recordOf(name, texts) {
    const answer = asText(glue.answer(name, texts));
    return answer.code === OUTPUT ? {code: OUTPUT, record: JSON.parse(answer.text)} : answer;
}

// The anatomy of a run as a module tells it that has no function for it.
function anatomyInLines(listing, schedule) {
    const traced = askOf('trace', listing, schedule);
    if (traced.code !== OUTPUT) return traced;
    const report = reportAt(listing, schedule, 0), [, kind] = /^[ \t\r]*kind[ \t\r]+(\w+)/m.exec(listing);
    const drawn = shapes({listing, schedule, from: 1, to: Math.max(report.total, 1)}).shapes ?? readShapes('');
    return {code: OUTPUT, record: anatomyOf({report, trace: traced.text, shapes: drawn, kind})};
}

function orderInLines(listing, schedule) {
    const judged = askOf('judge', listing, schedule);
    return judged.code === OUTPUT ? {code: OUTPUT, record: orderOf(judged.text)} : judged;
}

// The anatomy of a run, and where it is wanted the order of its operations.
function anatomy({listing, schedule, wantsOrder}) {
    const texts = [listing, schedule], has = name => glue.has(name);
    const found = has('page_anatomy') ? recordOf('page_anatomy', texts) : anatomyInLines(listing, schedule);
    if (found.code !== OUTPUT || !wantsOrder) return {...found, anatomy: found.record};
    const order = has('page_order') ? recordOf('page_order', texts) : orderInLines(listing, schedule);
    return {code: OUTPUT, anatomy: found.record, order: order.record ?? null};
}

// Why an item came out so; of a process the item at which it trapped, the first one up to this one that leaves it so.
function why({listing, schedule, item, who}) {
    const traps = at => reportAt(listing, schedule, at)?.processes[who - 1]?.what.startsWith('trapped');
    const found = who ? leastPlace(item, traps) : item;
    return {...asText(glue.answer('page_why', [listing, schedule], [found])), item: found};
}

// What one item more would do: the report after it, and its outcome.
function peek({listing, schedule, at}) {
    const answer = askOf('debug', listing, schedule, `goto ${at}\nwhere`);
    if (answer.code !== OUTPUT) return answer;
    const {replies, report} = readSession(answer.text);
    return {code: OUTPUT, report, last: replies.at(-1).lines.find(line => line.startsWith('last '))?.slice(5) ?? ''};
}

// The operations of a run, which are those that the page has been told, or are asked for.
function operationsOf(listing, schedule) {
    if (told === listing + '\0' + schedule && operations) return operations;
    const lines = askOf('run', listing, schedule).text.split('\n');
    return readOperations(lines.filter(line => line.startsWith('event ')).join('\n'));
}

// The verdicts of a run. The last ones, and the first without a point, have their answer.
function audit({listing, schedule}) {
    const answer = askOf('audit', listing, schedule);
    if (answer.code !== OUTPUT) return answer;
    const numbers = readVerdicts(answer.text), all = [...Array(numbers.length / 5).keys()];
    const none = all.filter(k => !numbers[5 * k + 3]), some = new Set([...none.slice(0, NEAR), ...all.slice(-NEAR)]);
    const near = [...some].sort((a, b) => a - b).map(k => verdictAt(numbers, k));
    const found = operationsOf(listing, schedule);
    for (const verdict of near) verdict.view = viewAt(found, verdict.answer);
    return {code: OUTPUT, verdicts: {numbers, near, none: new Set(none.map(k => numbers[5 * k + 2]))}};
}

// Whether a run is linearizable.
function judge({listing, schedule}) {
    const answer = askOf('judge', listing, schedule);
    return answer.code === OUTPUT ? {code: OUTPUT, judgement: readJudgement(answer.text)} : answer;
}

// What is judged and drawn of one of two runs, and what its items did.
/** @returns {any} */
function runOf({listing, schedule}) {
    const traced = askOf('trace', listing, schedule);
    if (traced.code !== OUTPUT) return traced;
    const items = readTrace(traced.text), total = items.length;
    const verdicts = audit({listing, schedule}).verdicts?.near ?? [];
    const judgement = verdicts.length ? judge({listing, schedule}).judgement : null;
    const drawn = total && total <= MOST_PICTURED ? draw({listing, schedule, from: 1, to: total}) : null;
    return {code: OUTPUT, total, items, verdicts, judgement: judgement ?? NOT_JUDGED, picture: drawn?.text ?? ''};
}

// Two runs: the first item that did something else in one of them, 0 where there is none, and the items around it.
function compare({runs}) {
    /** @type {any[]} */
    const found = [];
    for (const [which, run] of runs.entries()) {
        const one = runOf(run);
        if (one.code !== OUTPUT) return {...one, which};
        found.push(one);
    }
    const most = Math.min(...found.map(({total}) => total)), [one, other] = found.map(({items}) => items);
    let k = 0;
    while (k < most && one[k].did === other[k].did) k++;
    const near = ({items}) => items.slice(Math.max(k - SHOWN_BEFORE, 0), k + SHOWN_AFTER);
    return {code: OUTPUT, parted: k < most ? k + 1 : 0, runs: found.map(run => ({...run, items: near(run)}))};
}

// The first run of several seeds that fails, made small, as an input; no text where none of them does.
function hunt({listing, processes, words}) {
    for (let seed = 1; seed <= SEEDS; seed++) {
        const answer = asText(glue.answer('page_hunt', [listing], [processes, words, seed, RUNS_OF_SEED]));
        if (answer.code !== OUTPUT || answer.text) return {...answer, seed};
    }
    return {code: OUTPUT, text: '', runs: SEEDS * RUNS_OF_SEED};
}

// What an input of 'snaplab debug' leads to, whatever it is.
const tryInput = ({text}) => asText(glue.answer('page_output', ['debug', '', ended(text)]));

// The module stands in the page deflated, in letters.
async function start(letters) {
    if (typeof WebAssembly === 'undefined') throw new Error('it has no WebAssembly');
    if (typeof DecompressionStream === 'undefined') throw new Error('it has no DecompressionStream');
    glue = new Glue(await WebAssembly.compile(await unpacked(letters)));
    return {code: OUTPUT};
}

const TASKS = {start, anatomy, look, audit, judge, draw, shapes, peek, reach, writer, why, compare, hunt, tryInput,
    answer: ({name, texts, numbers}) => glue.answer(name, texts, numbers)};

onmessage = async ({data: {kind, request}}) => {
    try {
        postMessage(await TASKS[kind](request));
    } catch (error) {
        postMessage({code: TRAPPED, text: String(error.message ?? error)});
    }
};
