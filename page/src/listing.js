// The two texts: the listing, with each process's place in its margin, and the schedule, with the position.
import {lineOf} from './text.js';
import {$, badge, data, fill, make, say} from './elements.js';
import {Editor, SHOWN_LINES} from './editor.js';
import {anatomyNow, askAnatomy, change, state, toggle} from './state.js';
import {glossOf, sentenceOf} from './steps.js';

const OF_INPUT = /^line \d+ of the input, (?=line \d+ of the (?:listing|schedule))/gm;     // the page shows its parts
const MOST_BADGES = 3, MOST_COMPARED = 2000;
export const listingEditor = new Editor($('listing'), 'Listing', listing => change({listing}, {typed: 'listing'}));
export const scheduleEditor = new Editor($('schedule'), 'Schedule',
    schedule => change({schedule}, {typed: 'schedule'}));
listingEditor.onmark = toggleBreak;
listingEditor.tell = explained;
listingEditor.colour = coloured;

// A line in colours: its number, words of instructions, jumps, registers and comment.
const WORDS_OF_LINE = 'kind|scalar|row|words|view|scan|update|each|let|get|put|next|if|all|first|look|bit|where|not';
const PARTS_OF_LINE = new RegExp([/(#.*)/, /(^\s*\d+(?=\s*:))/, /\b(goto \d+|call \d+|return|finish)\b/,
    /\b([rqpv])(?=\[)/].map(({source}) => source).join('|') + `|\\b(${WORDS_OF_LINE})\\b`, 'g');
const COLOURS = [undefined, 'comment', 'number', 'jump', 'register', 'word'];

scheduleEditor.colour = text => {
    const comment = text.indexOf('#');
    return comment < 0 ? [text] : [text.slice(0, comment), make('span', {className: 'comment'}, text.slice(comment))];
};

function coloured(text) {
    const found = [];
    let end = 0;
    for (const part of text.matchAll(PARTS_OF_LINE)) {
        const className = COLOURS[part.findIndex((group, k) => k && group !== undefined)];
        found.push(text.slice(end, part.index), make('span', {className}, part[0]));
        end = part.index + part[0].length;
    }
    return [...found, text.slice(end)].filter(one => one !== '');
}

// What a line of the listing is for, and of the one that ran what the item did.
function explained(place) {
    const line = [...state.lines.values()].find(one => one.place === place), [executed] = linesOfLast();
    if (!line) return '';
    const run = place === executed ? anatomyNow() : null, gloss = glossOf(line.text);
    if (place === executed && !run) askAnatomy();
    return `${run ? `Item ${state.at}: ${sentenceOf(run, state.at, state.lines)} ` : ''}Line ${line.number} ${gloss}.`;
}

export function showTexts() {
    listingEditor.show(state.listing);
    scheduleEditor.show(state.schedule, positionLine());
    for (const part of ['listing', 'schedule']) showRefusal(part);
    showMargins();
}

// The text line of the last item.
function positionLine() {
    const {items, at} = state;
    if (!items) return scheduleEditor.first + SHOWN_LINES / 2;
    return items.line[lineOf(items, at)] ?? Math.max(items.shapeLine, 0);
}

// The process of the last item.
export const lastProcess = (report = state.report) => report?.processes[Number(state.last.split(' ')[0]) - 1];

// The text line that the last item executed, and that at which its process stands now.
function linesOfLast() {
    const {lines, before, last} = state, lineAt = at => lines.get(at)?.place ?? -1;
    const stepped = before && !/ (called|skipped|crashed)/.test(last);
    return [stepped ? lineAt(lastProcess(before)?.at) : -1, lineAt(lastProcess()?.at)];
}

function showMargins() {
    const {lines, report} = state, here = positionLine(), edited = editedLines();
    const rows = new Map([...lines.values()].map(line => [line.place, line]));
    const stale = Boolean(state.refusal), processes = stale ? [] : report?.processes ?? [];
    const places = processes.flatMap(({who, at, link}) => [[at, who, ''], [link, who, 'link']]);
    const [executed, now] = linesOfLast();
    const named = part => [...edited[part].map(line => [line, 'edited']), [badLine(part), 'bad']];
    const ran = stale ? [] : [[executed, 'now']];
    const last = stale ? -1 : executed, row = place => listingRow(place, rows.get(place), places, place === last);
    listingEditor.mark(row, [...ran, ...named('listing')]);
    scheduleEditor.mark(line => {
        const text = line !== here || stale ? '' : countOf(state), at = text && `item ${state.at} is here; `;
        return {key: [text, line], children: () => text ? [text] : [make('small', {}, String(line + 1))],
            label: `${at}line ${line + 1}: ${scheduleEditor.part[line - scheduleEditor.first] || 'empty'}`};
    }, [...stale ? [] : [[here, 'now']], ...named('schedule')]);
    scheduleEditor.reveal(badLine('schedule') < 0 ? here : badLine('schedule'));
    if (badLine('listing') >= 0) listingEditor.reveal(badLine('listing'));
    else listingEditor.reveal(executed < 0 ? now : executed, now);
}

// How many of a line's items are behind the position.
function countOf({items, at}) {
    const k = items && at ? lineOf(items, at) : -1;
    const count = k < 0 ? 1 : (items.from[k + 1] ?? items.total) - items.from[k];
    return count > 1 ? `\u25B6${at - items.from[k]}/${count}` : '\u25B6';
}

const marksAt = number => [...state.marks].filter(mark => `${mark} `.startsWith(`line ${number} `));

// A line of the listing, with the processes that are here, and those that return here.
function listingRow(place, line, places, isLast) {
    const text = listingEditor.part[place - listingEditor.first] ?? '';
    if (!line) return {key: [], children: () => [], label: `no numbered line: ${text || 'empty'}`};
    const {number} = line, stops = marksAt(number), here = places.filter(([at]) => at === number);
    const who = here.map(([, process, link]) => `process ${process} ${link ? 'returns here' : 'is here'}`);
    if (isLast) who.push(`item ${state.at} executed it`);
    const stop = stops.map(mark => mark.replace(`line ${number}`, 'breakpoint').replace('of', 'of process'));
    const more = here.length - MOST_BADGES, some = stops[0]?.includes('of') ? 'stop some' : 'stop';
    return {
        key: [stop, here], numbered: true, label: [`line ${number}: ${line.text}`, ...who, ...stop].join('; '),
        children: () => [...stop.length ? [make('span', {className: some, title: stop.join(', ')})] : [],
            ...here.slice(0, MOST_BADGES).map(([, ...place]) => badge(...place)), ...more > 0 ? [`+${more}`] : []],
    };
}

// The text lines that are other ones than those of the lesson, where its change is made.
let lastDiff = null;
function editedLines() {
    const {idea, listing, schedule} = state, lesson = data.choices[idea];
    if (!lesson?.change || listing !== lesson.change.listing || schedule !== lesson.change.schedule)
        return {listing: [], schedule: []};
    if (lastDiff?.lesson !== lesson) lastDiff = {lesson, listing: newLines(lesson.listing, listing),
        schedule: newLines(lesson.schedule, schedule)};
    return lastDiff;
}

// The lines of a text that are not among those of another one, in order.
export function newLines(older, newer) {
    const [before, after] = [older, newer].map(text => text.split('\n'));
    if (before.length * after.length > MOST_COMPARED * MOST_COMPARED) return [];
    const rows = before.map(() => new Uint16Array(after.length + 1));
    rows.push(new Uint16Array(after.length + 1));
    for (let i = before.length - 1; i >= 0; i--)
        for (let j = after.length - 1; j >= 0; j--)
            rows[i][j] = before[i] === after[j] ? rows[i + 1][j + 1] + 1 : Math.max(rows[i + 1][j], rows[i][j + 1]);
    const found = [];
    for (let i = 0, j = 0; j < after.length;) {
        if (i < before.length && before[i] === after[j]) [i, j] = [i + 1, j + 1];
        else if (i < before.length && rows[i + 1][j] >= rows[i][j + 1]) i++;
        else found.push(j++);
    }
    return found;
}

// The place of the text line that the module's explanation of a refusal names; -1 where it names none of this part.
function badLine(part) {
    const {refusal} = state;
    return refusal?.part === part && refusal.line ? refusal.line - 1 : -1;
}

// A refusal, and behind it how the module explains it: the place, what was expected and found there, and advice.
function showRefusal(part) {
    const box = $(`${part}-refusal`), refusal = state.refusal?.part === part ? state.refusal : null;
    box.hidden = !refusal;
    const {text = '', why: told = ''} = refusal ?? {}, why = told.replace(OF_INPUT, '');
    fill(box, [text, why], () => [make('b', {}, text), make('code', {className: 'why'}, why.trimEnd())]);
    if (state.refusal?.part === 'page') say(state.refusal.text);
}

export function toggleBreak(place) {
    const line = [...state.lines.values()].find(one => one.place === place);
    return line ? toggle(`line ${line.number}`) : say('A breakpoint stands on a numbered line.');
}
