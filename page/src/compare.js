// Two runs side by side: the one before a change and the one after it, which lines differ, the first item at which the
// runs part, and what is judged of each. What the items did is the module's trace.
import {OUTPUT} from './text.js';
import {$, compared, data, make, say, showDrawn} from './elements.js';
import {aside, readRefusal} from './asker.js';
import {timelineFocus} from './editor.js';
import {newLines} from './listing.js';
import {change, state} from './state.js';

const MOST_RUN_LETTERS = 300000, MOST_NEW_LINES = 12;

// The texts that are compared, and their names: the lesson and its change, the lesson and what was made of it, or what
// stood here before the last change and what stands here now.
function pair() {
    const {listing, schedule, idea, past} = state, lesson = data.choices[idea], other = lesson?.change;
    const differs = one => one && (one.listing !== listing || one.schedule !== schedule);
    const now = {name: 'Now', listing, schedule};
    if (differs(lesson)) {
        const made = other && !differs(other);
        return [{...lesson, name: 'The lesson'}, made ? {...now, name: 'With its change'} : now];
    }
    if (other) return [{...now, name: 'The lesson'}, {...other, name: 'With its change'}];
    const before = past.findLast(differs);
    return before ? [{...before, name: 'Before the last change'}, now] : null;
}

export async function compare() {
    const texts = pair();
    if (!texts) return say('There is nothing to compare with yet: change a line first.');
    if (texts.some(one => one.listing.length + one.schedule.length > MOST_RUN_LETTERS))
        return say('These texts are too long to be compared.');
    const runs = texts.map(({listing, schedule}) => ({listing, schedule}));
    const answer = await aside.ask('compare', {runs});
    if (answer?.code !== OUTPUT) return answer && say(refusalWords(texts, answer));
    $('compared-first').textContent = partedWords(answer);
    const columns = texts.map((one, k) => column(one, texts[1 - k], answer.runs[k], answer.parted));
    $('compared-runs').replaceChildren(...columns);
    $('compared').showModal();
}

const refusalWords = (texts, {which = 0, code, text}) => `${texts[which].name}: ${readRefusal({code, text}).text}`;

function partedWords({parted, runs}) {
    const [one, other] = runs.map(({total}) => total);
    if (parted) return `The runs part at item ${parted}: up to the item before, each did the same.`;
    return one === other ? 'Both runs are alike, item by item.' :
        `Both runs are alike, up to item ${Math.min(one, other)}, where the shorter one ends.`;
}

function column(texts, others, run, parted) {
    const title = make('h3', {}, texts.name);
    const lines = ['listing', 'schedule'].flatMap(part => linesOf(part, texts[part], others[part]));
    const told = run.verdicts.map(({who, call, answer, point, view}) => {
        const wrong = run.judgement.item === answer, words = `answers ${view}`;
        return make('p', {}, `Scan of process ${who}, items ${call} to ${answer}, `,
            wrong ? make('s', {className: 'wrong'}, words) : words, `: ${point ? `point ${point}` : 'no point'}.`);
    });
    const {verdict, item, who} = run.judgement, named = item ? ` item ${item}, process ${who}` : '';
    const judged = verdict ? make('p', {className: verdict.startsWith('not') ? 'wrong' : ''},
        `${verdict[0].toUpperCase()}${verdict.slice(1)}${named && `:${named}`}.`) : '';
    const drawn = make('div', {className: 'picture'});
    if (run.picture) showDrawn(drawn, run.picture);
    const items = run.items.map(one => itemRow(one, texts, parted));
    const list = make('ol', {ariaLabel: `Items of ${texts.name.toLowerCase()}`}, ...items);
    return make('section', {ariaLabel: texts.name}, title, ...lines, list, ...told, judged,
        ...run.picture ? [drawn] : []);
}

// The lines of a text that another one has not, marked, each with its place.
function linesOf(part, text, other) {
    const lines = text.split('\n'), places = newLines(other, text), shown = places.slice(0, MOST_NEW_LINES);
    if (text === other) return [];
    const left = places.length - shown.length, none = places.length ? [] : ['nothing that the other one has not'];
    const row = k => make('p', {className: 'edited'}, make('small', {}, `${k + 1} `), lines[k] || 'an empty line');
    return [make('h4', {}, `Its ${part} has`, ...none.map(words => ` ${words}`)), ...shown.map(row),
        ...left ? [make('p', {}, `and ${left} more such lines`)] : []];
}

// What an item did; a click leads to it, in this run.
function itemRow({item, who, words, changes}, {listing, schedule}, parted) {
    const first = item === parted, title = `To item ${item} of this run`;
    const button = make('button', {title, onclick: () => {
        $('compared').close();
        change({listing, schedule, at: item});
        timelineFocus();
    }}, `item ${item}, process ${who}: ${words}`);
    const told = changes.map(([was, is]) => make('div', {}, ...compared(was || undefined, is)));
    return make('li', {className: first ? 'parted' : '', ariaCurrent: first ? 'true' : null},
        ...first ? [make('b', {}, 'Here the runs part. ')] : [], button, ...told);
}
