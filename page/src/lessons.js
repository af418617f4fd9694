// Listings, the gallery's ideas and exercises, with their captions; verdicts, and whether a goal is met.
import {verdictAt, viewAt} from './text.js';
import {$, data, fill, make, say} from './elements.js';
import {change, goTo, state, titleOf} from './state.js';
import {unexplained} from './judged.js';
import {verdictWords} from './verdicts.js';

// A lesson, before its first item or in its middle.
export function choose(k, {middle = false} = {}) {
    const {listing, schedule, goal = null, start = 0} = data.choices[k];
    return change({listing, schedule, goal, at: middle ? start : 0, idea: k, marks: []});
}

// All lessons, each a button: what is done with the one that is chosen says the caller.
export function fillLessons(open) {
    const button = k => make('button', {type: 'button', className: 'choice', value: String(k), onclick: () => {
        $('lessons').close();
        open(k);
    }}, data.choices[k].title);
    const groups = data.groups.map(([name, places]) =>
        make('section', {}, make('h3', {}, name), ...places.map(button)));
    $('lessons-list').replaceChildren(...groups);
    $('lessons-list').onkeydown = event => {
        const all = [...$('lessons-list').querySelectorAll('button')], way = {ArrowUp: -1, ArrowDown: 1}[event.key];
        if (!way) return;
        event.preventDefault();
        all.at((all.indexOf(event.target) + way) % all.length).focus();
    };
}

export function openLessons(current = state.idea) {
    for (const button of $('lessons-list').querySelectorAll('button'))
        button.ariaCurrent = Number(button.value) === current ? 'true' : 'false';
    $('lessons').showModal();
    $('lessons-list').querySelector('[aria-current=true]')?.focus();
}

// The captions of a schedule, each with the position where it is told: behind its items.
export function captions() {
    const told = state.items?.told ?? [], {text, change: other} = data.choices[state.idea] ?? {};
    return told.length && (text || other) && !isOwn() ? told : [];
}

// The caption that the position stands at, or behind.
const captionAt = () => captions().findLastIndex(({from}) => from < state.at);

export function nextCaption(way) {
    const told = captions(), {at} = state, total = state.items?.total ?? 0;
    const places = [0, ...told.map(one => one.at), total].filter((place, k, all) => place !== all[k - 1]);
    const next = way > 0 ? places.find(place => place > at) : places.findLast(place => place < at);
    if (next === undefined) return say(way > 0 ? 'The lesson ends here.' : 'The lesson begins here.');
    return goTo(next);
}

function showCaption() {
    const told = captions(), k = captionAt(), {at, report} = state, box = $('caption');
    const here = told[k], within = here && here.from < at && at <= here.at;
    const words = at === 0 ? 'Before the first item. Next leads through the lesson.' :
        within ? here.text : at >= (report?.total ?? 0) ? 'The end of this run: see its verdicts.' :
            here ? `After: ${here.text}` : '';
    $('tour-buttons').hidden = !told.length;
    if (!told.length) return fill(box, [], () => []);
    fill(box, [words, k, told.length], () => [make('b', {}, within ? `${k + 1} of ${told.length} ` : ''), words]);
}

// A listing that has been rewritten, so that less than half of the lesson's lines are in it: what the lesson tells is
// not of it.
function isOwn() {
    const {listing, idea} = state, lesson = data.choices[idea], lines = new Set(listing.split('\n'));
    const own = lesson?.listing.split('\n').filter(line => line) ?? [];
    return Boolean(lesson?.change) && 2 * own.filter(line => lines.has(line)).length < own.length &&
        listing !== lesson.change.listing;
}

// The lesson's text, its change and its way back, and the goal of an exercise.
export function showIdea() {
    const {goal, listing, schedule} = state, lesson = data.choices[state.idea] ?? {};
    const idea = goal ? {title: 'Exercise'} : isOwn() ? {} : lesson, other = idea.change;
    const is = one => listing === one.listing && schedule === one.schedule;
    const own = other && !is(other) && !is(idea);
    // A change of the listing is made under a schedule of one's own, too, as that of a hunt.
    const made = other && (is(other) || listing === other.listing && listing !== idea.listing);
    $('menu').textContent = isOwn() ? 'your own' : titleOf(state.idea) ?? 'your own';
    $('hunt').hidden = Boolean(goal?.listing);
    $('idea').hidden = !idea.text && !other && !goal;
    $('idea-title').textContent = idea.title ?? '';
    const told = {innerHTML: (idea.text ?? '') + (other?.text ?? '')};
    fill($('idea-text'), [state.idea, goal?.task], () => [goal ? make('p', {}, goal.task) : make('div', told)]);
    $('change').hidden = !other;
    const asked = $('change').dataset.asked === '1' && own;
    $('change').dataset.asked = asked ? '1' : '';
    $('change').textContent = asked ? 'Replace your own texts? Undo brings them back' :
        made ? 'Back to how it was' : 'Make the change';
    const {listing: text, schedule: items} = (made ? idea : other) ?? state;
    $('change').onclick = () => {
        if (own && !asked) {
            $('change').dataset.asked = '1';
            return showIdea();
        }
        $('change').dataset.asked = '';
        return change({listing: text, schedule: items, at: 0});
    };
    showCaption();
    showGoal();
}

// Whether the goal is met, by the verdicts of the scans that are over at the position.
function showGoal() {
    const {goal, refusal, verdicts} = state, strayed = goal && !refusal && strays(goal);
    const met = goal && !refusal && !strayed && firstThatMeets(goal, verdicts);
    $('goal').classList.toggle('met', Boolean(met));
    const words = met ? `Met: the scan of process ${met.who}, items ${met.call} to ${met.answer}.` :
        goal ? `Goal: ${goalWords(goal)}. ${strayed || notYet()}` : '';
    const other = strayed && goal.listing && state.listing !== goal.listing;
    const back = () => make('button', {onclick: () => change({listing: goal.listing})}, 'Put the listing back');
    fill($('goal'), [words, Boolean(other)], () => [words, ...other ? [' ', back()] : []]);
}

// Of the scans that have ended by now the first that meets the goal. Their answers are looked up where all else fits.
function firstThatMeets(goal, {numbers}) {
    const {view} = goal;
    for (let k = 0; 5 * k < numbers.length; k++) {
        const verdict = verdictAt(numbers, k);
        if (verdict.answer > state.at) return null;
        if (meets(goal, verdict) && (!view || view === viewAt(state.operations, verdict.answer))) return verdict;
    }
    return null;
}

const notYet = () => state.at < (state.report?.total ?? 0) ? `Not met yet, up to item ${state.at}.` : 'Not met yet.';

// An exercise asks for a schedule: of its own listing, and of its own shape. What is not so is told.
function strays({listing, shape}) {
    const {report} = state, words = report?.values.split(' ').length;
    if (listing && listing !== state.listing)
        return 'The listing is another one now: the exercise asks for a schedule.';
    const other = shape && report && shape !== `${report.processes.length} ${words}`;
    return other ? `The exercise asks for shape ${shape}.` : '';
}

function meets({who, collects, point, items}, verdict) {
    const is = (wanted, found) => !wanted || wanted === String(found);
    return is(who, verdict.who) && is(collects, verdict.collects) &&
        (!point || (point === 'none') === !verdict.point) && (!items || verdict.answer <= Number(items));
}

function goalWords({who, view, collects, point, items}) {
    const words = ['a scan', who && `of process ${who}`, 'answers', view,
        collects && `with ${collects} double collect${collects === '1' ? '' : 's'}`,
        point && `and has ${point === 'none' ? 'no' : 'a'} point`, items && `in at most ${items} items`];
    return words.filter(Boolean).join(' ');
}

export function outcome() {
    const [who, what, ...more] = state.last.split(' ');
    const words = {called: 'was called', stepped: 'made a step', finished: 'ended its update', skipped: 'was skipped:'};
    return who === 'none' ? 'the beginning' : `process ${[who, words[what] ?? what, ...more].join(' ')}`;
}

// The position in words, which a screen reader is told of; a scan that has just ended brings its verdict.
export function showWhere() {
    const {report: {at, total, values}, verdicts: {near}, timer} = state;
    const verdict = timer ? null : near.find(each => each.answer === at);
    const wrong = at === unexplained().item ? '; no order explains this answer' : '';
    const told = `: ${outcome()}; values ${values}`, words = verdict ? `${wrong}; ${verdictWords(verdict)}` : '';
    fill($('where'), [at, total, told, words], () => [make('span', {className: 'at'}, `Item ${at} of ${total}`), told,
        make('span', {className: verdict?.point === 0 ? 'none' : ''}, words)]);
    if (document.activeElement !== $('at')) $('at').value = at;
}

export function makeExercise() {
    const dialog = $('form'), [form] = dialog.getElementsByTagName('form');
    for (const field of form.querySelectorAll('[name]')) field.value = state.goal?.[field.name] ?? '';
    dialog.returnValue = '';
    dialog.showModal();
    dialog.onclose = () => {
        const fields = [...new FormData(form)], goal = Object.fromEntries(fields.map(([name, text]) =>
            [name, String(text).trim().replace(/\s+/g, ' ')]));
        goal.task ||= `Make it so that ${goalWords(/** @type {any} */ (goal))}.`;
        if (dialog.returnValue === 'clear') change({goal: null});
        if (dialog.returnValue !== 'make') return;
        change({goal: {...goal, listing: state.listing, shape: ''}, idea: null});
        say('The goal is set: a schedule of this listing. Link copies the exercise.');
    };
}
