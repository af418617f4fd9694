// The lesson mode: one thought a screen. A screen plays its items and then tells what they mean; a question comes
// before
// what it asks about; behind the lesson come its change, both runs on one scale, and the next lesson, all on one key.
// Nothing is drawn that comes after the position.
import {OUTPUT, lendingMoves, readLines} from './text.js';
import {$, data, fill, make, say, within} from './elements.js';
import {aside} from './asker.js';
import {keep} from './drafts.js';
import {change, goTo, state} from './state.js';
import {openLessons} from './lessons.js';
import {plain, showWordsOf, showOwnStep} from './caption.js';
import {runChart} from './chart.js';
import {collectsOf, collectsTable, flyWord} from './collects.js';
import {legendOf} from './legend.js';
import {reasonsOf, showReasons} from './reasons.js';
import {misfitOf, orderOf, orderWords} from './order.js';
import {partedAt, prepared, scanAt, toldAt, viewWords} from './run.js';
import {changedLines, sentenceOf, showChange, showStep} from './steps.js';
import {isStory, nextIdea, numberOf, screensOf} from './story.js';
import {fitTimeline} from './timeline.js';

const MODE = 'snaplab.mode', SHORTEST = 55, LONGEST = 420, PLAY = 2700;
const GAPS = [5, 6.5, 8];   // letters that stand above and between the pictures of two runs
const still = matchMedia('(prefers-reduced-motion: reduce)'), narrow = matchMedia('(max-width: 699px)');
export const stage = {on: true, idea: null, screens: [], k: 0, at: 0, shownAt: -1, rest: true, chosen: new Map(),
    token: null,
    left: '', runs: {}, wide: 0, drawn: [], chart: null, why: false, heard: {run: null, at: 0}};

export const storyNow = () => data.choices[stage.idea] ?? {title: '', story: {}};
const storyOf = () => storyNow().story ?? {};
const screenNow = () => stage.screens[stage.k];
const runNow = () => stage.runs[screenNow()?.run] ?? null;
export const heroAt = k => stage.screens[k]?.hero ?? storyOf().hero ?? 1;
const heroOf = () => heroAt(stage.k);
export const hides = (screen, what) => screen.hide?.split(' ').includes(what) ?? false;

// The scan whose reads a screen shows: of a process that it names itself that of an update, too.
function scanOf(run, k, at) {
    const {hero} = stage.screens[k];
    const own = hero && run.scans.findLast(({process, call}) => process === hero && call <= at);
    return own || (scanAt(run, heroAt(k), at)?.scans[0] ?? null);
}

// What a scan has read, as a screen shows it.
export function readOf(run, k, at) {
    const told = collectsOf(run, scanOf(run, k, at), at), all = told.rows.map(row => ({...row, equal: null}));
    return hides(stage.screens[k], 'equal') ? {...told, rows: all} : told;
}
export const letter = () => parseFloat(getComputedStyle(document.documentElement).fontSize);

// Opens a lesson at a screen, once the anatomies of its run and of its changed run are there.
export async function openStory(idea, k = 0) {
    const {listing, schedule, change: other} = data.choices[idea], token = stage.token = {};
    Object.assign(stage, {idea, screens: screensOf(data.choices[idea]), k: 0, chosen: new Map(), runs: {},
        rest: false, why: false});
    setMode(true);
    const texts = other ? {lesson: {listing, schedule}, change: other} : {lesson: {listing, schedule}};
    const runs = await Promise.all(Object.entries(texts).map(async ([name, one]) => [name, await readRun(one, name)]));
    if (stage.token !== token) return;
    stage.runs = Object.fromEntries(runs.filter(([, run]) => run));
    if (!stage.runs.lesson) return toBench();
    return showScreen(within(k, 0, stage.screens.length - 1), false);
}

// A run as the lesson draws it: its anatomy, the order that explains it, and the lines of its listing.
async function readRun({listing, schedule}, name) {
    const answer = await aside.ask('anatomy', {listing, schedule, wantsOrder: true}, `anatomy ${name}`);
    if (answer?.code !== OUTPUT) return null;
    return {...prepared(answer.anatomy, answer.order), listing, schedule, lines: readLines(listing),
        need: lendingMoves(listing)};
}

// A screen is come to: its items are played where it comes next, and else it is there at once.
export async function showScreen(k, play = true) {
    const screen = stage.screens[k], token = stage.token = {}, before = screenNow()?.run;
    Object.assign(stage, {k, rest: false, why: false});
    if (before !== screen.run) stage.at = screen.from;
    if (play && !still.matches && screen.kind !== 'compare' && screen.at > stage.at) await playTo(screen.at, token);
    if (stage.token !== token) return;
    Object.assign(stage, {at: screen.at, rest: true, why: screen.look?.split(' ').includes('why') ?? false});
    showStage();
    showAddress(`#lesson=${numberOf(stage.idea)}&screen=${k + 1}`);
}

// The address leads to the screen that is shown, so that it can be copied; that of a picture alone stays as it is.
function showAddress(hash) {
    if (window !== window.top || document.body.classList.contains('picture-only') || location.hash === hash) return;
    try {
        history.replaceState(null, '', hash || location.pathname + location.search);
    } catch { /* a browser may refuse many of them: the address is that of a screen before */ }
}

async function playTo(at, token) {
    const pace = within(PLAY / (at - stage.at), SHORTEST, LONGEST);
    while (stage.at < at) {
        stage.at++;
        showStage();
        await new Promise(done => setTimeout(done, pace));
        if (stage.token !== token) return;
    }
}

// Next: while items play, to their end; then the next screen, and behind the last one the next lesson.
export function nextScreen() {
    if (!runNow()) return undefined;
    if (!stage.rest) return showScreen(stage.k, false);
    const {kind, at} = screenNow();
    if (kind !== 'compare' && stage.at !== at) return showScreen(stage.k, stage.at < at);
    if (stage.k + 1 < stage.screens.length) return showScreen(stage.k + 1);
    const next = nextIdea(stage.idea);
    return next !== null && isStory(next) ? openStory(next) : openLessons(stage.idea);
}

export function lastScreen() {
    if (stage.k > 0) showScreen(stage.k - 1, false);
}

// An answer to a question, and on to what it asks about.
function guess(k) {
    if (screenNow()?.kind !== 'ask' || !screenNow().options[k]) return;
    stage.chosen.set(stage.k, k);
    $('stage-next').focus({preventScroll: true});
    showScreen(stage.k + 1);
}

// On one's own: a position beside the story's.
function goBeside(at) {
    if (!runNow() || screenNow().kind === 'compare') return;
    Object.assign(stage, {token: {}, rest: true, at: within(at, 0, runNow().items)});
    showStage();
}

// What follows the screen and the position.
export function showStage() {
    const screen = screenNow(), run = runNow();
    if (!stage.on || !run) return;
    const box = $('stage'), compares = screen.kind === 'compare';
    box.dataset.kind = screen.kind;
    box.dataset.look = stage.rest && stage.at === screen.at ? screen.look ?? '' : '';
    $('stage-menu').textContent = data.choices[stage.idea].title;
    $('stage-run').hidden = $('stage-below').hidden = compares;
    $('stage-compare').hidden = !compares;
    showWords(screen, run);
    if (compares) showBoth();
    else showRun(screen, run);
    showFoot(screen);
    stage.shownAt = stage.at;
    window.snaplab.shownAt ??= performance.now();
}

function showWords(screen, run) {
    const {rest, at, chosen, screens} = stage, asked = screens[screen.askAt], told = chosen.get(screen.askAt);
    if (rest && screen.kind !== 'compare' && at !== screen.at) {
        const instruction = run.lines.get(run.steps[at - 1]?.line)?.text ?? '';
        return showOwnStep({sentence: sentenceOf(run, at, run.lines), instruction, at, total: run.items});
    }
    const said = told === undefined ? null : {right: told === screen.right, words: plain(asked.options[told])};
    return showWordsOf(screen, {rest, said, asked: asked?.title ?? screen.title, first: stage.k === 0, choose: guess});
}

const isUnexplained = ({order}, scan, at) => order.verdict === 'not linearizable' && scan?.call === order.misfit &&
    order.event <= at;

function showRun(screen, run) {
    const {at, rest, k} = stage, {folded = []} = storyOf(), fitsTold = !hides(screen, 'fits');
    showChart(run, fitsTold, !hides(screen, 'equal'));
    const told = readOf(run, k, at), {scan} = told, step = run.steps[at - 1];
    const read = step?.does === 'read' && scan && step.process === scan.process && at >= scan.call ? step : null;
    const column = read && told.locals.indexOf(read.into) === 1 ? 'b' : 'a', wrote = step?.does === 'wrote' ?
        step.word : 0;
    const lit = {memory: wrote, ...read ? {[column]: read.word} : {}, wrong: fitsTold && isUnexplained(run, scan, at)};
    const why = fitsTold && rest && told.answer && scan.update === null ? askWhy : null;
    fill($('stage-collects'), [run, JSON.stringify([told, folded, lit]), Boolean(why)], () =>
        [collectsTable(run, told, {folded, lit, need: run.need, why})]);
    if (read && stage.shownAt === at - 1) flyWord($('stage-collects'), read.word, column);
    showBeside(screen, run);
    showHeard(run, at);
}

// Beside the table: the step and its line, why the scan answered so, or what a change makes of the listing.
function showBeside(screen, run) {
    const {at, rest, runs} = stage, answered = stage.why && toldAt(run, heroOf(), at)?.scans[0];
    const changed = screen.change && rest && at === screen.at ? changedLines(runs.lesson, runs.change) : [];
    const wrong = misfitOf(run, at), misfit = wrong && wrong.call === answered?.call ? wrong.reason : '';
    if (answered) showReasons($('stage-step'), {view: viewWords(answered.answer),
        reasons: reasonsOf(run, answered, misfit)}, goBeside, askWhy);
    else if (changed.length) showChange($('stage-step'), changed);
    else showStep($('stage-step'), {run, lines: run.lines, at});
}

function showChart(run, fitsTold, differTold) {
    const {at} = stage, box = $('stage-chart'), wide = stage.wide || box.clientWidth;
    const key = [run, at, wide, letter(), fitsTold, differTold, heroOf()];
    const words = `step ${at} of ${run.items}: ${sentenceOf(run, at, run.lines)}`;
    Object.assign(box, {ariaValueMax: run.items, ariaValueNow: at, ariaValueText: words});
    if (!wide || key.every((each, k) => each === stage.drawn[k])) return;
    const chart = runChart({run, at, scale: Math.max(run.items, 1), hero: heroOf(), wide, unit: letter(), fitsTold,
        differTold});
    const cursor = $('stage-cursor');
    Object.assign(stage, {chart, drawn: key});
    cursor.classList.toggle('moves', !stage.rest && stage.shownAt === at - 1);     // it glides where items play
    cursor.firstElementChild.textContent = String(at);
    cursor.style.left = `${chart.place(at)}px`;
    box.querySelector('svg')?.remove();
    box.prepend(chart.root);
    showLegend();
}

// The picture in words: a line for each item up to the position, which a screen reader tells as they go by.
function showHeard(run, at) {
    const box = $('stage-heard'), {heard} = stage;
    if (heard.run !== run || at < heard.at) {
        box.replaceChildren();
        heard.at = 0;
    }
    const added = [];
    for (let item = heard.at + 1; item <= at; item++)
        added.push(make('li', {}, `Step ${item}: ${sentenceOf(run, item, run.lines)}`));
    box.append(...added);
    Object.assign(heard, {run, at});
}

// Why the scan answered so; again puts it away.
function askWhy() {
    const focused = document.activeElement?.closest('.ask-why, #stage-step');
    stage.why = !stage.why && Boolean(runNow() && toldAt(runNow(), heroOf(), stage.at));
    showStage();
    if (focused) (stage.why ? $('stage-step').querySelector('button') : $('stage-next')).focus();
}

const CALLS = {'linearizable': ['\u2713', ''], 'not linearizable': ['\u2717', 'bad'], 'undecided': ['?', '']};

// Two runs below each other, on one scale.
function showBoth() {
    const {runs, wide: known} = stage, box = $('stage-compare'), wide = box.clientWidth || known, unit = letter();
    const key = [runs, wide, unit, box.clientHeight];
    for (const gaps of narrow.matches ? [-Infinity] : GAPS) {
        const room = (box.clientHeight - gaps * unit) / 2;
        fill(box, [...key, room], () => bothRuns(stage, {wide, unit, room, hero: heroOf()}));
        if (box.scrollHeight <= box.clientHeight) return;
    }
}

export function bothRuns({runs}, {wide, unit, room, hero}) {
    const scale = Math.max(runs.lesson.items, runs.change.items), parted = partedAt(runs.lesson, runs.change);
    const names = {lesson: 'As it was', change: 'With the change'};
    return Object.entries(names).map(([name, title]) => {
        const run = runs[name], [sign, className] = CALLS[run.order.verdict] ?? ['', ''], words = orderWords(run);
        const order = new Map(className ? [] : orderOf(run).map((call, k) => [call, k + 1]));
        const {root} = runChart({run, at: run.items, scale, hero, wide, unit, room, low: true, order, parted,
            heading: name === 'lesson' && parted > 0, axis: name === 'change'});
        const judged = make('span', {className: `judged ${className}`}, `${sign}\u2002`, words);
        return make('section', {className: 'one-run', ariaLabel: title}, make('h3', {}, title, judged), root);
    });
}

function nextWords({kind, run}) {
    const next = stage.screens[stage.k + 1], idea = nextIdea(stage.idea);
    if (!stage.rest) return 'Skip';
    if (kind === 'ask') return 'Show me';
    if (!next) return idea !== null && isStory(idea) ? `Next lesson: ${numberOf(idea)}` : 'All lessons';
    return next.kind === 'compare' ? 'Compare' : next.run !== run ? 'Change it' : 'Next';
}

function showFoot(screen) {
    const {k, screens} = stage, words = nextWords(screen), next = $('stage-next'), back = $('stage-back');
    if (next.textContent !== words) next.textContent = words;
    if (back.disabled !== (k === 0)) back.disabled = k === 0;
    const dot = (one, j) => make('li', {className: `${one.kind} ${one.run} ${j < k ? 'past' : j === k ? 'here' : ''}`},
        make('button', {tabIndex: -1, title: j > k ? '' : plain(one.title),
            ariaLabel: `Screen ${j + 1} of ${screens.length}`,
            ariaCurrent: j === k ? 'step' : null, onclick: () => showScreen(j, false)}));
    fill($('stage-progress'), [k, screens.length, stage.idea], () => screens.map(dot));
}

export function setMode(on) {
    stage.on = on;
    document.body.classList.toggle('lesson', on);
    for (const [id, pressed] of [['to-lesson', on], ['to-bench', !on], ['to-lesson-2', on], ['to-bench-2', !on]])
        $(id).ariaPressed = String(pressed);
    if (window === window.top) keep(MODE, on ? 'lesson' : 'bench');     // a frame leaves the page itself as it is
    if (!on) fitTimeline();
}

// From the workbench into the story of its lesson, at the screen that the position has come to.
export function toLesson() {
    if (stage.on) return undefined;
    const idea = isStory(state.idea) ? state.idea : stage.idea;
    if (idea === null) return say('This lesson has no story: the workbench has all of it.');
    if (idea === stage.idea && stage.runs.lesson) {
        setMode(true);
        return showScreen(stage.k, false).then(() => { stage.left = screenKey(); });
    }
    const {change: other} = data.choices[idea], run = state.schedule === other?.schedule && state.listing ===
        other.listing ? 'change' : 'lesson';
    const k = screensOf(data.choices[idea]).findLastIndex(one => one.run === run && one.kind !== 'compare' &&
        one.at <= state.at);
    return openStory(idea, Math.max(k, 0));
}

const screenKey = () => [stage.idea, stage.k, stage.at].join();

// From a screen to the workbench, which has the same run at the same position; what was made there stays where the
// lesson has not been moved since.
export function toBench() {
    const run = runNow(), {idea, at} = stage, isLeft = stage.left === screenKey();
    Object.assign(stage, {token: {}, rest: true});
    setMode(false);
    showAddress('');
    if (!run || isLeft) return state.report ? goTo(state.at) : undefined;
    const {listing, schedule} = run;
    if (state.listing === listing && state.schedule === schedule) return goTo(at);
    return change({listing, schedule, at, goal: null, idea, marks: []});
}

function fullScreen() {
    if (document.fullscreenElement) document.exitFullscreen();
    else document.documentElement.requestFullscreen?.().catch(() => {});
}

function toggleLegend() {
    const box = $('stage-legend');
    box.hidden = !box.hidden;
    $('stage-key').ariaExpanded = String(!box.hidden);
    showLegend();
}

// What the marks mean that are there by now; what a mark means that has just come stands out.
function showLegend() {
    const box = $('stage-legend');
    if (box.hidden || !stage.chart) return;
    const words = one => one.textContent, older = new Set([...box.children].map(words)),
        all = legendOf(stage.chart.root);
    if (all.map(words).join() === [...older].join()) return;
    all.forEach(one => one.classList.toggle('fresh', older.size > 0 && !older.has(words(one))));
    box.replaceChildren(...all);
}

const STAGE_KEYS = {
    o: () => openLessons(stage.idea), g: toggleLegend, PageDown: nextScreen, PageUp: lastScreen, n: nextScreen, p:
        lastScreen, x: askWhy,
    f: fullScreen, Home: () => showScreen(0, false), End: () => showScreen(stage.screens.length - 1, false),
    '.': () => goBeside(stage.at + 1), ',': () => goBeside(stage.at - 1), ArrowRight: nextScreen, ArrowLeft: lastScreen,
    ' ': nextScreen, Enter: nextScreen, '?': () => $('help').showModal(),
};
const ON_CHART = {ArrowRight: () => goBeside(stage.at + 1), ArrowLeft: () => goBeside(stage.at - 1), Home: () =>
    goBeside(0),
    End: () => goBeside(Infinity)};

// Keys of the lesson mode, and the one that leads to it and back; whether it has taken this one.
export function stageKey(event) {
    const {key, target} = event, other = event.ctrlKey || event.metaKey || event.altKey;
    if (other || target.closest?.('dialog') || !stage.on && key !== 'v') return other ? stage.on : false;
    if (key === 'v' && target.matches('textarea, input, select')) return false;
    const presses = target.matches('button') && (key === ' ' || key === 'Enter');
    const pressed = key === 'v' ? stage.on ? toBench : toLesson : presses ? null : /^[1-9]$/.test(key) ? () =>
        guess(Number(key) - 1) :
        target.id === 'stage-chart' && ON_CHART[key] || STAGE_KEYS[key];
    if (!pressed) return true;
    event.preventDefault();
    pressed();
    return true;
}

export function watchStage() {
    const box = $('stage-chart');
    const buttons = {'stage-next': nextScreen, 'stage-back': lastScreen, 'stage-menu': () => openLessons(stage.idea),
        'stage-key':
        toggleLegend, 'to-lesson': toLesson, 'to-lesson-2': toLesson, 'to-bench': toBench, 'to-bench-2': toBench};
    for (const [id, pressed] of Object.entries(buttons)) $(id).onclick = () => pressed();
    $('stage-legend').hidden = narrow.matches;
    $('stage-key').ariaExpanded = String(!narrow.matches);
    box.onpointerdown = box.onpointermove = ({buttons: held, pointerId, clientX}) => {
        if (!held || !stage.chart) return;
        box.setPointerCapture(pointerId);
        goBeside(stage.chart.item(clientX - box.getBoundingClientRect().left));
    };
    const fit = () => {
        stage.wide = box.clientWidth;
        showStage();
    };
    for (const part of [$('stage'), box]) new ResizeObserver(fit).observe(part);
}
