// Buttons and keys.
import {unpacked} from './text.js';
import {$, data, say} from './elements.js';
import {asker, aside, failure, hunter, readRefusal, stopAsking, tellFailure} from './asker.js';
import {timelineFocus} from './editor.js';
import {change, follow, goOn, goTo, parted, press, refresh, state, toggle, undo} from './state.js';
import {compare} from './compare.js';
import {kept, keepDraft, takeDraft, watchDrafts} from './drafts.js';
import {asHash, asInput, copyFrame, copyLink, copyText, openFile, save, showPicture, takeHash} from './files.js';
import {hunt} from './hunt.js';
import {lastProcess, listingEditor, showTexts, toggleBreak} from './listing.js';
import {choose, fillLessons, makeExercise, nextCaption, openLessons, showIdea, showWhere} from './lessons.js';
import {showMarks, showMemory} from './memory.js';
import {endPlay, play, present, watchPanes, watchSize} from './panes.js';
import {cards, showProcesses} from './processes.js';
import {showLane, showTimeline, watchTimeline, zoom} from './timeline.js';
import {closeWhy, explain, showWhy} from './why.js';
import {watchPrinting} from './sheets.js';
import {showVerdicts} from './verdicts.js';
import {isStory} from './story.js';
import {openStory, setMode, showScreen, stage, stageKey, toBench, toLesson, watchStage} from './stage.js';

const BUTTONS = {
    menu: () => openLessons(), undo: () => undo('past', 'future'), redo: () => undo('future', 'past'),
    open: () => $('file').click(), save: () => save(asInput(), 'snaplab-input.txt', 'the input of snaplab debug'),
    copy: () => copyText(asInput(), 'the input of snaplab debug'), link: copyLink, frame: copyFrame,
    picture: showPicture, make: makeExercise, keys: () => $('help').showModal(), words: () => $('glossary').showModal(),
    trust: () => $('proved').showModal(), compare, present, home: () => goTo(0), end: () => goTo(Infinity),
    back: () => goTo(state.at - 1), on: () => goTo(state.at + 1), run: () => refresh('run'),
    rrun: () => refresh('rrun'), closer: () => zoom(.5), wider: () => zoom(2), fit: () => zoom(0), stop: stopAsking,
    cut: cutHere, hunt, play, next: () => nextCaption(1), previous: () => nextCaption(-1), more,
    'why-close': closeWhy,
};

// Keys of their own, beside those that page.html writes at buttons; it lists them all.
const KEYS = {
    PageUp: () => goTo(state.at - 10), PageDown: () => goTo(state.at + 10), b: () => toggleBreak(breakLine()),
    w: watchFocused, u: goToLine, e: goToEnd, x: () => explain(state.at), l: () => listingEditor.gutter.focus(),
    m: () => $('memory').querySelector('[data-register]').focus(),
    p: () => $('processes').querySelector('button:not(:disabled)').focus(), t: () => $('timeline').focus(),
};

function cutHere() {
    const {items, at, schedule} = state;
    if (items && at < items.total) change({schedule: parted(schedule, items, at)[0]}, {kept: true});
}

// In a small window the buttons that are used less unfold.
function more() {
    $('more').ariaExpanded = String(document.body.classList.toggle('more'));
}

// The text line of the margin, or that at which the process of the last item stands.
function breakLine() {
    if (document.activeElement === listingEditor.gutter) return listingEditor.active + listingEditor.first;
    return state.lines.get(lastProcess()?.at)?.place;
}

function goToEnd() {
    return lastProcess() ? goOn(lastProcess().who) : say('No process has moved yet.');
}

// The process of the last item goes to the line of the margin.
function goToLine() {
    const place = document.activeElement === listingEditor.gutter ? breakLine() : -1;
    const line = [...state.lines.values()].find(one => one.place === place);
    if (!line) return say('Choose a numbered line in the margin of the listing first: l leads there.');
    return lastProcess() ? goOn(lastProcess().who, line.number) : say('No process has moved yet.');
}

function watchFocused() {
    const {register} = /** @type {HTMLElement} */ (document.activeElement).dataset;
    return register ? toggle(register) : say('Choose a register with the Tab key first; m leads to the memory.');
}

function pressKey(event) {
    if (stageKey(event)) return undefined;
    const {key, target} = event, typing = target.matches('textarea, input, select, dialog *');
    if (key === 'Escape' && target.closest('#why')) return closeWhy();
    if (key === 'Escape' && typing && !target.closest('dialog')) return timelineFocus();
    const pressed = /^[1-9]$/.test(key) ? cards[key - 1] && (() => press(Number(key))) : KEYS[key];
    if (event.ctrlKey || event.metaKey || event.altKey || typing || !pressed) return;
    event.preventDefault();
    if (key !== 'a') endPlay();
    pressed();
}

// What follows the state; the texts and the lane come last: their scrolling lays out what the others have written.
export function showState() {
    const shown = [showProcesses, showMemory, showMarks, showVerdicts, showWhy, showIdea, showWhere, showTimeline];
    if (state.report) shown.forEach(show => show());
    $('undo').disabled = !state.past.length;
    $('redo').disabled = !state.future.length;
    showTexts();
    if (state.report) showLane();
    window.snaplab.shownAt ??= performance.now();
}

let begun = false;      // whether the page has come to its beginning
const isSettled = () => Boolean(failure.text) || begun && asker.idle && aside.idle && hunter.idle && !state.timer &&
    (!stage.on || stage.rest);
const answer = (name, texts, numbers) => asker.ask('answer', {name, texts, numbers}, Symbol(name));
window.snaplab = {state, settled: isSettled, answer, asHash, asInput, change, choose, goTo, press, refresh, toggle,
    asker, showState, readRefusal, stage, openStory, showScreen, toBench, toLesson, shownAt: undefined};

// A lesson that is chosen: its story where it has one and the lesson mode is on, and else the workbench.
function openLesson(k) {
    if (stage.on && isStory(k)) return openStory(k);
    setMode(false);
    choose(k);
    return timelineFocus();
}

// A page begins with the lesson mode, where the address or the last visit leads to no other work.
async function startStage(asked) {
    watchStage();
    watchPrinting();
    if (stage.idea !== null) return undefined;
    const {idea} = state, own = data.choices[idea];
    const isLesson = isStory(idea) && state.listing === own.listing && state.schedule === own.schedule;
    if (asked || kept('snaplab.mode') === 'bench' || !isLesson) return setMode(false);
    return openStory(idea);
}

async function start() {
    Object.assign(data, JSON.parse(new TextDecoder().decode(await unpacked($('data').textContent))));
    const embedded = window !== window.top;
    document.body.classList.toggle('embedded', embedded);
    Object.assign(follow, {texts: () => [showTexts, showIdea].forEach(show => show()), shown: showState,
        kept: keepDraft});
    for (const [id, pressed] of Object.entries(BUTTONS)) $(id).onclick = pressed;
    for (const button of document.querySelectorAll('[data-key]'))
        KEYS[/** @type {HTMLElement} */ (button).dataset.key] = () => /** @type {HTMLElement} */ (button).click();
    $('file').onchange = () => openFile($('file').files[0]).then(() => { $('file').value = ''; });
    $('at').onchange = () => {
        const told = $('at').value.trim();
        $('at').value = state.at;
        return /^\d+$/.test(told) ? goTo(Number(told)) : say('An item is a whole number.');
    };
    document.addEventListener('keydown', pressKey);
    for (const kind of ['keydown', 'pointerdown']) document.addEventListener(kind, () => say(''), true);
    addEventListener('hashchange', takeHash);
    fillLessons(openLesson);
    watchSize();
    watchPanes();
    watchTimeline();
    [asker, aside].forEach(one => one.start());
    return takeFirst(embedded).then(asked => {
        Object.assign(state, {past: [], future: []});
        return startStage(embedded || asked);
    }).then(() => {
        showState();
        watchDrafts(embedded);
        begun = true;
    });
}

// At the beginning: the work of the last visit, what the address has, or the first lesson in its middle.
async function takeFirst(embedded) {
    const draft = !embedded && await takeDraft(), asked = !draft && await takeHash();
    if (!draft && !asked) await choose(data.first, {middle: true});
    return asked;
}

start().catch(error => tellFailure(error.message));
