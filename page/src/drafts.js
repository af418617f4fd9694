// What a person works on is kept on this machine, by the browser, and stands here again at the next visit.
import {state, titleOf, ideaOf, change, work} from './state.js';
import {data, say} from './elements.js';

const NAMES_SCREEN = /^#lesson=\d+(?!.*item=)/;      // an address of a lesson, which leads to no work
const DRAFT = 'snaplab.draft', KEPT_AFTER = 250, MOST_KEPT = 1000000;
const draft = {timer: 0, kept: true, touched: false, quiet: true};

// Keeps it a moment later, and at once where the page goes.
export function keepDraft() {
    if (draft.quiet) return;
    draft.touched = true;
    draft.kept = false;
    clearTimeout(draft.timer);
    draft.timer = setTimeout(keepNow, KEPT_AFTER);
}

function keepNow() {
    clearTimeout(draft.timer);
    if (draft.kept || draft.quiet) return;
    const {idea, ...kept} = work();
    draft.kept = kept.listing.length + kept.schedule.length <= MOST_KEPT &&
        keep(DRAFT, JSON.stringify({...kept, idea: titleOf(idea), hash: location.hash}));
}

// Small things that are kept; whether they are.
export function keep(name, text) {
    try {
        localStorage.setItem(name, text);
        return true;
    } catch {
        return false;
    }
}

export function kept(name) {
    try {
        return localStorage.getItem(name);
    } catch {
        return null;
    }
}

// The draft, where it was made of what this address has.
export function readDraft() {
    try {
        const found = JSON.parse(kept(DRAFT) ?? 'null');
        const fits = found && typeof found.listing === 'string' && typeof found.schedule === 'string';
        if (!fits || NAMES_SCREEN.test(location.hash) || location.hash && found.hash !== location.hash) return null;
        const marks = Array.isArray(found.marks) ? found.marks.filter(mark => typeof mark === 'string') : [];
        const at = Number.isInteger(found.at) ? found.at : 0, goal = readGoal(found.goal);
        return {listing: found.listing, schedule: found.schedule, at, marks, goal, idea: ideaOf(found.idea)};
    } catch {
        return null;
    }
}

const FIELDS = ['task', 'who', 'view', 'collects', 'point', 'items', 'listing', 'shape'];

// A goal that came from outside: its fields are words.
export function readGoal(goal) {
    if (!goal || typeof goal !== 'object') return null;
    return Object.fromEntries(FIELDS.map(name => [name, typeof goal[name] === 'string' ? goal[name] : '']));
}

export async function takeDraft() {
    const found = readDraft();
    if (!found) return false;
    const lesson = data.choices[found.idea];
    const own = lesson?.listing !== found.listing || lesson.schedule !== found.schedule;
    await change(found, {undone: true});
    if (own) say('This is your work of the last visit; the lessons are where they were.');
    return true;
}

// From here on changes are kept; in the frame of another page nothing is.
export function watchDrafts(embedded) {
    draft.quiet = embedded;
    addEventListener('pagehide', keepNow);
    document.addEventListener('visibilitychange', () => document.hidden && keepNow());
    addEventListener('beforeunload', event => {
        keepNow();
        if (draft.touched && !draft.kept && !draft.quiet && state.past.length) event.preventDefault();
    });
}
