// A lesson on paper: a page a screen.
import {$, make} from './elements.js';
import {runChart} from './chart.js';
import {collectsTable} from './collects.js';
import {rich} from './caption.js';
import {bothRuns, heroAt, hides, readOf, stage, storyNow} from './stage.js';

// pixels of the picture on a page, of a letter, and of each of two pictures
const WIDE = 1000, UNIT = 16, EACH_HIGH = 270;

function wordsOf({title, body = '', options = []}, k) {
    const list = options.map((words, j) => make('li', {}, ...rich(words)));
    return [make('p', {className: 'kicker'}, `${storyNow().title} \u2014 ${k + 1}`), make('h2', {}, ...rich(title)),
        ...body ? [make('p', {className: 'body'}, ...rich(body))] : [], ...list.length ? [make('ol', {}, ...list)] :
            []];
}

function pictureOf(screen, k) {
    const {run: name, at} = screen, run = stage.runs[name], {folded = []} = storyNow().story;
    const {root} = runChart({run, at, scale: Math.max(run.items, 1), hero: heroAt(k), wide: WIDE, unit: UNIT,
        fitsTold: !hides(screen, 'fits'), differTold: !hides(screen, 'equal')});
    return [root, collectsTable(run, readOf(run, k, at), {folded, need: run.need})];
}

function sheetOf(screen, k) {
    const compares = screen.kind === 'compare', sizes = {wide: WIDE, unit: UNIT, room: EACH_HIGH, hero: heroAt(k)};
    return make('section', {className: 'sheet'}, ...wordsOf(screen, k),
        ...compares ? bothRuns(stage, sizes) : pictureOf(screen, k));
}

export function watchPrinting() {
    addEventListener('beforeprint', () => stage.on && stage.runs.lesson &&
        $('sheets').replaceChildren(...stage.screens.map(sheetOf)));
    addEventListener('afterprint', () => $('sheets').replaceChildren());
}
