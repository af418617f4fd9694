// Small helpers over the document.
import {same} from './text.js';

const LONG_TEXT = 20, MOST_MARKED = 3;     // of a long text so many words are marked each, else all of it
const NOTE_STAYS = 12000;                   // a note goes at the next click or key, or after so many milliseconds

/** @param {string} id @returns {any} */
export const $ = id => document.getElementById(id);
// What the menu leads to: it is read when the page begins.
/** @type {any} */
export const data = {choices: [], groups: [], first: 0};
export const within = (number, least, most) => Math.min(Math.max(number, least), most);
const note = {timer: 0};

export function say(text) {
    $('note').textContent = $('stage-note').textContent = text;
    clearTimeout(note.timer);
    if (text) note.timer = setTimeout(say, NOTE_STAYS, '');
}

// An element with properties and children.
/** @param {string} tag @param {any} properties @param {...any} children @returns {any} */
export function make(tag, properties = {}, ...children) {
    const element = Object.assign(document.createElement(tag), properties);
    element.append(...children);
    return element;
}

// A process's number in its colour; odd ones are round and even ones square.
export const badge = (who, more = '') =>
    make('span', {className: `badge ${who % 2 ? '' : 'even'} ${more}`, style: `--p: var(--p${who % 8})`, role: 'img',
        ariaLabel: `process ${who}`}, String(who));

// A printed text, the words of one item before beside those that the item made of them; all of it is marked where
// their count differs, and where many differ. What was another one at the position shown before, and is not of this
// item, is underlined. There may be no older text.
export function compared(older, newer, since = undefined, item = 0) {
    if (older === undefined || older === newer) {
        if (since === undefined || since === newer) return [newer];
        return [make('span', {className: 'since', title: `was ${since} at item ${item}`}, newer)];
    }
    const before = older.split(' '), after = newer.split(' ');
    if (before.length !== after.length) return [changed(older, newer)];
    const news = after.filter((word, k) => word !== before[k]).length;
    if (after.length > LONG_TEXT && news > MOST_MARKED)
        return [make('span', {className: 'changed', title: `was ${older}`}, newer)];
    return after.flatMap((word, k) => [k ? ' ' : '', word === before[k] ? word : changed(before[k], word)]);
}

const changed = (older, newer) =>
    make('span', {className: 'changed'}, make('s', {}, older), '\u2192', make('b', {}, newer));

// Puts a picture into an element, in a root of its own. Its style becomes a sheet of that root: the policy of the page
// allows no style in the text.
export function showDrawn(element, text) {
    const root = element.shadowRoot ?? element.attachShadow({mode: 'open'}), sheet = new CSSStyleSheet();
    const [before, style, after] = text.split(/<\/?style>/);
    sheet.replaceSync(style);
    root.adoptedStyleSheets = [sheet];
    root.innerHTML = before + after;
}

// Puts children into an element, where they are not there already: the key, a list, says what they show.
const shown = new WeakMap();
export function fill(element, key, children) {
    if (shown.has(element) && same(shown.get(element), key)) return;
    shown.set(element, key);
    element.replaceChildren(...children());
}
