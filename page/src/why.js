// Why a scan answered what it answered, and why a process trapped: what the module says of an item, and buttons that
// lead to the items that it names.
import {OUTPUT} from './text.js';
import {$, fill, make, say} from './elements.js';
import {aside, readRefusal} from './asker.js';
import {timelineFocus} from './editor.js';
import {goTo, state} from './state.js';

const NAMES_ITEM = /^(.*): goto (\d+)$/;

// Explains an item, or of a process the item at which it trapped; what stands there already is put away.
export async function explain(item, who = 0) {
    const {listing, schedule, thread, refusal} = state;
    if (refusal?.name) return say('Mend what is refused first.');
    const answer = await aside.ask('why', {listing, schedule, item, who});
    if (!answer || thread !== state.thread) return null;
    if (answer.code !== OUTPUT) return say(readRefusal(answer).text);
    if (isShown() && state.why.item === answer.item) return closeWhy();
    state.why = {thread, item: answer.item, lines: answer.text.split('\n').slice(0, -1)};
    showWhy();
    $('why').scrollIntoView({block: 'center'});
    return $('why-title').focus({preventScroll: true});
}

export function closeWhy() {
    state.why = null;
    showWhy();
    timelineFocus();
}

const isShown = () => Boolean(state.why) && state.why.thread === state.thread;

// It stands as long as the items up to the position stay.
export function showWhy() {
    const {item, lines} = isShown() ? state.why : {item: 0, lines: []};
    $('why').hidden = !lines.length;
    fill($('why-title'), [item], () => [`Why item ${item} came out so`]);
    fill($('why-lines'), [lines], () => lines.map(line => make('p', {}, ...lineWords(line))));
}

function lineWords(line) {
    const [, words, item] = NAMES_ITEM.exec(line) ?? [];
    return item ? [`${words}: `, make('button', {ariaLabel: `${words}: to item ${item}`,
        onclick: () => goTo(Number(item))}, `item ${item}`)] : [line];
}

// A button for the scan or the trap of a process; of a scan that ended at an item.
export const whyButton = (what, item, who = 0) => make('button', {className: 'why', ariaLabel: `why: ${what}`,
    title: 'What led to it (x, at its item)', onclick: () => explain(who ? state.at : item, who)}, 'why');
