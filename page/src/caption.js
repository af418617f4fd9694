// What a screen of a lesson says: a kicker, a title and a body, or a question with its options.
import {$, fill, make} from './elements.js';

// Words with code and bold in them.
export function rich(text) {
    const parts = text.split(/(\*\*[^*]+\*\*|`[^`]+`)/).filter(Boolean);
    return parts.map(part => part.startsWith('**') ? make('b', {}, part.slice(2, -2)) :
        part.startsWith('`') ? make('code', {}, part.slice(1, -1)) : part);
}

export const plain = text => text.replaceAll('`', '').replaceAll('**', '');

// What stands above the title: whose turn it is, or how a guess came out.
function kickerOf({kind, run, change, right}, {rest, said, first}) {
    if (rest && right !== undefined && said) return said.right ? ['Right: you said so', 'right'] :
        [`You said: ${said.words}`, 'not'];
    if (kind === 'ask') return [change ? 'The change: what do you think?' : 'What do you think?', ''];
    if (kind === 'compare') return ['Both runs on one scale', ''];
    if (run === 'change') return ['The change', ''];
    return [first ? 'The question of this lesson' : '', ''];
}

// While items play, what they show is not told yet: there stands what was asked, or what is done.
export function showWordsOf(screen, {rest, said, asked, first, choose}) {
    const [kicker, className] = kickerOf(screen, {rest, said, first});
    const title = rest ? screen.title : screen.right !== undefined ? asked : screen.doing ?? screen.title;
    fill($('stage-told'), [title, rest, kicker, screen.body], () => [
        make('p', {className: `kicker ${className}`}, kicker), make('h2', {id: 'stage-title'}, ...rich(title)),
        ...screen.body ? [make('p', {className: rest ? 'body' : 'body held', ariaHidden: rest ? null : 'true'},
            ...rich(screen.body))] : []]);
    const options = screen.kind === 'ask' ? screen.options : [];
    fill($('stage-ask'), [options], () => options.map((words, k) =>
        make('button', {className: 'option', onclick: () => choose(k)},
        make('kbd', {ariaHidden: 'true'}, String(k + 1)), make('span', {}, ...rich(words)))));
}

// Away from the story the caption is what the item did.
export function showOwnStep({sentence, instruction, at, total}) {
    fill($('stage-told'), [sentence, at], () => [make('p', {className: 'kicker'},
        `On your own: step ${at} of ${total}`), make('h2', {id: 'stage-title'}, sentence),
        make('p', {className: 'body'}, ...instruction ? [make('code', {}, instruction), '\u2002'] : [],
            'Next goes on with the story.')]);
    fill($('stage-ask'), [[]], () => []);
}
