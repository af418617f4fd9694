// The screens of a lesson, made of its story: a question comes before the scene that answers it, the change is asked
// about at the end of the first run, and both runs are compared in the end.
import {data} from './elements.js';

export const isStory = k => Boolean(data.choices[k]?.story);
export const ideas = () => data.groups.find(([name]) => name === 'Gallery')[1];

// The lesson behind one; null behind the last.
export const nextIdea = k => ideas()[ideas().indexOf(k) + 1] ?? null;

// The number by which a lesson is known: that before its title.
export const numberOf = k => data.choices[k].title.split('.')[0];
export const ideaOfNumber = number => ideas().find(k => numberOf(k) === number) ?? null;

export function screensOf({story}) {
    const {start, scenes, change, compare} = story,
        screens = [{run: 'lesson', kind: 'start', from: 0, at: 0, ...start}];
    add(screens, 'lesson', scenes);
    if (change) add(screens, 'change', change.scenes);
    if (compare) screens.push({run: 'change', kind: 'compare', from: 0, at: 0, ...compare});
    return screens;
}

// A guess is told right or wrong by the screen that shows it: the next one, or of a question with 'later' the one
// behind.
function add(screens, run, scenes) {
    let from = 0, later = {};
    for (const scene of scenes) {
        const {ask, options, right, before, hideBefore, ...shown} = scene, over = run === 'change' && !from ?
            screens.at(-1) : null;
        const place = over ? {run: over.run, from: over.at, at: over.at} : {run, from, at: from};
        if (ask) screens.push({...place, kind: 'ask', title: ask, options, look: before, hide: hideBefore,
            hero: scene.hero,
            change: Boolean(over)});
        const guess = ask ? {right, askAt: screens.length - 1} : later;
        screens.push({run, kind: 'scene', from, ...shown, ...scene.later ? {} : guess});
        later = scene.later ? guess : {};
        from = scene.at;
    }
}
