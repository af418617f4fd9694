// A hunt: the module makes schedules by chance, and looks for one under which the listing that stands here fails. What
// it finds it shrinks, and the page takes it for the schedule. The hunt has a worker of its own, so that the page
// goes on meanwhile.
import {OUTPUT, STOPPED, UNSAID} from './text.js';
import {$, say} from './elements.js';
import {hunter, readRefusal} from './asker.js';
import {change, state} from './state.js';

const NOTE = /^# run (\d+) of seed (\d+): (.*)$/m;

export async function hunt() {
    const {listing, report, refusal} = state;
    if (state.goal?.listing) return say('The exercise asks for a schedule of yours.');
    if (refusal?.name || !report) return say('Mend what is refused first.');
    if (!hunter.idle) return hunter.stop();
    const words = report.values.split(' ').length, processes = report.processes.length;
    showHunt(true);
    const answer = await hunter.ask('hunt', {listing, processes, words});
    showHunt(false);
    if (answer) return tellHunt(listing, answer, `shape ${processes} ${words}`);
}

function showHunt(on) {
    $('hunt').ariaPressed = String(on);
    $('hunt').textContent = on ? 'Stop the hunt' : 'Find a failure';
}

function tellHunt(listing, answer, shape) {
    if (answer.code === STOPPED) return say('The hunt was stopped.');
    if (answer.code === UNSAID) return say(`A run of seed ${answer.seed} fails, and no small one was found.`);
    if (answer.code !== OUTPUT) return say(readRefusal(answer).text);
    if (!answer.text) return say(`None of ${answer.runs} runs of ${shape} fails.`);
    if (state.listing !== listing) return say('The listing is another one now: what the hunt found is not taken.');
    const [, schedule] = answer.text.split(/^%\n/m), [, run, seed, failure] = NOTE.exec(schedule);
    change({schedule, at: Infinity});
    return say(`Run ${run} of seed ${seed} fails, shrunk: ${failure}. Undo brings your schedule back.`);
}
