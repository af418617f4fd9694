// What stands here as an input of 'snaplab debug', as a link, as a frame for another page, and as a picture.
import {OUTPUT, inputOf} from './text.js';
import {$, make, say, showDrawn, within} from './elements.js';
import {aside, asker, readRefusal} from './asker.js';
import {readGoal} from './drafts.js';
import {change, ideaOf, markCommands, marksOf, state, titleOf} from './state.js';
import {choose} from './lessons.js';
import {openStory, setMode} from './stage.js';
import {ideaOfNumber, isStory} from './story.js';
import {line} from './timeline.js';

const MOST_LINK = 60000, MOST_INPUT = 16777216, MOST_UNPACKED = 2 * MOST_INPUT;
const MOST_PICTURED = 300, PICTURE_WIDTH = 1600;
const ASIDE = /^# lesson (\{.*\})$/m;

// The commands have the marks and the position, and as a comment the lesson and its goal.
export function asInput() {
    const {listing, schedule, at, idea, goal} = state, title = titleOf(idea);
    const more = title || goal ? [`# lesson ${inAscii(JSON.stringify({idea: title, goal}))}`] : [];
    return inputOf(listing, schedule, [...more, ...markCommands(), `goto ${at}\n`].join('\n'));
}

const inAscii = text => text.replace(/[^ -~]/g, letter => `\\u${letter.charCodeAt(0).toString(16).padStart(4, '0')}`);

// What the comment in the commands tells of a lesson.
function readAside(commands) {
    try {
        const {idea = null, goal = null} = JSON.parse(ASIDE.exec(commands)?.[1] ?? '{}');
        return {idea: ideaOf(idea), goal: readGoal(goal)};
    } catch {
        return {idea: null, goal: null};
    }
}

// Takes the parts of an input. Where its commands lead to is asked of the module, which refuses what is no input.
export async function takeInput(text, more = null) {
    const parts = text.replace(/\r\n/g, '\n').split(/^%\n/m);
    const [listing, schedule = 'shape 2 2\n', commands = ''] = parts;
    if (parts.length > 3) {
        const refused = await asker.ask('tryInput', {text}, 'tried');
        return refused && say(`This is not opened: ${refused.text.trim()} (it has ${parts.length} parts).`);
    }
    const lesson = more ?? readAside(commands);
    const reached = commands.trim() ? await asker.ask('look', {listing, schedule, commands}, 'opened') : null;
    const marks = marksOf(reached?.left ?? '', reached?.report?.processes.length ?? 0);
    await change({listing, schedule, at: reached?.report?.at ?? 0, marks, ...lesson});
    if (reached?.text?.startsWith('refused: G')) say(`The commands of this input are ${reached.text.trim()}`);
}

export async function openFile(file) {
    if (!file) return;
    if (file.size > MOST_INPUT) return say(`${file.name} has more than 16,777,216 bytes: it is refused.`);
    say(`Opened ${file.name}.`);
    await takeInput(await file.text());
}

export function save(content, download, what) {
    const href = URL.createObjectURL(content instanceof Blob ? content : new Blob([content]));
    make('a', {href, download}).click();
    setTimeout(() => URL.revokeObjectURL(href), 1000);
    say(`Saved: ${what}.`);
}

export async function copyText(text, what) {
    try {
        await navigator.clipboard.writeText(text);
        say(`Copied: ${what}.`);
    } catch {
        say('The browser does not let this page copy: save it, or take the link from the address.');
    }
}

// The bytes that come through a stream, of which there may not be too many: a small link can unpack to a large text.
async function through(stream, bytes, most = MOST_UNPACKED) {
    const reader = new Blob([bytes]).stream().pipeThrough(stream).getReader(), parts = [];
    for (let size = 0; ;) {
        const {done, value} = await reader.read();
        if (done) return new Uint8Array(await new Blob(parts).arrayBuffer());
        parts.push(value);
        size += value.length;
        if (size > most) {
            reader.cancel().catch(() => {});
            throw new RangeError('too long');
        }
    }
}

// The link: input, goal and lesson, packed and in letters.
export async function asHash() {
    const text = JSON.stringify({input: asInput(), goal: state.goal, idea: titleOf(state.idea)});
    const packed = await through(new CompressionStream('deflate-raw'), text);
    const letters = Array.from(packed, byte => String.fromCharCode(byte)).join('');
    return '#' + btoa(letters).replace(/\+/g, '-').replace(/\//g, '_').replace(/=+$/, '');
}

const wholeNumber = text => /^\d{1,7}$/.test(text ?? '') ? Number(text) : 0;

// An address in words names a lesson and one of its screens, '#lesson=3&screen=11'; with '&view=picture' there is the
// picture alone. One that names an item leads to the workbench: '#lesson=3&item=24', and with '&change' the change.
async function takeWords(words) {
    const k = ideaOfNumber(words.get('lesson'));
    if (k === null) {
        say(`There is no lesson ${words.get('lesson')}.`);
        return false;
    }
    document.body.classList.toggle('picture-only', words.get('view') === 'picture');
    await choose(k);
    if (!words.has('item') && isStory(k)) {
        await openStory(k, Math.max(wholeNumber(words.get('screen')) - 1, 0));
        return true;
    }
    setMode(false);
    if (words.has('change')) await $('change').onclick();
    await change({at: within(wholeNumber(words.get('item')), 0, state.items?.total ?? 0)});
    return true;
}

export async function takeHash() {
    const letters = location.hash.slice(1);
    if (!letters) return false;
    if (/^lesson=\d/.test(letters)) return takeWords(new URLSearchParams(letters));
    try {
        const bytes = atob(letters.replace(/-/g, '+').replace(/_/g, '/'));
        const packed = Uint8Array.from(bytes, letter => letter.charCodeAt(0));
        const text = new TextDecoder().decode(await through(new DecompressionStream('deflate-raw'), packed));
        const {input, goal, idea} = JSON.parse(text);
        await takeInput(String(input), {goal: readGoal(goal), idea: ideaOf(idea)});
        return true;
    } catch (error) {
        say(error instanceof RangeError ? 'This link holds more than an input may have: it is not opened.' :
            'This link cannot be read: it was cut, or is of another page.');
        return false;
    }
}

export async function copyLink() {
    const hash = await asHash();
    if (hash.length > MOST_LINK) return say('This is too long for a link: save it as a file.');
    history.replaceState(null, '', hash);
    return copyText(location.href, `a link that has all of this${ofThisMachine()}`);
}

// A page that was opened as a file has an address that leads nowhere else.
const ofThisMachine = () => location.protocol === 'file:' ?
    '; it leads to a file of this machine, so send the page along' : '';

export async function copyFrame() {
    const hash = await asHash();
    if (hash.length > MOST_LINK) return say('This is too long for a frame: save it as a file.');
    const address = location.href.replace(/#.*/, '') + hash;
    return copyText(`<iframe src="${address}" width="1000" height="640" title="snaplab"></iframe>`,
        `a frame for a page of yours, which opens at this position${ofThisMachine()}`);
}

// The items that the time line shows, or of many those around the position, as a picture.
export async function showPicture() {
    const {listing, schedule, at, report, refusal} = state, total = report?.total;
    if (refusal?.name) return say('Mend what is refused first.');
    if (!total) return say('A run of no items has no picture.');
    const many = line.to - line.from > MOST_PICTURED, start = within(at - MOST_PICTURED / 2, 0, total - MOST_PICTURED);
    const [before, to] = many ? [start, start + MOST_PICTURED] : [line.from, line.to];
    const answer = await aside.ask('draw', {listing, schedule, from: before + 1, to, seen: true});
    if (answer?.code !== OUTPUT) return answer && say(readRefusal(answer).text);
    showDrawn($('drawn'), answer.text);
    $('drawn-items').textContent = `items ${before + 1} to ${to} of ${total}${many ? ', around the position' : ''}`;
    $('keep').onclick = () => save(answer.text, 'snaplab-run.svg', 'the picture, as SVG');
    $('keep-png').onclick = () => savePng(answer.text);
    $('picture-shown').showModal();
}

// The picture in pixels, by the browser.
async function savePng(text) {
    const image = new Image(), height = Number(/viewBox="0 0 1600 (\d+)"/.exec(text)?.[1] ?? 900);
    const sized = text.replace('<svg ', `<svg width="${PICTURE_WIDTH}" height="${height}" `);
    image.src = `data:image/svg+xml,${encodeURIComponent(sized)}`;
    await image.decode();
    const canvas = make('canvas', {width: 2 * PICTURE_WIDTH, height: 2 * height});
    canvas.getContext('2d').drawImage(image, 0, 0, canvas.width, canvas.height);
    canvas.toBlob(bytes => save(bytes, 'snaplab-run.png', 'the picture, as PNG'), 'image/png');
}
