// The time line: what the module's picture of the items draws, in lanes, with an axis below and the position above it.
// A shape's items, process and words are the module's; what comes after the position is pale, and its ends are untold.
import {$, within} from './elements.js';
import {goTo, state} from './state.js';
import {unexplained} from './judged.js';

const LABEL = 46, RIGHT = 12, GRAIN = 1.5, VALUES = 18, POINTS = 8, LANES = VALUES + POINTS, AXIS = 16;
const LEAST_WORDS = 22;
const dark = matchMedia('(prefers-color-scheme: dark)');
const DIAMOND = [[0, -5.5], [5.5, 0], [0, 5.5], [-5.5, 0]], TRAP = [[0, -8], [8, 7], [-8, 7]];
const BOX = [[-4, -4], [4, -4], [4, 4], [-4, 4]];
export const line = {from: 0, to: 1, width: Infinity, wide: 0, drawn: [], high: 0, n: 0, grain: 0, past: 0,
    wrong: {item: 0, who: 0}};
const pen = $('timeline').querySelector('canvas').getContext('2d');
let colours = {}, areDark = dark.matches;

export function showTimeline() {
    const {items, report, at} = state, {wide} = line, shapes = drawnShapes(), box = $('timeline');
    const total = Math.max(items?.total ?? report.total, 1), width = Math.min(line.width, total);
    line.from = within(at < line.from || at > line.to ? at - (width >> 1) : line.from, 0, total - width);
    line.to = line.from + width;
    const n = report.processes.length, high = highOf(n), past = pastOf(at), wrong = unexplained();
    const drawn = [line.from, line.to, wide, n, high, large(), dark.matches, devicePixelRatio, shapes, past, wrong];
    if (wide && drawn.some((each, k) => each !== line.drawn[k])) {
        Object.assign(line, {drawn, shapes, high, n, past: at, wrong});
        draw();
    }
    // A share of the box, which is in its place before the canvas has been drawn for another width, too.
    box.style.setProperty('--place', `calc(${LABEL}px + ${shareOf(at)} * (100% - ${LABEL + RIGHT}px))`);
    // What the position is in words is told once: by the time line where that has the focus, and else as a message.
    $('where').ariaLive = document.activeElement === box ? 'off' : 'polite';
    Object.assign(box, {ariaValueMax: total, ariaValueNow: at, ariaValueText: $('where').textContent});
}

// Where there are more lanes than room, that of the process of the last item is in sight. This lays out the page.
export function showLane() {
    const box = $('timeline'), who = Number(state.last.split(' ')[0]), room = box.clientHeight;
    const top = who ? topOf(who) : 0, bottom = top + line.high;
    if (top < box.scrollTop) box.scrollTop = who > 1 ? top : 0;
    else if (bottom > box.scrollTop + room) box.scrollTop = bottom - room;
}

// How high a lane is, and how large its letters are, beside what is usual.
const large = () => document.body.classList.contains('present') ? 1.25 : 1;

function highOf(n) {
    if (large() > 1 && n <= 3) return 42;
    if (n > 8) return 12;
    if (document.body.classList.contains('small')) return n <= 3 ? 20 : 14;
    return n <= 2 ? 34 : n <= 3 ? 30 : n <= 5 ? 26 : 16;
}

// What is drawn of the run; where the texts are refused what was drawn of the run before, which is dim.
const drawnShapes = () => state.shapes ?? (state.refusal ? state.oldShapes : null);

// How much of the picture is past: more of it is told where another end, write, test, loan, trap or crash is.
function pastOf(at) {
    const shapes = drawnShapes();
    let count = 0;
    for (const {to} of shapes?.bar ?? []) if (to <= at) count++;
    for (const kind of ['write', 'test', 'loan', 'trap', 'crash'])
        for (const {item} of shapes?.[kind] ?? []) if (item <= at) count++;
    return count;
}

// So much of a bar is in its colour and has its words; below it are the marks of its items.
const upper = () => line.high < 24 ? .72 : .58;

const shareOf = item => (item - line.from) / (line.to - line.from);
export const placeOf = item => LABEL + shareOf(within(item, line.from, line.to)) * (line.wide - LABEL - RIGHT);
const colour = name => colours[name] ??= getComputedStyle(document.body).getPropertyValue(`--${name}`).trim();
const isHere = item => item > line.from && item <= line.to;
const isNear = ({from, to}) => from <= line.to && to > line.from;
export const topOf = who => LANES + (who - 1) * line.high;

// Whether an operation ended with the answer that no order explains; its item alone does not tell, since operations
// that are still open are drawn up to the last item, too.
const isWrong = ({who, to}) => who === line.wrong.who && to === line.wrong.item;

// The lanes cover the canvas, which is made anew where its size is another one, and there alone. What comes later in
// this list lies above.
function draw() {
    const {wide, high, n} = line, {canvas} = pen, pixels = length => Math.round(length * devicePixelRatio);
    const tall = LANES + n * high + AXIS, size = [pixels(wide), pixels(tall)];
    if (canvas.width !== size[0] || canvas.height !== size[1]) [canvas.width, canvas.height] = size;
    canvas.style.height = `${tall}px`;
    line.grain = (line.to - line.from) / wide * GRAIN;
    // To ask for a colour takes time, since it lays out styles: each is asked for once.
    if (areDark !== dark.matches) [colours, areDark] = [{}, dark.matches];
    pen.setTransform(devicePixelRatio, 0, 0, devicePixelRatio, 0, 0);
    Object.assign(pen, {textBaseline: 'middle', textAlign: 'left', lineCap: 'butt'});
    paint('paper', 0, 0, wide, tall);
    for (let who = 1; who <= n; who++) drawLane(who);
    write('values', 'dim', 2 - 6, 0, LABEL, VALUES - 3, 12);
    if (line.shapes) drawShapes(line.shapes);
    drawAxis(tall);
}

function drawShapes({values, bar, inner, read, test, write: writes, point, none, loan, trap, crash}) {
    const {past} = line, isPast = ({item}) => isHere(item) && item <= past, ended = ({to}) => to <= past;
    values.filter(each => isNear(each) && each.from <= past).forEach(drawValues);
    drawEach(bar, drawBar);
    drawEach(inner, drawInner);
    read.filter(({item}) => isHere(item)).forEach(drawRead);
    test.filter(isPast).forEach(drawTest);
    writes.filter(isPast).forEach(drawWrite);
    none.filter(each => isNear(each) && ended(each)).forEach(drawNone);
    bar.filter(each => isNear(each) && ended(each) && isWrong(each)).forEach(crossOut);
    point.filter(each => each.item >= line.from && each.item <= line.to && ended(each)).forEach(drawPoint);
    loan.filter(each => each.item <= past && each.ended <= line.to && each.item > line.from).forEach(drawLoan);
    trap.filter(isPast).forEach(({item, who}) => shape(placeOf(item), topOf(who) + line.high / 2, TRAP, 'bad'));
    crash.filter(isPast).forEach(drawCrash);
}

// Of those that end on one pixel of a lane the first alone is drawn.
function drawEach(spans, drawOne) {
    const next = Array(line.n + 1).fill(0);
    for (const span of spans) {
        if (!isNear(span) || span.who > line.n || span.to < next[span.who]) continue;
        next[span.who] = span.to + line.grain;
        drawOne(span);
    }
}

function paint(name, ...box) {
    pen.fillStyle = colour(name);
    pen.fillRect(...box);
}

function stroke(name, width, ...points) {
    Object.assign(pen, {strokeStyle: colour(name), lineWidth: width});
    pen.beginPath();
    points.forEach(([x, y]) => pen.lineTo(x, y));
    pen.stroke();
}

function shape(x, y, corners, fill) {
    pen.beginPath();
    corners.forEach(([dx, dy]) => pen.lineTo(x + dx, y + dy));
    pen.closePath();
    Object.assign(pen, {fillStyle: colour(fill), strokeStyle: colour('paper'), lineWidth: 1.5});
    pen.fill();
    pen.stroke();
}

// As many whole words as there is room for: a value that is cut would look like another one.
function fitting(words, room) {
    const all = words.split(' '), fits = text => pen.measureText(text).width <= room;
    if (fits(words)) return words;
    for (let count = all.length - 1; count > 0; count--) {
        const some = `${all.slice(0, count).join(' ')}\u2026`;
        if (fits(some)) return some;
    }
    return /^[a-z]/.test(words) && fits(all[0]) ? all[0] : '';
}

// Writes into a box, and not beyond it.
function write(words, ink, left, top, wide, tall, size) {
    pen.save();
    pen.beginPath();
    pen.rect(left, top - 2, wide, tall + 4);
    pen.clip();
    Object.assign(pen, {fillStyle: colour(ink), font: `${size * large()}px system-ui, "DejaVu Sans", sans-serif`});
    pen.fillText(fitting(words, wide - 6), left + 6, top + tall / 2 + 1);
    pen.restore();
}

function drawLane(who) {
    const {wide, high} = line;
    paint(who % 2 ? 'panel' : 'paper', LABEL - 4, topOf(who), wide, high);
    paint(`p${who % 8}`, 0, topOf(who), LABEL - 8, high - 1);
    Object.assign(pen, {fillStyle: colour('on-p'), font: `bold ${Math.min(high - 2, 15)}px system-ui, sans-serif`});
    pen.fillText(String(who), 6, topOf(who) + high / 2);
}

// The values of the words from one write to the next, as far as they are past.
function drawValues({from, to, rest}) {
    const left = placeOf(from), wide = Math.max(placeOf(to) - left, 1);
    paint('values', left, 1, Math.max(wide - 1, 1), VALUES - 3);
    if (wide > 20) write(rest, 'on-p', left - 3, 1, wide + 2, VALUES - 3, 13);
}

// Where an operation or a part of it lies: what an item begins begins with the state before it.
const spanOf = ({from, to, who}) => {
    const left = placeOf(from - 1), right = placeOf(to);
    return {left, right, wide: Math.max(right - left, GRAIN), top: topOf(who) + 1, tall: line.high - 3};
};

// An operation, its call, and where it is past how it ended.
function drawBar(bar) {
    const {left, wide, top, tall} = spanOf(bar), scans = bar.name === 'scan', size = line.high < 28 ? 11.5 : 13.5;
    paint(scans ? 'scan-bar' : 'update-bar', left, top, wide, tall);
    const pale = scans ? 'pale-scan' : 'pale-update';
    if (line.high >= 16) paint(pale, left, top + tall * upper(), wide, tall * (1 - upper()));
    Object.assign(pen, {strokeStyle: colour(scans ? 'scan-edge' : 'update-edge'), lineWidth: 1.5});
    if (wide > 3) pen.strokeRect(left + .75, top + .75, wide - 1.5, tall - 1.5);
    if (wide < LEAST_WORDS || line.high < 16) return;
    write(barWords(bar), 'on-p', left, top, wide - 2, tall * upper() - 1, size);
}

function barWords({name, word, value, to, rest}) {
    const call = name === 'scan' ? 'scan' : `update ${word} ${value}`, [end, ...view] = rest.split(' ');
    if (to > line.past || end === 'open') return `${call} ..`;
    return call + {answer: ` \u2192 ${view.join(' ')}`, done: '', crash: ' crashed', trap: ' trapped'}[end];
}

// The scan of an update.
function drawInner(span) {
    const {left, wide, top, tall} = spanOf(span), low = Math.max(tall * (1 - upper()) - 2, 3);
    pen.globalAlpha = .45;
    paint('scan-bar', left, top + tall - low - 1, wide, low);
    pen.globalAlpha = 1;
    if (wide > 3) stroke('inner-edge', 1, [left, top + tall - low - 1], [left + wide, top + tall - low - 1]);
}

const drawRead = ({item, who}) => stroke('ink', 1.5, ...upright(item, topOf(who) + line.high - 8, 5));
const upright = (item, top, tall) => [[placeOf(item), top], [placeOf(item), top + tall]];

// The test that ends a double collect: a tick where it passed, a cross where it did not.
function drawTest({item, who, name}) {
    const x = placeOf(item), y = topOf(who) + line.high - 7;
    if (name === 'pass') return stroke('passed', 3, [x - 5, y - 1], [x - 1, y + 3], [x + 5, y - 6]);
    stroke('ink', 2, [x - 3, y - 4], [x + 3, y + 3]);
    return stroke('ink', 2, [x + 3, y - 4], [x - 3, y + 3]);
}

// A write, with a line up to the values.
function drawWrite({item, who}) {
    const x = placeOf(item), y = topOf(who) + line.high / 2;
    stroke('ink', 1, [x, VALUES - 2], [x, y]);
    Object.assign(pen, {fillStyle: colour('ink'), strokeStyle: colour('paper'), lineWidth: 1});
    pen.beginPath();
    pen.arc(x, y, 3.5, 0, 7);
    pen.fill();
    pen.stroke();
}

// The point of a scan, with a line down to the scan.
function drawPoint({item, who}) {
    const x = placeOf(item);
    pen.setLineDash([4, 3]);
    stroke('point', 2.5, [x, VALUES + 3], [x, topOf(who) + 1]);
    pen.setLineDash([]);
    shape(x, VALUES + POINTS / 2 - 1, DIAMOND, 'point');
}

// A scan without a point has a broken edge.
function drawNone(span) {
    const {left, wide, top, tall} = spanOf(span);
    Object.assign(pen, {strokeStyle: colour('ink'), lineWidth: 2.5});
    pen.setLineDash([6, 4]);
    pen.strokeRect(left + 1, top + 1, Math.max(wide - 2, 1), tall - 2);
    pen.setLineDash([]);
    if (wide < 90 || line.high < 24 || isWrong(span)) return;
    write('point none', 'ink', left, top + tall * upper(), 90, tall * (1 - upper()) - 2, 12);
}

// Crosses an operation out, where it is narrow at its end.
function crossOut(span) {
    const {left, right, top, tall} = spanOf(span), from = Math.min(left, right - 2 * tall);
    Object.assign(pen, {strokeStyle: colour('cross'), lineWidth: 3});
    pen.strokeRect(from + 1, top + 1, right - from - 2, tall - 2);
    stroke('cross', 3, [from, top], [right, top + tall]);
    stroke('cross', 3, [right, top], [from, top + tall]);
}

// An arrow from the end of the scan whose view is borrowed to the item that takes it.
function drawLoan({who, lender, item, ended}) {
    if (item > line.to) return;
    const x = placeOf(item), y = topOf(who) + line.high / 2, fromX = placeOf(ended);
    const fromY = topOf(lender) + line.high / 2, angle = Math.atan2(y - fromY, x - fromX);
    const cos = Math.cos(angle), sin = Math.sin(angle);
    const turned = ([dx, dy]) => [dx * cos - dy * sin, dx * sin + dy * cos];
    stroke('loan', 3, [fromX, fromY], [x - 5 * cos, y - 5 * sin]);
    shape(x, y, [[0, 0], [-11, -6], [-11, 6]].map(turned), 'loan');
    if (ended > line.from) shape(fromX, fromY, BOX, 'loan');
}

function drawCrash({item, who}) {
    const x = placeOf(item), y = topOf(who) + line.high / 2;
    stroke('ink', 4, [x - 6, y - 6], [x + 6, y + 6]);
    stroke('ink', 4, [x + 6, y - 6], [x - 6, y + 6]);
}

// Numbers of items below the lanes: of so many that they do not touch.
function drawAxis(tall) {
    const {from, to, wide} = line, most = Math.max(wide / 70, 2), raw = (to - from) / most;
    const scale = 10 ** Math.floor(Math.log10(Math.max(raw, 1)));
    const step = [1, 2, 5, 10].map(each => each * scale).find(each => each >= raw) ?? scale * 10;
    const font = '12px system-ui, "DejaVu Sans", sans-serif';
    Object.assign(pen, {fillStyle: colour('dim'), font, textAlign: 'center'});
    for (let item = Math.ceil(from / step) * step; item <= to; item += step) {
        pen.fillRect(placeOf(item) - .5, tall - AXIS, 1, 4);
        pen.fillText(String(item), within(placeOf(item), LABEL, wide - 12), tall - 6);
    }
    pen.textAlign = 'left';
}

// More or fewer items, around the position; all of them where the factor is 0.
export function zoom(factor) {
    const width = Math.max(Math.round((line.to - line.from) * factor), 8);
    line.width = factor && width < (state.items?.total ?? 0) ? width : Infinity;
    line.from = state.at - (width >> 1);
    showTimeline();
}

// The item at a place of the screen.
function itemAt(clientX) {
    const share = (clientX - $('timeline').getBoundingClientRect().left - LABEL) / (line.wide - LABEL - RIGHT);
    return line.from + Math.round(within(share, 0, 1) * (line.to - line.from));
}

// What the module tells of a shape, in words.
export function shapeWords({name, item, who, line: at, word, lender, ended, rest}) {
    const what = {
        read: `reads r[${word}]`, write: `writes r[${word}], values ${rest}`, pass: 'a test that passes',
        fail: 'a test that fails', trap: 'a trap', crash: 'a crash',
        loan: `borrows the view of the scan that process ${lender} ended at item ${ended}`,
    }[name];
    return `item ${item}, process ${who}, line ${at}: ${what}`;
}

// What is drawn of an item is told where the mouse is at it.
function tellItem(item) {
    const {shapes, at} = state, kinds = ['write', 'read', 'test', 'loan', 'trap', 'crash'];
    const told = item > at ? [] : kinds.flatMap(kind => shapes?.[kind].filter(each => each.item === item) ?? []);
    $('timeline').title = told.length ? told.map(shapeWords).join('\n') : `item ${item}`;
}

// Draws for the box as it is now, where its width, its height of a lane, its letters or its pixels are other ones.
export function fitTimeline() {
    line.wide = $('timeline').clientWidth;
    if (!state.report) return;
    showTimeline();
    showLane();
}

export function watchTimeline() {
    const box = $('timeline');
    box.onpointerdown = box.onpointermove = ({pointerId, buttons, clientX}) => {
        if (!buttons) return tellItem(itemAt(clientX));
        box.setPointerCapture(pointerId);
        goTo(itemAt(clientX));
    };
    new ResizeObserver(fitTimeline).observe(box, {box: 'device-pixel-content-box'});
    dark.onchange = fitTimeline;
}
