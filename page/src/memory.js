// The registers, each old content beside the new one, and the marks. A value leads to the item that wrote it.
import {OUTPUT} from './text.js';
import {$, compared, fill, make, say} from './elements.js';
import {aside} from './asker.js';
import {goTo, state, toggle} from './state.js';

const MATRIX = 8;       // up to so many processes the bits are shown as a matrix

export function showMemory() {
    const {report, before, since, marks} = state, touched = touchedRegister();
    const key = [report.values, report.registers, before?.registers ?? [], before?.values, since?.registers ?? [],
        since?.at, [...marks], touched];
    fill($('memory'), key, () => {
        const focused = /** @type {HTMLElement} */ (document.activeElement)?.dataset?.register;
        queueMicrotask(() => focused && $('memory').querySelector(`[data-register="${focused}"]`)?.focus());
        const alike = one => one?.registers.length === report.registers.length ? one : null;
        const [was, once] = [alike(before), alike(since)];
        const registers = report.registers.map((line, k) => {
            const [name, text] = line.split(' = '), of = other => other?.registers[k].split(' = ')[1];
            return {name, text, was: of(was), once: of(once)};
        });
        const banks = Object.entries(Object.groupBy(registers, ({name}) => name[0]));
        return [make('div', {className: 'values'}, 'values ', ...valuesOf(was, once)),
            ...banks.map(([bank, all]) => 'qp'.includes(bank) ? bits(bank, all) : fields(bank, all, touched))];
    });
}

// The register that the last item read or wrote, as the module's picture tells.
function touchedRegister() {
    const {shapes, at} = state, found = kind => shapes?.[kind].find(each => each.item === at)?.word;
    return found('write') ?? found('read') ?? '';
}

// 'd seq s view v1 .. vw' as columns: data, seq and view.
function columns(text, bank) {
    const words = `${bank === 'v' ? 'view' : 'data'} ${text}`;
    return Array.from(words.matchAll(/([a-z]+) ([^a-z]*[^a-z ])/g), ([, name, numbers]) => [name, numbers]);
}

function table(bank, corner, head, rows) {
    const cells = [make(corner ? 'th' : 'td', corner ? {scope: 'col'} : {}, corner),
        ...head.map(name => make('th', {scope: 'col'}, name))];
    const body = rows.map(([name, cells, className = '']) =>
        make('tr', {className}, make('th', {scope: 'row'}, name), ...cells.map(cell => make('td', {}, ...cell))));
    const top = make('thead', {}, make('tr', {}, ...cells));
    const all = make('table', {ariaLabel: `Registers ${bank}`}, top, make('tbody', {}, ...body));
    return make('div', {className: 'bank'}, all);
}

function fields(bank, all, touched) {
    const rows = all.map(({name, text, was, once}) => {
        const old = was === undefined ? [] : columns(was, bank), far = once === undefined ? [] : columns(once, bank);
        const cells = columns(text, bank).map(([of, cell], k) =>
            [writerButton(name, of, compared(old[k]?.[1], cell, far[k]?.[1], state.since?.at), k ? -1 : 0)]);
        return [watchButton(name), cells, bank === 'r' && name === `r ${touched}` ? 'touched' : ''];
    });
    return table(bank, '', columns(all[0].text, bank).map(([name]) => name), rows);
}

// The values of the words, each of which leads to the item that wrote it.
function valuesOf(was, once) {
    const words = one => one?.values.split(' ') ?? [], [old, far] = [words(was), words(once)], {since} = state;
    return words(state.report).flatMap((value, k) => [k ? ' ' : '',
        writerButton(`r ${k + 1}`, 'value', compared(old[k], value, far[k], since?.at), -1)]);
}

// The Tab key leads to one of those of a register, which all do the same.
function writerButton(name, part, content, tabIndex) {
    const title = `To the item that wrote ${name}`;
    const button = make('button', {className: 'writer', title, tabIndex}, ...content);
    button.ariaLabel = `${part} of ${name}: ${spoken(button)}`;
    button.onclick = () => goToWriter(name);
    return button;
}

// To the item that made a register what it is: the last write of it, where the module's picture has that, and else the
// last item that changed it, to which the module runs back.
async function goToWriter(name) {
    const {shapes, listing, schedule, at, report, before, run} = state;
    const drawn = shapes?.write.findLast(({word, item}) => `r ${word}` === name && item <= at);
    if (drawn) return goTo(drawn.item);
    const lineOf = one => one?.registers.find(line => line.startsWith(`${name} = `));
    if (before && lineOf(before) !== lineOf(report)) return say(`Item ${at} wrote ${name}.`);
    const answer = await aside.ask('writer', {listing, schedule, at, name});
    if (answer?.code !== OUTPUT || run !== state.run) return null;
    return answer.item ? goTo(answer.item) : say(`Nobody has written ${name} yet.`);
}

// Bits q[i,j] and p[i,j]: a row for each i. Many of them are written as lines.
function bits(bank, all) {
    const count = Math.round(Math.sqrt(all.length)), places = Array.from({length: count}, (_, k) => k);
    const joined = (cells, what) => cells[0][what] && cells.map(cell => cell[what]).join(' ');
    const since = state.since?.at;
    const rows = places.map(i => {
        const cells = all.slice(i * count, (i + 1) * count), name = `${bank} ${i + 1}`;
        if (count > MATRIX)
            return [name, [compared(joined(cells, 'was'), joined(cells, 'text'), joined(cells, 'once'), since)]];
        return [name, cells.map(cell => [watchButton(cell.name, compared(cell.was, cell.text, cell.once, since))])];
    });
    return table(bank, bank, count > MATRIX ? [`1 to ${count}`] : places.map(j => String(j + 1)), rows);
}

// What an element shows, for those who listen: '5\u21926' in words.
const spoken = element => element.textContent.replaceAll('\u2192', ' became ');

function watchButton(name, content = null) {
    const button = make('button', {ariaPressed: state.marks.has(name), title: `Watch ${name}, or no longer (w)`,
        onclick: () => toggle(name)}, ...content ?? [name]);
    button.dataset.register = name;
    if (content) button.ariaLabel = `${name}: ${spoken(button)}`;
    return button;
}

// All marks, each a button that takes it away.
export function showMarks() {
    const button = mark => make('button', {className: 'mark', onclick: () => toggle(mark),
        ariaLabel: `Take away the mark ${mark}`}, `${mark.replace('of', 'of process')} \u00d7`);
    const all = [...state.marks];
    fill($('marks'), all, () => all.length ? ['Runs stop at ', ...all.map(button)] : []);
}
