// A text with a margin: lines have marks, badges and colours. A line that is too long for the pane goes on below
// itself, and its row of the margin is as high. A long text is shown in part, and cannot be edited there.
import {$, fill, make, within} from './elements.js';

const MOST_LINES = 1500, EDGE = 8, ROOM = 42, MOST_LETTERS = 300000, SHOWN_LETTERS = 2000;
export const SHOWN_LINES = 40;

// Where each line of a text begins, and where one behind the last would: a long text is not cut into all its lines.
function startsOf(text) {
    const starts = [0];
    while (starts.at(-1) <= text.length) starts.push(text.indexOf('\n', starts.at(-1)) + 1 || text.length + 1);
    return starts;
}

export class Editor {
    constructor(root, label, onInput) {
        this.root = root;
        this.area = make('textarea', {ariaLabel: label, spellcheck: false, autocapitalize: 'off'});
        this.gutter = make('div', {className: 'gutter', tabIndex: 0, role: 'listbox', ariaLabel: `Margin: ${label}`});
        this.back = make('div', {className: 'back', ariaHidden: 'true'});
        this.first = this.active = this.columns = 0;
        this.seen = [-1];
        this.part = [];
        this.starts = [0];
        this.text = this.letter = null;
        this.onmark = null;
        this.tell = (/** @type {number} */ _line) => '';
        this.colour = text => [text];
        this.coloured = new WeakMap();
        this.area.oninput = () => onInput(this.area.value);
        root.append(this.gutter, make('div', {className: 'code'}, this.back, this.area));
        this.gutter.onclick = event => {
            const row = event.target.closest('[role=option]');
            if (!row) return;
            this.activate([...this.gutter.children].indexOf(row));
            this.onmark?.(this.active + this.first);
        };
        this.gutter.onkeydown = event => this.pressed(event);
        this.area.onmousemove = ({clientY}) => {
            const told = this.tell(this.first + this.lineAt(clientY));
            if (this.area.title !== told) this.area.title = told;
        };
        new ResizeObserver(() => this.fit()).observe(this.back);
    }

    // Keys of the margin: up and down choose a line, Enter and Space mark it.
    pressed(event) {
        const way = {ArrowUp: -1, ArrowDown: 1}[event.key];
        if (!way && event.key !== 'Enter' && event.key !== ' ') return;
        event.preventDefault();
        event.stopPropagation();
        if (way) this.activate(this.active + way);
        else this.onmark?.(this.active + this.first);
    }

    // Shows a text, of a long one the lines around this one. They stay until this one comes near to an end of them.
    show(text, around = 0) {
        if (this.text !== text) this.starts = startsOf(text);
        const {starts} = this, count = starts.length - 1, long = count > MOST_LINES || text.length > MOST_LETTERS;
        const last = Math.max(count - SHOWN_LINES, 0), most = this.first + SHOWN_LINES - EDGE;
        const kept = this.first <= last && around >= this.first + EDGE && around < most;
        const first = !long ? 0 : kept ? this.first : within(around - SHOWN_LINES / 2, 0, last);
        if (this.text === text && this.first === first) return;
        Object.assign(this, {text, first});
        const lines = long ? Math.min(count, SHOWN_LINES) : count, letters = long ? SHOWN_LETTERS : Infinity;
        const line = k => text.slice(starts[k], Math.min(starts[k + 1] - 1, starts[k] + letters));
        this.part = Array.from({length: lines}, (_, k) => line(first + k));
        const shown = this.part.join('\n');
        this.area.readOnly = long;
        if (this.area.value !== shown) this.area.value = shown;
        this.setRows(lines);
        this.part.forEach((text, k) => {
            const row = this.back.children[k];
            if (this.coloured.get(row) === text) return;
            this.coloured.set(row, text);
            row.replaceChildren(...this.colour(text));
            this.measure(k);
        });
    }

    // The margin has as many rows as there are lines shown, and the text behind as many lines.
    setRows(count) {
        const {gutter, back} = this, id = () => `${this.root.id}-${gutter.children.length}`;
        for (const rows of [gutter, back]) while (rows.children.length > count) rows.lastChild.remove();
        while (gutter.children.length < count) gutter.append(make('div', {role: 'option', id: id()}));
        while (back.children.length < count) back.append(make('div'));
    }

    // A row is as high as its line, which is measured where it may be too long for the pane.
    measure(k) {
        const row = this.gutter.children[k], text = this.part[k];
        const short = text.length <= this.columns && /^[ -~]*$/.test(text);
        const height = short ? '' : `${this.back.children[k].offsetHeight}px`;
        if (row.style.height !== height) row.style.height = height;
    }

    fit() {
        const letter = this.letter ??= make('span', {className: 'letter'}, 'x'.repeat(50));
        this.back.after(letter);
        const wide = letter.offsetWidth / 50;
        letter.remove();
        if (!wide) return;
        this.columns = Math.floor((this.back.clientWidth - 13) / wide);
        this.part.forEach((_, k) => this.measure(k));
        this.reveal(...this.seen);
    }

    // The line at a height of the window; -1 where there is none.
    lineAt(y) {
        return [...this.gutter.children].findIndex(row => {
            const {top, bottom} = row.getBoundingClientRect();
            return top <= y && y < bottom;
        });
    }

    // What stands in the margin, for each text line its children, their key and what is read out; and coloured lines.
    mark(told, colours) {
        const names = new Map();
        for (const [line, name] of colours) names.set(line, `${names.get(line) ?? ''} ${name}`);
        [...this.gutter.children].forEach((row, k) => {
            const {key, children, label, numbered} = told(k + this.first), name = names.get(k + this.first) ?? '';
            fill(row, key, children);
            const className = `${numbered ? 'numbered' : ''} ${k === this.active ? 'active' : ''}${name}`;
            if (row.className !== className) row.className = className;
            if (row.ariaLabel !== label) row.ariaLabel = label;
            if (this.back.children[k].className !== name) this.back.children[k].className = name;
        });
    }

    // Scrolls a line into view, and if both fit another one too, but not under the hands of one who types.
    reveal(line, other = line) {
        this.seen = [line, other];
        const {root} = this, rows = [line, other].map(each => this.gutter.children[each - this.first]);
        const [row = rows[1], more = row] = rows, room = root.clientHeight;
        if (!row || document.activeElement === this.area || root.scrollHeight <= room) return;
        const near = Math.abs(row.offsetTop - more.offsetTop) < room - ROOM ? more : row;
        const top = Math.min(row.offsetTop, near.offsetTop);
        const end = Math.max(row.offsetTop + row.offsetHeight, near.offsetTop + near.offsetHeight) + ROOM / 2;
        if (top < root.scrollTop) root.scrollTop = top;
        else if (end > root.scrollTop + room) root.scrollTop = end - room;
    }

    activate(line) {
        this.gutter.children[this.active]?.classList.remove('active');
        this.active = within(line, 0, this.gutter.children.length - 1);
        const row = this.gutter.children[this.active];
        row.classList.add('active');
        row.scrollIntoView({block: 'nearest'});
        this.gutter.setAttribute('aria-activedescendant', row.id);
    }
}

export const timelineFocus = () => $('timeline').focus({preventScroll: true});
