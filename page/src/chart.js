// A run as a picture for a class: what memory held, where an answer fits, and a lane for each process. All of it up to
// an item, and of the run's anatomy.
import {box, dot, drawn, path, rule, text, title, wordsWide} from './drawing.js';
import {callWords, isOver, sureGap, toldAt, viewWords} from './run.js';

const BOLD = 600;

class Chart {
    run = /** @type {any} */ (null);
    at = 0;
    scale = 1;
    wide = 0;
    u = 1;              // pixels of a letter
    n = 0;
    low = false;        // one of two pictures on a screen
    narrow = false;
    order = new Map();
    parted = 0;
    fitsTold = true;
    differTold = true;
    axis = true;
    heading = false;

    constructor({run, at, scale, hero, wide, unit, low = false, order = new Map(), parted = 0, fitsTold = true,
        differTold = true, room = Infinity, axis = true, heading = false}) {
        const n = run.processes, narrow = wide < 42 * unit;
        Object.assign(this, {run, at, scale, wide, u: unit, low, order, parted, narrow, n, fitsTold, differTold, axis,
            heading});
        this.gutter = (narrow ? 1.9 : 6) * unit;
        this.end = this.labelWide() + .7 * unit;
        this.perItem = (wide - this.gutter - this.end) / scale;
        this.band = {top: (heading ? 1.15 : .2) * unit, high: (low ? 1.5 : 1.8) * unit};
        this.fits = {top: this.band.top + this.band.high + .3 * unit, high: (low ? 1.4 : 1.7) * unit};
        const top = this.fits.top + this.fits.high + .4 * unit, foot = (axis ? 1.5 : .3) * unit;
        this.lanes = {top, high: Math.max(Math.min(this.laneHigh() * unit, (room - top - foot) / n), 1.5 * unit)};
        this.tall = this.lanes.top + n * this.lanes.high + foot;
        this.shapes = [];
        this.above = [];
        this.told = fitsTold ? toldAt(run, hero, at) : null;
        const scan = this.told?.scans[0];
        this.borrowers = borrowersOf(run, scan);
        this.lenders = new Set(this.borrowers.map(({borrowed}) => borrowed.scan));
        this.letters = low ? n > 2 ? .75 : .85 : n > 2 ? .85 : .95;
    }

    // How wide the words of memory are, which stand to the right of the position where they have no room before it.
    labelWide() {
        const most = Math.max(...this.run.memory.map(({values}) => viewWords(values).length));
        return this.width('0 '.repeat(Math.ceil((most + 1) / 2)).trim(), this.low ? .9 : 1);
    }

    // How high a lane is, in letters.
    laneHigh() {
        const {low, narrow, n} = this;
        if (low) return n > 3 ? 2.2 : n > 2 ? 3 : narrow ? 2.8 : 3.6;
        return n > 3 ? 2.2 : n > 2 ? 2.85 : narrow ? 3.5 : 4.3;
    }

    place(item) {
        return this.gutter + item * this.perItem;
    }

    // The middle of a lane, and the line on which its reads stand.
    lane(who) {
        const {lanes, u, low} = this, pad = (low ? .14 : .25) * u;
        const top = lanes.top + (who - 1) * lanes.high + pad, high = lanes.high - 2 * pad;
        return {top, high, head: high * (this.low ? .42 : .44), base: top + high * .73};
    }

    put(...shapes) {
        this.shapes.push(...shapes);
    }

    width(words, size = this.letters, weight = BOLD) {
        return wordsWide(words, size * this.u, weight);
    }

    draw() {
        const {run, at, low, n, wide, tall} = this;
        this.drawRows();
        run.memory.filter(({from}) => from <= at).forEach(one => this.drawHeld(one));
        run.operations.filter(({call}) => call <= at).forEach(one => this.drawOperation(one));
        if (this.told) this.drawAnswer(this.told.scans[0]);
        run.steps.forEach(step => step.item <= at && this.drawMark(step));
        this.borrowers.forEach(one => this.drawLoan(one));
        if (this.parted) this.drawParted();
        this.put(...this.above);
        if (this.axis) this.drawAxis();
        return drawn('svg', {width: wide, height: tall, viewBox: `0 0 ${wide} ${tall}`, 'aria-hidden': 'true',
            class: `run ${low ? 'low' : ''} ${n > 2 ? low ? 'tiny' : 'small' : ''}`}, ...this.shapes);
    }

    // What is there before anything happens: the rows and their names.
    drawRows() {
        const {u, band, gutter, wide, end, narrow} = this, room = wide - gutter - end;
        if (!narrow) this.put(text('memory', 0, band.top + band.high * .68, 'name'));
        this.put(box(gutter, band.top, room, band.high, 'track', .35 * u));
        for (let who = 1; who <= this.n; who++) {
            const {top, high} = this.lane(who), y = top + high / 2, r = Math.min(.78 * u, high * .48);
            const x = narrow ? r : .2 * u + r;
            this.put(box(gutter, top, room, high, 'track', .35 * u));
            this.put(who % 2 ? dot(x, y, r, 'who') : box(x - r, y - r, 2 * r, 2 * r, 'who', .25 * u));
            this.put(text(String(who), x, y + .34 * u, 'who-number'));
            if (!narrow) this.put(text('process', x + r + .4 * u, y + .3 * u, 'name'));
        }
    }

    // What memory held, from one write to the next.
    drawHeld({from, to, values}) {
        const {u, band, at, low} = this, words = viewWords(values), size = low ? .9 : 1,
            own = this.width(words, size) + u;
        const left = this.place(from), right = this.place(Math.min(to + 1, at));
        const wide = at === from && !at ? own : Math.max(right - left, 2), fits = wide >= own - .6 * u;
        this.put(box(left + 1, band.top, wide - 2, band.high, 'held', .25 * u, `memory held ${words}`));
        const x = fits ? left + .5 * u : this.place(at) + .45 * u;
        if (fits || to >= at) this.put(text(words, x, band.top + band.high * .7, 'held-words'));
    }

    isWrong(operation) {
        const {event, verdict, misfit} = this.run.order;
        return this.fitsTold && verdict === 'not linearizable' && event <= this.at && operation.call === misfit;
    }

    drawOperation(operation) {
        const {at, u, low} = this, over = isOver(operation, at), {top, high, head, base} = this.lane(operation.process);
        const left = this.place(operation.call - 1) + 1.5, until = over ? operation.end : at;
        const right = this.place(until) - (over ? 1.5 : 0), wide = Math.max(right - left, 2), r = .45 * u;
        const bad = over && this.isWrong(operation), about = `op ${operation.kind} ${bad ? 'bad' : ''}`;
        if (over) this.put(box(left, top, wide, high, about, r));
        else this.put(path(openBox(left, right, top, high, r), about));
        const room = this.drawHead(operation, {left, right, wide, top, head, bad, over});
        for (const scan of operation.scans) {
            if (operation.kind === 'scan') this.drawCollects(scan, base, high, low || this.narrow ? [0, 0] :
                [room.left + .5 * u, room.right - .6 * u]);
            else if (scan.call <= at) this.drawInner(scan, {...room, top, head, high, base});
        }
    }

    // The words of an operation, its answer, and its place in the order; tells where there is room left.
    drawHead(operation, {left, right, wide, top, head, bad, over}) {
        const {u, low} = this, number = this.order.get(operation.call), indent = (number ? 1.85 : .5) * u;
        const call = callWords(operation), all = operation.kind === 'scan' ? [call] :
            [call, call.replace('update ', ''), `= ${operation.value}`];
        const fit = all.find(one => this.width(one) + indent + .4 * u <= wide), fitWide = fit ? this.width(fit) : 0;
        const answer = over ? viewWords(operation.answer) : '';
        let room = right - .4 * u;
        if (answer) {
            const long = `answers ${answer}`, whole = this.width(long) + u +
                (fit ? fitWide + .7 * u + indent : 0) < wide;
            const say = whole ? long : answer, own = this.width(say) + .9 * u, y = top + (low ? .12 : .22) * u;
            const about = bad ? 'bad' : operation.scans[0]?.borrowed ? 'lent' : '';
            room = right - own - .3 * u;
            this.above.push(box(room, y, own, head - (low ? 0 : .12) * u, `pill ${about}`, .3 * u));
            this.above.push(text(say, room + own / 2, top + .12 * u + head * .72, `pill-words ${bad ? 'bad' : ''}`));
        }
        if (fit && (!answer || left + indent + fitWide < room))
            this.put(text(fit, left + indent, top + .1 * u + head * .75, 'op-words'));
        if (number) this.drawNumber(left + .9 * u, top + .1 * u + head * .52, number, head);
        return {left: left + indent + fitWide, right: answer ? room : right};
    }

    // The scan of an update, and what it saw.
    drawInner(scan, {left, right, top, head, high, base}) {
        const {at, u} = this, done = scan.end && scan.end <= at, from = this.place(scan.call - 1);
        const to = this.place(done ? scan.end : at), lends = this.lenders.has(scan.call);
        this.put(box(from, top + head + .05 * u, to - from, high - head - .3 * u, `inner ${lends ? 'lent' : ''}`,
            .3 * u, 'the scan of its own, before it writes'));
        this.drawCollects(scan, base, high, [0, 0]);
        if (!done || !scan.answer || this.narrow || this.low && this.n > 2) return;
        const words = `saw ${viewWords(scan.answer)}`, x = Math.min(to, right - .3 * u);
        if (x - this.width(words, .82) > left + .4 * u)
            this.put(text(words, x, top + .1 * u + head * .74, `saw ${lends ? 'lent' : ''}`));
    }

    // The reads of each double collect, its test, and where that passed the gap; the names of the locals stand in a
    // room.
    drawCollects(scan, y, high, room) {
        const {at, u} = this, tall = Math.min(1.6 * u, high * .42);
        for (const collect of scan.collects) {
            const {reads, test} = collect, gap = test && test.item <= at ? sureGap(scan, collect) : null;
            if (gap) this.put(box(this.place(gap[0]), y - tall / 2, this.place(gap[1]) - this.place(gap[0]), tall,
                'gap', .1 * u,
                'the gap: the first collect is read, the second is not yet; nobody wrote a word that was read'));
            const last = reads.at(-1).into, two = reads.some(({into}) => into !== last);
            for (const second of [false, true])
                this.drawReads(collect, reads.filter(({into}) => (two && into === last) === second),
                    {kind: second ? 'b' : two ? 'a' : 'a only', y, high, room});
            if (test && test.item <= at) this.drawTest(this.place(test.item), y, test);
        }
    }

    // The reads of one collect, of each word the last one; earlier ones, of a handshake, are faint.
    drawReads({reads: all}, reads, {kind, y, high, room: [least, most]}) {
        const {at, u, run} = this, past = reads.filter(({item}) => item <= at);
        const isLast = one => !reads.some(({word, item}) => word === one.word && item > one.item),
            own = past.filter(isLast);
        const r = Math.min(.58 * u, high * .17, Math.max(this.perItem * .5, 2.6)), digits = r >= .45 * u;
        for (const {item} of past.filter(one => !isLast(one))) this.put(dot(this.place(item), y, r * .55,
            'read faint'));
        if (!own.length) return;
        const [first, last] = [this.place(own[0].item), this.place(own.at(-1).item)], has = one =>
            run.steps[one.item - 1].has;
        this.put(rule(first, y, last, y, 'collect'));
        const middle = Math.max((first + last) / 2, least);
        if (middle < Math.min(most, last + u))
            this.above.push(text(own[0].into, middle, y - r - .2 * u, 'collect-name'));
        for (const one of own) {
            const before = kind === 'b' && all.findLast(({word, into}) => word === one.word && into !== one.into);
            const other = this.differTold && before && isOther(has(before), has(one)) ? 'other' : '';
            const x = this.place(one.item);
            this.put(dot(x, y, r, `read ${kind} ${other}`,
                title(`item ${one.item}: reads r[${one.word}] into ${one.into}`)));
            if (digits) this.put(text(String(one.word), x, y + .27 * u, `read-word ${kind} ${other}`));
        }
    }

    drawTest(x, y, {passed, item}) {
        const d = Math.max(Math.min(.42 * this.u, this.perItem * .6), 3.2), way = passed ?
            `M${x - d} ${y}L${x - d * .3} ${y + d * .8}L${x + d} ${y - d * .9}` :
            crossOf(x, y, d * .8);
        const words = `item ${item}: a test that ${passed ? 'passes' : 'fails'}`;
        this.put(path(way, `test ${passed ? 'passed' : 'failed'}`, title(words)));
    }

    // What an item leaves in the lane of its process: a write, a view that it published, a crash or a trap.
    drawMark({item, process, does, word, values, view}) {
        const x = this.place(item), {u} = this, {base: y} = this.lane(process), d = .45 * u;
        if (does === 'wrote') this.drawWrite(x, y, `item ${item}: writes r[${word}]; memory ${viewWords(values)}`);
        if (does === 'published')
            this.put(dot(x, y, .36 * u, 'published', title(`item ${item}: publishes its view ${viewWords(view)}`)));
        if (does === 'crashed')
            this.put(path(crossOf(x, y, d), 'crash',
                title(`item ${item}: crashes`)));
        if (does === 'trapped')
            this.put(path(`M${x} ${y - d}l${d} ${1.8 * d}h${-2 * d}z`, 'trap', title(`item ${item}: traps`)));
    }

    drawWrite(x, y, words) {
        const {u, band} = this, top = band.top + band.high;
        this.put(path(`M${x} ${y}V${top + .42 * u}`, 'write'));
        this.put(path(`M${x} ${top + .06 * u}l${.3 * u} ${.5 * u}h${-.6 * u}z`, 'write-head'));
        this.put(dot(x, y, .36 * u, 'write-dot', title(words)));
    }

    // An arrow from the scan that saw the view to the item that takes it.
    drawLoan({process, borrowed}) {
        const lender = this.run.byCall.get(borrowed.scan), {u} = this;
        if (!lender) return;
        const at = (item, who) => [this.place(item), this.lane(who).top + this.lane(who).high * .62];
        const [x1, y1] = at(lender.end, lender.process), [x2, y2] = at(borrowed.item, process), up = y2 < y1 ? -1 : 1;
        const bend = Math.max(Math.abs(x2 - x1) * .5, 2 * u), d = .5 * u;
        this.put(path(`M${x1} ${y1}C${x1 + bend} ${y1} ${x2} ${y2 - up * 2.2 * u} ${x2} ${y2 - up * .2 * u}`, 'loan'));
        this.put(path(`M${x2} ${y2 + up * .35 * u}l${-d * .75} ${-up * d * 1.3}h${d * 1.5}z`, 'loan-head'));
        this.put(dot(x1, y1, .3 * u, 'loan-head'));
    }

    // Of some words the first that have room, between two places.
    label(words, from, to, className) {
        const one = words.find(each => this.width(each, .85) + this.u < to - from);
        if (one) this.above.push(text(one, (from + to) / 2, this.fits.top + this.fits.high * .68, className));
    }

    // Where the answer fits: all moments of the scan at which memory held it, and of these the one that it is sure of.
    drawAnswer(scan) {
        const {fits, narrow} = this, view = viewWords(scan.answer);
        if (!narrow) this.put(text('answer', 0, fits.top + fits.high * .68, 'name'));
        if (!scan.fits.length) return this.drawNever(scan, view);
        for (const span of scan.fits) this.drawFit(span, scan, view);
        return this.drawSure(scan);
    }

    drawNever(scan, view) {
        const {fits, u} = this, [from, to] = [this.place(scan.call), this.place(scan.end)];
        this.put(box(from, fits.top, to - from, fits.high, 'never', .25 * u));
        this.label([`memory was never ${view} in this scan`, `never ${view} in this scan`, `never ${view} here`,
            'never'], from, to, 'never-words');
        for (const [first, last] of scan.outside.filter(([one]) => one < scan.call)) {
            const [left, right] = [this.place(first), this.place(Math.min(last + 1, scan.call))];
            this.put(box(left, fits.top, right - left, fits.high, 'outside', .25 * u));
            this.label([`memory was ${view} only here, before the scan`, `${view} only here, before`, 'before'], left,
                right, 'outside-words');
        }
    }

    drawFit([first, last], scan, view) {
        const {fits, u} = this, {sure} = scan, lender = this.lenderOf(scan);
        const [from, to] = [this.place(first), this.place(Math.min(last + 1, scan.end))];
        const here = sure && sure.from >= first && sure.to <= last + 1 ? this.place((sure.from + sure.to) / 2) : 0;
        this.put(box(from, fits.top, to - from, fits.high, 'fits', .25 * u, `${view} fits: items ${first} to ${last}`));
        let rooms = here ? [[from, here - .6 * u], [here + .6 * u, to]] : [[from, to]];
        if (lender && lender.call <= last && lender.end > first) {
            const [left, right] = [Math.max(this.place(lender.call - 1), from), Math.min(this.place(lender.end), to)];
            this.put(box(left, fits.top + 1, right - left, fits.high - 2, 'lender', .2 * u, 'the scan of the lender'));
            rooms = [[from, left], [right, to]];
            if (here) this.label(['lender\u2019s scan', 'lender'], left, here - .5 * u, 'lender-words');
        }
        const [left, right] = rooms.sort((a, b) => b[1] - b[0] - a[1] + a[0])[0];
        this.label([`${view} fits: memory held it here`, `${view} fits here`, `${view} fits`, 'fits'], left, right,
            'fits-words');
    }

    // The scan whose double collect read the answer, where that is not the scan itself.
    lenderOf({call, borrowed, sure}) {
        return borrowed && this.run.byCall.get(sure && sure.scan !== call ? sure.scan : borrowed.scan);
    }

    // The moment that the scan can be sure of, in the gap of the double collect that pins it down.
    drawSure({sure}) {
        if (!sure) return;
        const {fits, u} = this, x = this.place((sure.from + sure.to) / 2), middle = fits.top + fits.high / 2,
            d = .62 * u;
        const {base} = this.lane(this.run.byCall.get(sure.scan)?.process ?? 1);
        this.put(path(`M${x} ${middle + d}V${base - .8 * u}`, 'sure-line'));
        this.put(path(`M${x} ${middle - d}l${d} ${d}l${-d} ${d}l${-d} ${-d}z`, 'sure',
            title(`items ${sure.from} to ${sure.to}: the moment that the scan can be sure of`)));
    }

    drawParted() {
        const {u, band, tall} = this, x = this.place(this.parted - .5);
        this.put(path(`M${x} ${band.top}V${tall - (this.axis ? 1.3 : .2) * u}`, 'parted'));
        if (this.heading) this.put(text('here the runs part', x, .85 * u, 'parted-words'));
    }

    // The place of an operation in the order that explains the answers.
    drawNumber(x, y, number, head) {
        const {u} = this;
        this.put(dot(x, y, Math.min(.58 * u, head * .56), 'order'),
            text(String(number), x, y + .29 * u, 'order-number'));
    }

    drawAxis() {
        const {u, scale, tall, low} = this, most = this.wide / (5 * u);
        const step = [1, 2, 5, 10, 20, 50, 100, 200].find(each => scale / each <= most) ?? 500;
        for (let item = 0; item <= scale; item += step) {
            const x = this.place(item);
            this.put(rule(x, tall - 1.25 * u, x, tall - 1.05 * u, 'tick'));
            if (low || Math.abs(x - this.place(this.at)) > 1.7 * u) this.put(text(String(item), x, tall - .2 * u,
                'number'));
        }
    }
}

const crossOf = (x, y, d) => `M${x - d} ${y - d}L${x + d} ${y + d}M${x + d} ${y - d}L${x - d} ${y + d}`;

// A scan that borrowed its view, and those that it borrowed it through.
function borrowersOf(run, scan) {
    const found = [];
    for (let one = scan; one?.borrowed && !found.includes(one); one =
        run.byCall.get(one.borrowed.scan)) found.push(one);
    return found;
}

// A box that is open on the right.
const openBox = (left, right, top, high, r) =>
    `M${right} ${top}H${left + r}q${-r} 0 ${-r} ${r}v${high - 2 * r}q0 ${r} ${r} ${r}H${right}`;

const isOther = (one, other) => ['seq', 'toggle', 'id', 'hands'].some(name => String(one[name]) !==
    String(other[name]));

// The picture: its root, the place of an item, and the item of a place.
export function runChart(told) {
    const chart = new Chart(told), root = chart.draw();
    return {root, place: item => chart.place(item), item: x => Math.round((x - chart.gutter) / chart.perItem)};
}
