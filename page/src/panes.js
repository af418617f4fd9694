// How the page is laid out: panes whose edges can be moved, a mode for a projector, and play.
import {$, say, within} from './elements.js';
import {keep, kept} from './drafts.js';
import {goTo, state} from './state.js';
import {fitTimeline} from './timeline.js';

const PANES = 'snaplab.panes', EDGE_STEP = 4, LEAST = 15, MOST = 70, SLOWEST = 16;
const EDGES = {'edge-left': ['--left', 29], 'edge-right': ['--right', 30], 'edge-middle': ['--upper', 50]};
const sizes = {};

function setEdge(name, share) {
    const [variable] = EDGES[name], size = within(Math.round(share * 10) / 10, LEAST, MOST);
    sizes[name] = size;
    document.body.style.setProperty(variable, `${size}%`);
    $(name).ariaValueNow = String(Math.round(size));
}

// Each edge is a separator: it is dragged, or moved by arrow keys; a double click puts it back.
export function watchPanes() {
    try {
        Object.assign(sizes, JSON.parse(kept(PANES) ?? '{}'));
    } catch { /* what is kept is of another page */ }
    for (const [name, [, usual]] of Object.entries(EDGES)) {
        const edge = $(name), upright = edge.ariaOrientation === 'vertical';
        if (typeof sizes[name] === 'number') setEdge(name, sizes[name]);
        else edge.ariaValueNow = String(usual);
        const moved = share => {
            setEdge(name, share);
            keep(PANES, JSON.stringify(sizes));
        };
        edge.onpointerdown = ({pointerId}) => edge.setPointerCapture(pointerId);
        edge.onpointermove = ({buttons, clientX, clientY}) => {
            if (!buttons) return;
            const box = edge.parentElement.getBoundingClientRect();
            const share = upright ? (clientX - box.left) / box.width : (clientY - box.top) / box.height;
            moved(100 * (name === 'edge-right' ? 1 - share : share));
        };
        edge.onkeydown = event => {
            const way = {ArrowLeft: -1, ArrowUp: -1, ArrowRight: 1, ArrowDown: 1}[event.key] * EDGE_STEP;
            if (!way) return;
            event.preventDefault();
            event.stopPropagation();
            moved((sizes[name] ?? usual) + (name === 'edge-right' ? -way : way));
        };
        edge.ondblclick = () => moved(usual);
    }
}

// Large type, and what is not looked at put away.
export function present() {
    const on = document.body.classList.toggle('present');
    $('present').ariaPressed = String(on);
    fitTimeline();
    say(on ? 'Large type: f, or the button, goes back.' : '');
    if (on && document.fullscreenEnabled) document.documentElement.requestFullscreen().catch(() => {});
    else if (document.fullscreenElement) document.exitFullscreen();
}

// Play: an item after another, as fast as is chosen, up to the end.
const playing = {timer: 0};
const showPlay = () => {
    $('play').textContent = playing.timer ? 'Pause' : 'Play';
    $('play').ariaPressed = String(Boolean(playing.timer));
};

export function play() {
    if (playing.timer) return endPlay();
    if (state.at >= (state.report?.total ?? 0)) goTo(0);
    const next = async () => {
        const at = state.at, begun = performance.now();
        if (at >= (state.report?.total ?? 0) || state.refusal) return endPlay();
        await goTo(at + 1);
        if (!playing.timer || state.at !== at + 1) return endPlay();
        const pause = 1000 / Number($('speed').value) - (performance.now() - begun);
        playing.timer = setTimeout(next, Math.max(pause, SLOWEST));
    };
    playing.timer = setTimeout(next, 0);
    showPlay();
}

export function endPlay() {
    clearTimeout(playing.timer);
    playing.timer = 0;
    showPlay();
}

// A low or narrow window has a low time line.
export function watchSize() {
    const low = matchMedia('(max-height: 520px), (max-width: 699px)');
    const told = () => document.body.classList.toggle('small', low.matches);
    low.onchange = () => {
        told();
        fitTimeline();
    };
    told();
}
