// Shapes of a picture, and how wide words are.
import {make} from './elements.js';

const SVG = make('div', {innerHTML: '<svg></svg>'}).firstElementChild.namespaceURI;
const gauge = document.createElement('canvas').getContext('2d');

/** @param {string} tag @param {any} told @param {...any} children */
export function drawn(tag, told = {}, ...children) {
    const element = document.createElementNS(SVG, tag);
    for (const [name, value] of Object.entries(told)) element.setAttribute(name, String(value));
    element.append(...children);
    return element;
}

export const title = words => drawn('title', {}, words);
export const text = (words, x, y, className) => drawn('text', {x, y, class: className}, words);
export const path = (d, className, ...children) => drawn('path', {d, class: className}, ...children);
export const dot = (cx, cy, r, className, ...children) => drawn('circle', {cx, cy, r, class: className}, ...children);
export const rule = (x1, y1, x2, y2, className) => drawn('line', {x1, y1, x2, y2, class: className});

export function box(x, y, width, height, className, round, words = '') {
    const wide = Math.max(width, 1), rx = Math.min(round, wide / 2);
    return drawn('rect', {x, y, width: wide, height, rx, class: className}, ...words ? [title(words)] : []);
}

// How wide words are, in letters of so many pixels.
export function wordsWide(words, size, weight = 400) {
    gauge.font = `${weight} ${size}px ${getComputedStyle(document.body).getPropertyValue('--sans')}`;
    return gauge.measureText(words).width;
}
