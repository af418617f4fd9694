// What the marks of the picture mean, of those that are drawn by now.
import {make} from './elements.js';
import {box, dot, drawn, path} from './drawing.js';

const MARKS = [
    ['read a', 'first collect', '.read.a:not(.only)', 'a read of the first collect; the digit names the register'],
    ['read a', 'a read', '.read.a.only', 'a read of the collect; the digit names the register'],
    ['read b', 'second collect', '.read.b:not(.other)', 'a read of the second collect'],
    ['read b other', 'it differs', '.read.other', 'somebody wrote this word between its two reads'],
    ['test passed', 'all equal', '.test.passed', 'the test passes'],
    ['test failed', 'not equal', '.test.failed', 'the test fails: something was written between'],
    ['gap', 'the gap', '.gap',
        'the first collect is read, the second is not yet, and no word that was read is written'],
    ['inner', 'an update\u2019s scan', '.inner:not(.lent)',
        'each update scans first, and writes what it saw beside its value'],
    ['write-dot', 'a write', '.write-dot', 'from here on memory is another one'],
    ['published', 'it shows its view', '.published', 'the process writes its view, for others to borrow'],
    ['inner lent', 'the lender\u2019s scan', '.inner.lent', 'the scan whose view is borrowed'],
    ['fits', 'the answer fits', '.fits', 'moments of the scan at which memory held its answer'],
    ['never', 'it never fits', '.never', 'the scan, and no moment of it at which memory held its answer'],
    ['sure', 'the sure moment', '.sure', 'the moment that the double collect pins down'],
    ['crash', 'a crash', '.crash', 'the process does nothing more'],
    ['trap', 'a trap', '.trap', 'the process cannot go on'],
];
const TICK = 'M3 9L7 14L15 4', CROSS = 'M4 4L14 14M14 4L4 14';
const SHAPES = {
    read: name => dot(9, 9, 6.5, name), 'write-dot': name => dot(9, 9, 5, name), published: name => dot(9, 9, 5, name),
    test: name => path(name.endsWith('passed') ? TICK : CROSS, name), crash: name => path(CROSS, name),
    sure: name => path('M9 1L17 9L9 17L1 9z', name), trap: name => path('M9 2L17 16H1z', name),
};

export function legendOf(chart) {
    return MARKS.filter(([, , selector]) => chart.querySelector(selector)).map(([name, words, , title]) => {
        const shape = (SHAPES[name.split(' ')[0]] ?? (() => box(1, 3, 16, 12, name, 3)))(name);
        const sign = drawn('svg', {class: 'run', width: 18, height: 18, viewBox: '0 0 18 18', 'aria-hidden': 'true'},
            shape);
        return make('span', {className: 'mark-told', title}, sign, words);
    });
}
