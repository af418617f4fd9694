#!/usr/bin/env python3
"""Goes through every lesson, screen by screen: nothing is cut, nothing scrolls where a desk has room, letters can be read, keys lead on.

    page/tests/lessons.py               the tests
    page/tests/lessons.py FOLDER [K ..] pictures of all screens, of these lessons, to be looked at
"""
import json
import os
import sys

sys.dont_write_bytecode = True
import browser  # noqa: E402
from browser import Failed  # noqa: E402
from teaching import CONTRAST  # noqa: E402

DESKS = {"1280x720": {"width": 1280, "height": 720}, "1920x1080": {"width": 1920, "height": 1080}}
SIZES = {**DESKS, "390x844": {"width": 390, "height": 844, "mobile": True}}
# What lies beyond an edge of the window, what scrolls, and words that have no room in their box.
CUT = """(desk => { const all = [...document.querySelectorAll('#stage *')].filter(e => e.checkVisibility() && !e.closest('.unseen'));
    const beyond = all.filter(e => { const r = e.getBoundingClientRect(); return r.width > 1 && (r.right > innerWidth + 1 || r.left < -1 ||
        desk && (r.bottom > innerHeight + 1 || r.top < -1)) && !e.closest('#stage-cursor'); });
    const scrolls = all.filter(e => !(e instanceof SVGElement) && getComputedStyle(e).overflowX !== 'visible' && e.clientWidth > 1 &&
        (e.scrollWidth > e.clientWidth + 1 || desk && e.scrollHeight > e.clientHeight + 1) && !e.matches('.step-lines code, #stage-menu'));
    const full = [...document.querySelectorAll('#stage .word, #stage td.answer > span, #stage .option, #stage-next')].filter(e =>
        e.checkVisibility() && (e.scrollWidth > e.clientWidth + 1 || e.scrollHeight > e.clientHeight + 1));
    const drawn = [...document.querySelectorAll('#stage svg.run text')].filter(e => e.checkVisibility() &&
        e.getBoundingClientRect().right > e.ownerSVGElement.getBoundingClientRect().right + 1);
    const foot = document.getElementById('stage-foot').getBoundingClientRect().top, over = desk ? [...document.querySelectorAll(
        '#stage-collects, #stage-step, #stage-compare svg, #stage-legend')].filter(e => e.checkVisibility() && [...e.children, e].some(one =>
        one.getBoundingClientRect().bottom > foot + 1)) : [];
    return [...beyond, ...scrolls, ...full, ...drawn, ...over].map(e => e.id || `${e.tagName}.${e.getAttribute('class')}`); })"""


class Lessons:
    def __init__(self, tab):
        self.tab = tab
        self.all = {int(title.split(".")[0]): k for k, title in tab.run(
            "data.choices.map((one, k) => [k, one.title]).filter(([k]) => isStory(k))")}

    def screens(self, number):
        return self.tab.run(f"screensOf(data.choices[{self.all[number]}]).length")

    def open(self, number, screen):
        """A screen of a lesson, at rest."""
        k = self.all[number]
        self.tab.run(f"stage.on && stage.idea === {k} && stage.runs.lesson ? showScreen({screen}, false) : openStory({k}, {screen})")
        self.tab.settled()
        self.tab.run("new Promise(done => requestAnimationFrame(() => requestAnimationFrame(done)))")

    def text(self, selector):
        return self.tab.run(f"document.querySelector({json.dumps(selector)})?.innerText ?? ''")


def look(tab, how, dark=False):
    tab.look(how["width"], how["height"], dark, how.get("scale", 1), how.get("mobile", False))


def try_sizes(lessons, count):
    """Every screen of every lesson, in three sizes."""
    for name, how in SIZES.items():
        look(lessons.tab, how)
        for number in lessons.all:
            found = {}
            for screen in range(lessons.screens(number)):
                lessons.open(number, screen)
                cut = lessons.tab.run(f"{CUT}({json.dumps(name in DESKS)})")
                if cut:
                    found[screen + 1] = cut[:4]
            count.check(f"{name}: lesson {number}: nothing is cut, and nothing scrolls", not found, found)
    look(lessons.tab, DESKS["1280x720"])


def try_contrast(lessons, count):
    for dark in (False, True):
        look(lessons.tab, DESKS["1280x720"], dark)
        low = []
        for number in lessons.all:
            for screen in range(0, lessons.screens(number), 3):
                lessons.open(number, screen)
                low += lessons.tab.run(CONTRAST)[1]
        count.check(f"contrast, {'dark' if dark else 'light'}: all words of the lessons", not low, sorted(set(low))[:6])
    look(lessons.tab, DESKS["1280x720"])


def pictures(lessons, folder, numbers):
    os.makedirs(folder, exist_ok=True)
    for name, how in SIZES.items():
        for dark in (False, True):
            look(lessons.tab, how, dark)
            for number in numbers or lessons.all:
                for screen in range(lessons.screens(number)):
                    lessons.open(number, screen)
                    lessons.tab.picture(os.path.join(folder, f"{number:02}-{screen + 1:02}-{name}-{'dark' if dark else 'light'}.png"),
                                        whole=name not in DESKS)


def main():
    browser.need()
    count = browser.Count()
    with browser.started() as running:
        lessons = Lessons(running.tab(bench=False))
        if len(sys.argv) > 1:
            return pictures(lessons, sys.argv[1], [int(one) for one in sys.argv[2:]])
        for trial in (try_sizes, try_contrast):
            try:
                trial(lessons, count)
            except Failed as failed:
                count.check(trial.__name__, False, str(failed)[:300])
        wrong = [str(one["params"])[:300] for one in list(running.events.queue) if one["method"] == "Runtime.exceptionThrown"]
        count.check("no script failed", not wrong, wrong[:3])
    count.finish()


if __name__ == "__main__":
    main()
