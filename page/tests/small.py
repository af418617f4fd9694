#!/usr/bin/env python3
"""The page on a phone and at 200 %: nothing is cut, all that is pressed or read has a name, and keys lead to all of it."""
import sys

sys.dont_write_bytecode = True
import browser  # noqa: E402
from controls import FIRST_IDEA, Page, attempt  # noqa: E402

SIZES = {"a phone": {"width": 390, "height": 844, "scale": 2, "mobile": True}, "1280 x 720 at 200 %": {"width": 640, "height": 360, "scale": 2},
         "1440 x 900 at 200 %": {"width": 720, "height": 450, "scale": 2}}
HEADER = ["menu", "more", "open", "save", "copy", "link", "frame", "picture", "make", "compare", "present", "words", "trust", "keys"]
CONTROLS = ["home", "rrun", "back", "on", "run", "end", "play", "speed", "at", "closer", "wider", "fit", "timeline"]
# What is beyond an edge of the window, or scrolls sideways; a picture alone may be wider.
BEYOND = """[...document.querySelectorAll('body *')].filter(e => e.checkVisibility() && !e.closest('canvas, figure, .back, #cursor, #future'))
    .filter(e => { const r = e.getBoundingClientRect(), s = getComputedStyle(e); return r.width > 1 && (r.right > innerWidth + 1 || r.left < -1 ||
    s.overflowX !== 'visible' && e.scrollWidth > e.clientWidth + 1 && e.clientWidth > 1); }).map(e => e.id || e.className || e.tagName)"""
NAMED = ("button", "textbox", "combobox", "listbox", "slider", "list", "table", "group", "dialog", "region", "separator", "progressbar")


def shown_in(page, how):
    page.tab.look(**how)
    page.run("document.body.classList.contains('more') && document.getElementById('more').click()")
    page.run("scrollTo(0, 0)")


def try_edges(page, count):
    page.choose(FIRST_IDEA + 8)
    page.key("End")
    for name, how in SIZES.items():
        shown_in(page, how)
        count.check(f"{name}: nothing is cut at an edge", page.tab.when(f"!{BEYOND}.length"), page.run(BEYOND)[:6])
        page.click("#more")
        seen = page.run(f"{HEADER + CONTROLS}.filter(id => {{ const e = document.getElementById(id), r = e.getBoundingClientRect();"
                        " return !e.checkVisibility() || r.left < 0 || r.right > innerWidth; })")
        whole = not seen and page.tab.when(f"!{BEYOND}.length")
        count.check(f"{name}: More shows all buttons, each whole", whole, [seen, page.run(BEYOND)[:6]])
        told = page.run("document.getElementById('more').getAttribute('aria-expanded')")
        page.click("#more")
        count.check(f"{name}: and puts them away", told == "true" and not page.shown("#keys"), told)


# A page that is told of no size but the first one.
DEAF = """window.ResizeObserver = class extends ResizeObserver {
    constructor(told) { let count = 0; super((...all) => count++ || told(...all)); }
};"""


def try_deaf(page, count, running):
    """Nothing is beyond an edge before the page has been told of its size, either."""
    tab = running.tab(address="about:blank", wait=False)
    tab.ask("Page.addScriptToEvaluateOnNewDocument", source=DEAF)
    tab.open("file://" + browser.PAGE)
    deaf = Page(tab)
    deaf.choose(FIRST_IDEA + 8)
    deaf.key("End")
    for width, height in ((390, 844), (1440, 900)):
        tab.ask("Emulation.setDeviceMetricsOverride", width=width, height=height, deviceScaleFactor=1, mobile=False)
        told = tab.run("(() => { const box = document.getElementById('timeline').getBoundingClientRect(), c = document.getElementById('cursor')"
                       ".getBoundingClientRect(); return [line.wide, innerWidth, box.right - c.right]; })()")
        count.check(f"{width} x {height}: the position is at its place at once", told[0] not in (width, told[1]) and 10 <= told[2] <= 12 and
                    "timeline" not in tab.run(BEYOND), told)
    tab.close()


def try_lower(page, count):
    """Lanes are as high as the window and the mode have them, at once."""
    page.tab.look(1280, 720)
    page.choose(FIRST_IDEA + 2)
    height = "document.querySelector('#timeline canvas').getBoundingClientRect().height"
    high = page.run(height)
    page.tab.look(1280, 500)
    count.check("a lower window has lower lanes", page.tab.when(f"{height} < {high - 10}"), [high, page.run(height)])
    page.tab.look(1280, 720)
    count.check("and a higher one has higher ones again", page.tab.when(f"{height} === {high}"), [high, page.run(height)])
    page.click("#present")
    count.check("so has large type", page.tab.when(f"{height} > {high + 10}"), [high, page.run(height)])
    page.click("#present")
    count.check("and no more without", page.tab.when(f"{height} === {high}"), [high, page.run(height)])


def try_words(page, count):
    """The position in words is there whole where a scan has ended."""
    page.choose(FIRST_IDEA + 2)
    page.key("End")
    for name, how in SIZES.items():
        shown_in(page, how)
        box = ("(() => { const e = document.getElementById('where'), r = e.getBoundingClientRect(), b = document.getElementById('controls')"
               ".getBoundingClientRect(); return [r.right <= innerWidth, e.scrollWidth <= e.clientWidth, r.bottom <= b.bottom + 1]; })()")
        count.check(f"{name}: the position in words is whole", page.tab.when(f"{box}.every(Boolean)") and "view of process 2" in page.text("#where"),
                    [page.run(box), page.text("#where")])


def try_note(page, count):
    """What the page says about work of the last visit covers no control: a click goes through it, but what it covers cannot be read."""
    page.choose(FIRST_IDEA + 2)
    covered = ("(() => { const n = document.getElementById('note').getBoundingClientRect(); return [n.width > 100 && n.left >= 0 && n.right <= innerWidth"
               " && n.top >= 0, ...[...document.querySelectorAll('button, select, input, #timeline')].filter(e => { const r = e.getBoundingClientRect(); "
               "return e.checkVisibility() && r.left < n.right && r.right > n.left && r.top < n.bottom && r.bottom > n.top; }).map(e => e.id || "
               "e.textContent)]; })()")
    wide = {f"{width} x {height}": {"width": width, "height": height} for width, height in ((1280, 720), (1440, 900), (800, 600))}
    for name, how in {**wide, "420 x 800": {"width": 420, "height": 800, "mobile": True}, **SIZES}.items():
        shown_in(page, how)
        page.run("say('This is your work of the last visit; the lessons are where they were.')")
        count.check(f"{name}: a note covers no control", page.tab.when(f"{covered}.join() === 'true'"), page.run(covered))
    page.run("say('')")


def try_keys(page, count):
    """The Tab key leads to each button."""
    page.choose(FIRST_IDEA + 2)
    for name, how in SIZES.items():
        shown_in(page, how)
        page.run("document.activeElement.blur()")
        page.run("document.getElementById('menu').focus()")
        found = {"menu"}
        while "more" not in found and len(found) < 8:
            page.tab.key("Tab")
            found.add(page.run("document.activeElement.id"))
        page.tab.key("Enter")
        for _ in range(150):
            page.tab.key("Tab")
            found.add(page.run("document.activeElement.id"))
            if "timeline" in found:     # the last one: from there the key may lead out of the page
                break
        missing = [one for one in HEADER + CONTROLS if one not in found]
        count.check(f"{name}: the Tab key leads to all buttons", not missing, missing)


def try_names(page, count):
    page.choose(FIRST_IDEA + 5)
    page.key("End")
    page.tab.ask("Accessibility.enable")
    for name, how in SIZES.items():
        shown_in(page, how)
        nodes = page.tab.ask("Accessibility.getFullAXTree")["nodes"]
        roles = [(one["role"]["value"], one.get("name", {}).get("value", "")) for one in nodes if not one.get("ignored")]
        nameless = [role for role, said in roles if role in NAMED and not said]
        count.check(f"{name}: each part has a name", len(roles) > 100 and not nameless, nameless[:5])
    page.tab.ask("Accessibility.disable")


def try_lanes(page, count):
    """Of twelve processes that of the last item has its lane in sight."""
    page.choose(0)
    page.write("schedule", "shape 12 12\n" + "".join(f"{k} scan\n" for k in range(1, 13)))
    page.leave()
    for name, how in SIZES.items():
        shown_in(page, how)
        seen = []
        for item in (12, 1, 7):
            page.run(f"goTo({item})")
            page.tab.settled()
            seen.append(page.tab.when(f"(() => {{ const b = document.getElementById('timeline'), top = 18 + ({item} - 1) * line.high; return"
                                      " b.scrollTop <= top && top + line.high <= b.scrollTop + b.clientHeight; })()"))
        count.check(f"{name}: the lane of the process that moved is in sight", seen == [True] * 3, seen)
        tall = page.run("['#cursor', 'canvas'].map(s => document.querySelector(`#timeline ${s}`).getBoundingClientRect().height)")
        count.check(f"{name}: the position goes through all lanes", tall[0] == tall[1] > 12 * 12, tall)


def try_many(page, count):
    """The registers of twelve processes leave the verdicts in sight."""
    page.choose(0)
    page.write("schedule", "shape 12 12\n" + "".join(f"{k} scan\n" for k in range(1, 13)) + "".join(f"{k}*60\n" for k in range(1, 13)))
    page.leave()
    page.key("End")
    inside = ("(() => { const edge = document.querySelector('footer').getBoundingClientRect().top, box = id => document.querySelector(id)"
              ".getBoundingClientRect(); return [box('#run-verdict').bottom <= edge, box('#verdicts button').bottom <= edge, box('#memory').height >"
              " 80, document.getElementById('memory').scrollHeight > document.getElementById('memory').clientHeight]; })()")
    for name, how in (("1280 x 720", {"width": 1280, "height": 720}), ("1440 x 900", {"width": 1440, "height": 900})):
        page.tab.look(**how)
        count.check(f"{name}: the verdicts of twelve processes are in sight", page.tab.when(f"{inside}.slice(0, 3).every(Boolean)"), page.run(inside))
    for name, how in SIZES.items():
        shown_in(page, how)
        share = "document.getElementById('memory').getBoundingClientRect().height / innerHeight"
        count.check(f"{name}: their registers take less than half of the window", page.tab.when(f"{share} < .5"), page.run(share))
    page.tab.look(1280, 720)
    lines = "document.querySelector('header').getBoundingClientRect().height"
    count.check("at 1280 x 720 the buttons are in one line", page.run(lines) < 50, page.run(lines))


def try_values(page, count):
    """The values are written whole, however many lanes there are."""
    page.tab.look(1280, 720)
    page.choose(2)
    ink = []
    for n in (2, 12):
        page.write("schedule", f"shape {n} 2\n1 scan\n1\n")
        page.leave()
        page.key("End")
        ink.append(page.run("[...document.querySelector('#timeline canvas').getContext('2d').getImageData(47, 0, 60, 17).data].join()"))
    count.check("the values are not cut with twelve lanes", ink[0] == ink[1] and len(set(ink[0].split(","))) > 4)


def main():
    browser.need()
    count = browser.Count()
    with browser.started() as running:
        page = Page(running.tab())
        for trial in (try_edges, try_words, try_note, try_keys, try_names, try_lanes, try_many, try_values, try_lower):
            attempt(trial, count, page)
        attempt(try_deaf, count, page, running)
        wrong = [str(one["params"])[:300] for one in list(running.events.queue) if one["method"] == "Runtime.exceptionThrown"]
        count.check("no script failed", not wrong, wrong[:3])
    count.finish()


if __name__ == "__main__":
    main()
