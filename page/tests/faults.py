#!/usr/bin/env python3
"""The lesson mode by keys, for those who listen, on paper and without a script; and faults that the page has had, each by its name."""
import glob
import os
import re
import sys
import tempfile

sys.dont_write_bytecode = True
import browser  # noqa: E402
from browser import TOP  # noqa: E402
from controls import FIRST_IDEA, Page, attempt, spoken  # noqa: E402
from lessons import Lessons  # noqa: E402

LARGEST = 1300000


def lesson(running, words, **how):
    return Page(running.tab(address=f"file://{browser.PAGE}#{words}", bench=False, **how))


def try_keys(page, count, running):
    """One key leads from the first screen of a lesson to the next lesson."""
    shown = lesson(running, "lesson=1&screen=1")
    seen, titles = [], []
    for _ in range(40):
        shown.tab.key(" ")
        shown.tab.settled()
        seen.append(shown.run("stage.k"))
        titles.append(shown.text("#stage-title"))
        if shown.text("#stage-menu").startswith("2."):
            break
    count.check("one key leads from screen to screen, and to the next lesson", seen[-1] == 0 and sorted(set(seen[:-1])) == list(range(1, 13)), seen)
    count.check("and each screen says something else than the one before", all(one != other for one, other in zip(titles, titles[1:])), titles)
    shown.run("openStory(stage.idea, 0)")
    shown.tab.settled()
    shown.key("ArrowRight", "ArrowLeft")
    count.check("and back", shown.run("stage.k") == 0)
    ask = shown.run("stage.screens.findIndex(one => one.kind === 'ask')")
    shown.run(f"showScreen({ask}, false)")
    shown.tab.settled()
    shown.key("2")
    count.check("a digit answers a question", shown.run("stage.chosen.size") == 1 and shown.run("stage.k") == ask + 1, shown.text("#stage-told"))
    count.check("and how the guess came out is told", "you said" in shown.text(".kicker").lower(), shown.text(".kicker"))
    shown.key("v")
    bench = shown.shown("main") and not shown.shown("#stage")
    at = shown.run("state.at === stage.at")
    shown.key("v")
    count.check("v leads to the workbench, at the same item, and back", bench and at and shown.shown("#stage"))
    shown.key("o")
    count.check("o lists the lessons", shown.shown("#lessons"))
    shown.tab.key("Escape")
    shown.tab.close()


def try_listening(page, count, running):
    shown = lesson(running, "lesson=3&screen=12")
    shown.tab.ask("Accessibility.enable")
    told = spoken(shown.tab)
    unnamed = [role for role, name, *_ in told if role in ("button", "slider", "table", "log", "group", "list", "img") and not name]
    count.check("every part of a lesson has a name", not unnamed, unnamed[:5])
    lines = shown.run("[...document.querySelectorAll('#stage-heard li')].map(e => e.textContent)")
    count.check("the picture is told in words, item by item", len(lines) == 64 and lines[23] == "Step 24: Process 2 writes r[2] = 5."
                and lines[63] == "Step 64: Process 1 answers 0 5.", lines[23:24])
    shown.key(",")
    count.check("and no item is told that comes later", shown.run("document.querySelectorAll('#stage-heard li').length") == 63)
    shown.key(".", "x")
    why = shown.text("#stage-step")
    count.check("why is told in sentences, its conclusion first", why.split("\n")[2:3] != [] and "Right: memory held 0 5 from step 24 to 53." in why and
                "Process 1 borrowed at 63 what process 2 wrote at 54;" in " ".join(why.split()), why)
    slider = shown.run("document.getElementById('stage-chart').getAttribute('aria-valuetext')")
    count.check("the position is told by the picture", slider == "step 64 of 64: Process 1 answers 0 5.", slider)
    shown.tab.close()


def try_untold(page, count, running):
    """Nothing gives an answer away before it is asked for."""
    shown = lesson(running, "lesson=0&screen=6")
    marks = "document.querySelectorAll('#stage .bad, #stage .wrong, #stage .never, #stage .fits').length"
    count.check("before a question on an answer no mark tells whether it is right", shown.run(marks) == 0 and "Was memory" in shown.run(
        "stage.screens[stage.k + 1].title"), shown.run(marks))
    shown.run("showScreen(stage.k + 2, false)")
    shown.tab.settled()
    count.check("and behind it they do", shown.run(marks) >= 3, shown.run(marks))
    shown.tab.close()


def try_frame(page, count, running):
    shown = lesson(running, "lesson=3&screen=12&view=picture", width=800, height=450)
    seen = shown.run("[...document.querySelectorAll('#stage > *')].filter(e => e.checkVisibility()).map(e => e.id)")
    count.check("an address leads to the picture of a screen alone", seen == ["stage-run"] and shown.run("stage.k") == 11, seen)
    shown.tab.close()
    again = lesson(running, "lesson=3&screen=5")
    again.run("window.oldPage = true")
    again.run("location.reload()")
    again.tab.until("window.oldPage === undefined && window.snaplab?.settled()")
    count.check("and so it does after a reload", again.run("stage.on && stage.k") == 4 and again.text("#stage-menu").startswith("3."))
    again.tab.close()
    none = lesson(running, "lesson=99")
    count.check("of a lesson that is not there it is told, and the first one opens", "no lesson 99" in none.text("#stage-note") and
                none.text("#stage-menu").startswith("0.") and none.shown("#stage"), none.text("#stage-note"))
    none.tab.close()
    paper = lesson(running, "lesson=4&screen=1")
    pages = paper.tab.ask("Page.printToPDF", preferCSSPageSize=True)["data"]
    import base64
    count.check("a lesson on paper has a page a screen", len(re.findall(rb"/Type\s*/Page\b", base64.b64decode(pages))) == paper.run(
        "stage.screens.length"))
    paper.tab.close()


def try_without_script(page, count, running):
    tab = running.tab(address="about:blank", wait=False)
    tab.ask("Emulation.setScriptExecutionDisabled", value=True)
    tab.go("file://" + browser.PAGE)
    nodes, told = [], []

    def names():
        nodes[:] = tab.ask("Accessibility.getFullAXTree")["nodes"]
        told[:] = [one.get("name", {}).get("value", "") for one in nodes if one["role"]["value"] == "heading"]
        return any(one.startswith("15. ") for one in told)
    browser.wait_for("the lessons without a script", names)
    count.check("without a script all lessons are there in words", all(any(one.startswith(f"{k}. ") for one in told) for k in range(16)) and
                "It answers 0 5: it borrows the view in r[2]." in told, told[:5])
    tab.close()
    size = os.path.getsize(browser.PAGE)
    count.check(f"the page has at most {LARGEST} bytes", size <= LARGEST, size)


def try_marks(page, count, running):
    """Fault: marks of tests on the time line were stale."""
    page.choose(FIRST_IDEA)
    for item in (11, 12):
        page.run(f"goTo({item})")
        page.tab.settled()
    ticks = "(() => { const c = document.querySelector('#timeline canvas'), {data} = c.getContext('2d').getImageData(0, 0, c.width, c.height);" \
            " let n = 0; for (let k = 0; k < data.length; k += 4) if (!data[k] && data[k + 1] === 109 && data[k + 2] === 79) n++; return n; })()"
    there = page.run(ticks)
    page.key("ArrowLeft")
    count.check("the tick of a test is there at its item, and not before", there > 5 and page.run(ticks) == 0, [there, page.run(ticks)])


def try_goal(page, count, running):
    """Fault: of many scans the first meets the goal, and 'Not met' stood there."""
    many = "shape 2 2\n1 scan\n1*13\n" + "2 update 2 5\n2*17\n" + "1 scan\n1*13\n" * 80
    page.run(f"change({{listing: data.choices[{FIRST_IDEA}].listing, schedule: {many!r}, idea: null, at: 100000, marks: [],"
             " goal: {task: 'one', who: '1', view: '0 0', collects: '1', point: '', items: '', listing: '', shape: ''}})")
    page.tab.settled()
    page.key("End")
    page.tab.settled()
    count.check("a goal is met by the first of 81 scans", page.text("#goal").startswith("Met: the scan of process 1, items 1 to 14"), page.text("#goal"))


def try_changed_runs(page, count, running):
    """Fault: changed runs ended on a step that was skipped, and one said of process 2 what process 3 does."""
    lessons = Lessons(page.tab)
    skipped = []
    for number, k in lessons.all.items():
        for part in ("", ".change"):
            text = page.run(f"[data.choices[{k}]{part}].map(one => one.listing + '%\\n' + one.schedule)[0]")
            last = page.tab.answer("trace", "", text.encode())[1].decode().rsplit("\nitem ", 1)[-1]
            if "skipped" in last.split("\n")[0]:
                skipped.append(f"{number}{part}")
    count.check("no run of a lesson ends on a skipped step", not skipped, skipped)


def try_hover(page, count, running):
    """Fault: the hover line of a card pushed down what is below it, and a click there was lost."""
    page.choose(FIRST_IDEA + 2)
    page.run("goTo(3)")
    page.tab.settled()
    top = "document.querySelectorAll('.process')[1].getBoundingClientRect().top"
    before, box = page.run(top), page.run("(r => [r.x + 5, r.y + 5])(document.querySelector('.process .step').getBoundingClientRect())")
    page.tab.hover(1, 1)
    page.tab.hover(*box)
    page.tab.until("document.querySelector('.process .peek').textContent !== ''")
    count.check("a card that tells what a step would do is as high as before", page.run(top) == before, [before, page.run(top)])
    page.tab.hover(1, 1)


def try_bench(page, count, running):
    """The workbench explains the line that ran, and has a process's collects as a table."""
    page.choose(FIRST_IDEA + 2)
    page.run("goTo(30)")
    page.tab.settled()
    place = page.run("state.lines.get(16).place")
    told = f"listingEditor.tell({place})"
    page.run(told)
    page.tab.until("anatomyNow() !== null")
    count.check("the mouse at the line that ran is told what the item did", page.run(told).startswith(
        "Item 30: Process 1 compares: r[2] is not equal."), page.run(told))
    page.click(".process summary")
    page.tab.until("document.querySelector('.process .collects') !== null")
    rows = page.run("[...document.querySelectorAll('.process .collects tbody tr')].map(r => [...r.querySelectorAll('.word b, .equal')]"
                    ".map(e => e.textContent).join(' '))")
    count.check("a process's collects stand in a table", rows == ["0 0 0 =", "5 0 5 \u2260"], rows)
    page.click(".process summary")
    above = page.run("document.getElementById('verdicts').getBoundingClientRect().top < document.getElementById('memory').getBoundingClientRect().top")
    count.check("verdicts stand above the memory, and a legend below the time line", above and page.shown("#legend"))


def try_inputs(page, count, running):
    """Fault: items and values that are none were taken."""
    for words, wanted in (("item=-5", 0), ("item=2.5", 0), ("item=24", 24), ("item=999", 64)):
        page.run(f"location.hash = '#lesson=3&{words}'")
        page.tab.until(f"snaplab.settled() && state.report?.at === {wanted} && state.idea === {FIRST_IDEA + 2}")
        count.check(f"an address with {words} leads to item {wanted}", page.at() == f"Item {wanted} of 64" and not page.run(
            "document.body.classList.contains('stale')"), page.at())
    page.run("(() => { const a = document.getElementById('at'); a.value = 'abc'; a.onchange(); })()")
    count.check("the item box does not keep what is no item", page.value("#at") == "64" and "whole number" in page.text("#note"), page.value("#at"))
    schedule = page.schedule()
    page.run("document.getElementById('value').value = 'abc'")
    page.click(".process .update")
    count.check("a value that is none is not written into the schedule", page.schedule() == schedule and "whole number" in page.text("#note"),
                page.text("#note"))
    page.run("document.getElementById('value').value = '5'")


def try_rewritten(page, count, running):
    """Fault: a rewritten listing kept the title and the text of a lesson."""
    page.choose(FIRST_IDEA)
    page.write("listing", page.run("data.choices[2].listing"))
    page.leave()
    count.check("a rewritten listing is your own", page.text("#menu") == "your own" and not page.shown("#idea"), page.text("#menu"))
    page.click("#undo")
    count.check("and undo brings the lesson back", page.text("#menu").startswith("1. ") and page.shown("#idea"), page.text("#menu"))
    page.choose(FIRST_IDEA + 2)
    page.key("End")
    page.write("schedule", "shape 2 2\n")
    page.write("schedule", "shape 2 2\nhello\n")
    told = page.text("#schedule-refusal")
    count.check("a refusal counts the lines of its part", "line 2 of the schedule" in told and "of the input" not in told, told)
    count.check("behind a run of no items it shows no bars of an older one", page.run("drawnShapes() === null"))
    page.leave()
    page.click("#undo")


def try_hunted(page, count, running):
    """Fault: Find a failure solved an exercise that asks for a schedule."""
    page.choose(page.run("data.choices.findIndex(one => one.goal)"))
    before = page.schedule()
    page.key("h")
    count.check("an exercise that asks for a schedule is not hunted", not page.shown("#hunt") and page.schedule() == before)
    page.choose(FIRST_IDEA)
    count.check("a lesson is", page.shown("#hunt"))


def try_focus(page, count, running):
    """Fault: after a call by Enter the focus was nowhere; the change had no key."""
    page.choose(0)
    page.run("document.querySelector('.process .scan').focus()")
    page.tab.key("Enter")
    page.tab.settled()
    count.check("after a call by Enter the focus is at the step", page.run("document.activeElement.className") == "step", page.run(
        "document.activeElement.outerHTML.slice(0, 60)"))
    page.choose(FIRST_IDEA + 3)
    page.key("d")
    count.check("d makes the change", page.text("#change") == "Back to how it was", page.text("#change"))
    page.key("d")
    count.check("and takes it back", page.text("#change") == "Make the change", page.text("#change"))


def try_forced(page, count, running):
    """Faults: forced colours lost the line that ran; Compare was clipped on a phone; specks stood in the margin."""
    page.choose(FIRST_IDEA + 2)
    page.key("End")
    page.tab.ask("Emulation.setEmulatedMedia", features=[{"name": "forced-colors", "value": "active"}])
    line = page.run("(s => [s.outlineStyle, s.outlineWidth])(getComputedStyle(document.querySelector('#listing .back .now')))")
    page.tab.ask("Emulation.setEmulatedMedia", features=[])
    count.check("with forced colours the line that ran is framed", line == ["solid", "2px"], line)
    page.key("f")
    specks = page.run("[...document.querySelectorAll('.code .back > div')].filter(e => { const s = getComputedStyle(e), line = parseFloat("
                      "getComputedStyle(e).lineHeight); return e.offsetHeight < 1.5 * line && e.offsetHeight > parseFloat(s.backgroundPositionY); }).length")
    page.key("f")
    count.check("in large type no line has a speck in the margin", specks == 0, specks)
    page.tab.look(390, 844, mobile=True)
    page.key("c")
    page.tab.until("document.getElementById('compared').open")
    wide = page.run("[...document.querySelectorAll('#compared, #compared section, #compared p, #compared li')].filter(e =>"
                    " e.getBoundingClientRect().right > innerWidth + 1 || e.scrollWidth > e.clientWidth + 1 && !e.closest('.picture')).length")
    page.tab.key("Escape")
    page.tab.look(1280, 720)
    count.check("on a phone Compare is not cut", wide == 0, wide)


def try_link(page, count, running):
    """Fault: Link copied the address of a file without a word."""
    page.choose(FIRST_IDEA)
    page.run("window.copied = ''; navigator.clipboard.writeText = async text => { window.copied = text; }")
    page.click("#link")
    page.tab.until("window.copied !== ''")
    page.tab.until("document.getElementById('note').innerText !== ''")
    count.check("a link of a file is told to be one", "file of this machine" in page.text("#note"), page.text("#note"))
    page.run("history.replaceState(null, '', location.pathname)")


def try_modules(page, count, running):
    """Fault: modules imported one another in a circle, and had names that nobody used."""
    graph = {}
    for path in glob.glob(os.path.join(TOP, "page", "src", "*.js")):
        with open(path, encoding="utf-8") as file:
            graph[os.path.basename(path)] = re.findall(r"(?ms)^import [^;]*? from '\./([a-z]+\.js)';", file.read())
    left = dict(graph)
    while True:
        done = [name for name, uses in left.items() if not set(uses) & set(left)]
        if not done:
            break
        for name in done:
            del left[name]
    count.check("no modules import one another in a circle", not left, sorted(left))
    texts = {name: open(os.path.join(TOP, "page", "src", name), encoding="utf-8").read() for name in graph}
    exported = [(name, one) for name, text in texts.items() for one in re.findall(r"(?m)^export (?:async )?(?:function|const|class|let) (\w+)", text)]
    unused = [one for name, one in exported if not any(re.search(rf"\b{one}\b", text) for other, text in texts.items() if other != name) and
              len(re.findall(rf"\b{one}\b", texts[name])) < 2]
    count.check("and none exports what nobody uses", not unused, unused)


def main():
    browser.need()
    count = browser.Count()
    with browser.started() as running:
        page = Page(running.tab())
        for trial in (try_modules, try_keys, try_listening, try_untold, try_frame, try_without_script, try_marks, try_goal, try_changed_runs, try_hover,
                      try_bench, try_inputs, try_rewritten, try_hunted, try_focus, try_forced, try_link):
            attempt(trial, count, page, running)
        wrong = [str(one["params"])[:300] for one in list(running.events.queue) if one["method"] == "Runtime.exceptionThrown"]
        count.check("no script failed", not wrong, wrong[:3])
    count.finish()


if __name__ == "__main__":
    main()
