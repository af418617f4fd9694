#!/usr/bin/env python3
"""Whether the run is linearizable: what the page tells of it, where, and when; and that it is asked for once for a run."""
import re
import sys

sys.dont_write_bytecode = True
import browser  # noqa: E402
from controls import FIRST_IDEA, Page, attempt, parts, read  # noqa: E402

RED = {"light": "rgb(176, 0, 32)", "dark": "rgb(255, 138, 149)"}
# Fourteen updates of one word, which stay open: each may have taken place or not, before an answer that is wrong in any case.
SILENT = """kind multi      # an update that ends and has written nothing
scalar k
row
words a
view s
scan 10
update 20
10: let k = 1
11: get a[k] = r[k]
12: next k w goto 11
13: view s = data(a)
14: return s
20: finish
"""
MANY = "shape 16 2\n" + "".join(f"{k} update 1 {k}\n" for k in range(1, 15)) + "15 update 2 7\n15\n16 scan\n16*7\n"


def show(page, listing, schedule):
    """The run of a listing under a schedule, at its end."""
    page.run(f"change({{listing: {listing!r}, schedule: {schedule!r}, goal: null, idea: null, at: 0, marks: []}})")
    page.tab.settled()
    page.leave()
    page.key("End")


def show_example(page, name):
    show(page, *parts(read("examples", name, "stdin"))[:2])


def go(page, item):
    page.run(f"goTo({item})")
    page.tab.settled()


def crossed(page):
    """The answers that are crossed out in the list: their words, colour and line."""
    return page.run("[...document.querySelectorAll('#verdicts *')].filter(e => getComputedStyle(e).textDecorationLine === 'line-through')"
                    ".map(e => [e.textContent, getComputedStyle(e).color])")


def drawn(page, who=0):
    """How many dots of the time line, or of the lane of a process, have the colour of a cross."""
    return page.run("(who => { const c = document.querySelector('#timeline canvas'), [top, tall] = who ? [topOf(who), line.high] : [0, c.height],"
                    " {data} = c.getContext('2d').getImageData(0, top, c.width, tall); let n = 0; for (let k = 0; k < data.length; k += 4)"
                    f" if (data[k] === 176 && !data[k + 1] && data[k + 2] === 32) n++; return n; }})({who})")


def try_wrong(page, count):
    show_example(page, "update-without-write")
    told = page.text("#run-verdict")
    count.check("a run that is not linearizable is told, with its event", "Not linearizable" in told and "item 10, process 2: answer 0 0" in told,
                told)
    count.check("the answer that no order explains is crossed out, in red, and no other one", crossed(page) == [["answers 0 0", RED["light"]]],
                crossed(page))
    count.check("though it has a point", "point 3," in page.text("#verdicts") and "no order explains it" in page.text("#verdicts"),
                page.text("#verdicts"))
    count.check("and where the position is told", "no order explains this answer" in page.text("#where"), page.text("#where"))
    page.click("#run-verdict summary")
    why = page.text("#run-verdict")
    count.check("with the reasons that the program prints", "right answer: 7 0" in why and
                "because: update 1 7 (event 1) ended before scan of process 2 (event 3) was called" in why, why)
    count.check("and on the time line", drawn(page) > 20, drawn(page))
    page.tab.look(1280, 720, True)
    count.check("in the dark, too", crossed(page) == [["answers 0 0", RED["dark"]]] and page.run(
        "getComputedStyle(document.getElementById('run-verdict')).color") == RED["dark"], crossed(page))
    page.tab.look(1280, 720)


def try_open(page, count):
    """What is still open where the wrong answer is the last item of the run is drawn up to the same item."""
    page.choose(FIRST_IDEA + 13)
    page.key("End")
    told, ends = page.text("#run-verdict"), page.run("state.shapes.bar.map(({who, to, rest}) => [who, to, rest])")
    count.check("a run may end with the wrong answer of a process, while an operation of another one is open", "item 25, process 2:" in told and
                [2, 25, "answer 0 0 2"] in ends and [3, 25, "open"] in ends, [told, ends])
    lanes = [drawn(page, who) for who in (1, 2, 3)]
    count.check("on the time line the wrong answer alone is crossed out", lanes[1] > 20 and lanes[0] == lanes[2] == 0, lanes)


def try_untold(page, count):
    """Before the event that it names a verdict is not told, nor before the end of a run where it names none."""
    show_example(page, "update-without-write")
    seen = []
    for item in (0, 9, 10):
        go(page, item)
        seen.append([page.text("#run-verdict") != "", crossed(page) != [], drawn(page) > 20, "explains" in page.text("#where")])
    count.check("a wrong answer is told from its item on", seen == [[False] * 4, [False] * 4, [True] * 4], seen)
    show_example(page, "no-point")
    seen = []
    for item in (0, 14, 15, 16):
        go(page, item)
        seen.append(page.text("#run-verdict"))
    count.check("and that a run is linearizable at its end", seen[:3] == [""] * 3 and seen[3] == "The whole run, 16 items, is linearizable.", seen)
    page.choose(FIRST_IDEA + 3)
    page.click("#change")
    seen = [page.text("#run-verdict") for _ in range(2) if not page.click("#next")]
    page.click("#end")
    count.check("a lesson does not give it away, but tells it in the end", seen == [""] * 2 and "linearizable" in page.text("#run-verdict"),
                [seen, page.text("#run-verdict")])


def try_no_point(page, count):
    show_example(page, "no-point")
    told = page.text("#verdicts")
    mark = page.run("(e => [getComputedStyle(e).color, getComputedStyle(e).fontWeight])(document.querySelector('#verdicts .none'))")
    count.check("a scan without a point in a run that is linearizable: nothing is red, or crossed out", "is linearizable" in page.text(
        "#run-verdict") and "point none" in told and mark == ["rgb(22, 24, 29)", "700"] and not crossed(page) and not drawn(page), [told, mark])
    show_example(page, "b-without-toggles")
    told, list_told = page.text("#run-verdict"), crossed(page)
    count.check("one without a point in a run that is not: the answer that is named alone is crossed out", len(list_told) == 1 and
                "Not linearizable" in told and page.text("#verdicts").count("no order explains it") == 1, [told, list_told])


def try_undecided(page, count):
    show(page, SILENT, MANY)
    told = page.text("#run-verdict")
    ink = page.run("getComputedStyle(document.getElementById('run-verdict')).color")
    count.check("where the search is given up, that is told, and nothing is red", "Undecided" in told and "process 16" in told and not crossed(page)
                and ink == "rgb(22, 24, 29)", [told, ink])


def try_once(page, count):
    """One question for a run: not for a position, and again where callers have seen more."""
    page.run("(() => { const ask = aside.ask.bind(aside); window.judged = 0; aside.ask = (kind, ...more) => {"
             " window.judged += kind === 'judge'; return ask(kind, ...more); }; })()")
    show_example(page, "no-point")
    for item in (3, 15, 16, 2, 16):
        go(page, item)
    count.check("a run is judged once, wherever the position is", page.run("window.judged") == 1, page.run("window.judged"))
    page.click(".process .scan")
    page.click(".process .finish")
    first = page.text("#run-verdict")
    count.check("and again with an answer more", page.run("window.judged") > 1 and first == "The whole run, 26 items, is linearizable.", first)
    before = page.run("window.judged")
    page.click(".process .crash", 1)
    again = page.text("#run-verdict")
    count.check("a crash is an event, too", page.run("window.judged") == before + 1 and "27 items" in again, again)
    page.write("schedule", "shape 3 3\n1 scan\n1*3\n")
    page.leave()
    page.key("End")
    count.check("a run without an answer is not judged", page.run("window.judged") == before + 1 and page.text("#run-verdict") == "", page.text(
        "#run-verdict"))


def try_hunt(page, count):
    """A hunt finds a schedule under which a wrong listing fails, and says so."""
    page.choose(FIRST_IDEA + 3)
    page.click("#change")
    before = page.schedule()
    page.tab.click("#hunt")
    page.tab.until("hunter.idle && snaplab.settled()", 120)
    said = page.text("#note")
    count.check("a hunt finds a run that fails, shrunk", said.startswith("Run ") and "not linearizable: event" in said, said)
    item = re.search(r"event (\d+) process", said)
    count.check("and stands at its end, which is judged so", item and page.at() == f"Item {item[1]} of {item[1]}" and
                f"item {item[1]}, process" in page.text("#run-verdict"), page.at() + page.text("#run-verdict"))
    count.check("the change of the listing is still made", page.text("#change") == "Back to how it was", page.text("#change"))
    page.click("#change")
    asked = page.text("#change")
    page.click("#change")
    count.check("its way back asks before it overwrites the schedule, and leads to the lesson", "Replace your own" in asked and
                page.text("#change") == "Make the change", [asked, page.text("#change")])
    page.click("#undo")
    page.click("#undo")
    count.check("undo brings the schedule back", page.schedule() == before)
    page.choose(0)
    # In one script, since a hunt is over in some seconds: an item is added while it goes on, and then it is stopped.
    went_on = page.run("""(async () => {
        const {schedule} = snaplab.state, button = document.getElementById('hunt');
        button.click();
        document.querySelector('.process .scan').click();
        while (snaplab.state.schedule === schedule && !hunter.idle) await new Promise(done => setTimeout(done, 5));
        const busy = !hunter.idle;
        button.click();
        return busy; })()""")
    page.tab.until("hunter.idle && snaplab.settled()")
    count.check("the page goes on meanwhile", went_on and page.schedule().endswith("1 scan\n"), [went_on, page.schedule()])
    count.check("and the button stops the hunt", page.text("#note") == "The hunt was stopped." and page.text("#hunt") == "Find a failure", page.text(
        "#note"))
    page.write("listing", page.value("#listing textarea").replace("33: finish", "33: finnish"))
    page.leave()
    page.click("#hunt")
    count.check("what is refused is not hunted", "Mend what is refused" in page.text("#note"), page.text("#note"))


def try_stopped(page, count):
    page.run("(() => { const send = aside.send; aside.send = function (one) { send.call(this, one); if (one.kind === 'judge') this.stop(); }; })()")
    show_example(page, "update-without-write")
    page.key("ArrowLeft", "ArrowRight")
    count.check("a judgement that is stopped is told to be missing, and nothing is crossed out", page.text("#run-verdict") == "The run was not "
                "judged: stopped." and not crossed(page) and "answers 0 0" in page.text("#verdicts"), page.text("#run-verdict"))


def main():
    browser.need()
    count = browser.Count()
    with browser.started() as running:
        page = Page(running.tab())
        for trial in (try_wrong, try_open, try_untold, try_no_point, try_undecided, try_once, try_hunt, try_stopped):
            attempt(trial, count, page)
        wrong = [str(one["params"])[:300] for one in list(running.events.queue) if one["method"] == "Runtime.exceptionThrown"]
        count.check("no script failed", not wrong, wrong[:3])
    count.finish()


if __name__ == "__main__":
    main()
