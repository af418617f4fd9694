#!/usr/bin/env python3
"""Teaches with the page, by clicks and by keys: what is shown is so, what was written is kept, and what is to be read can be read."""
import os
import re
import sys
import tempfile

sys.dont_write_bytecode = True
import browser  # noqa: E402
from browser import Failed  # noqa: E402
from controls import FIRST_IDEA, Page, attempt, open_bytes, read, saved  # noqa: E402

IDEAS = 15      # lessons 1 to 15; lesson 0 stands in front of them
PROJECTOR, ZOOMED, PHONE = {"width": 1280, "height": 720}, {"width": 640, "height": 360, "scale": 2}, {
    "width": 390, "height": 844, "scale": 2, "mobile": True}


def fresh(tab):
    """The page as on the first visit."""
    tab.run("localStorage.clear()")
    tab.open("file://" + browser.PAGE)
    return Page(tab)


def type_text(page, part, text):
    """Types at the end of a text, letter by letter."""
    page.click(f"#{part}")
    page.run(f"(() => {{ const a = document.querySelector('#{part} textarea'); a.setSelectionRange(a.value.length, a.value.length); }})()")
    for letter in text:
        page.tab.type(letter)
    page.tab.settled()


def try_first_seconds(page, count):
    page.choose(FIRST_IDEA)
    page.run("goTo(7)")
    page.tab.settled()
    count.check("with a caption", "first collect" in page.text("#caption"), page.text("#caption"))
    page.click("#next")
    count.check("Next goes to the next caption", page.at() == "Item 11 of 14" and "second collect" in page.text("#caption"), page.at())
    page.key("n")
    count.check("so does its key", page.at() == "Item 12 of 14", page.at())
    page.key(",")
    count.check("and back", page.at() == "Item 11 of 14", page.at())
    count.check("the line that ran is marked", "15: next j n" in page.run("document.querySelector('#listing .back .now').textContent"))
    page.key("ArrowLeft")
    count.check("and the register that it read", "r 2" in page.text("#memory tr.touched"), page.text("#memory"))
    page.key("g")
    count.check("the words are a key away", page.shown("#glossary") and "linearization point" in page.text("#glossary"))
    page.tab.key("Escape")


def try_position(page, count):
    """The position told is the one that is shown, where their numbers add up alike too."""
    page.choose(0)
    page.click(".process .scan")
    for _ in range(8):
        page.click(".process .step")
    page.click(".process .scan", 1)
    page.click("#back")
    page.click("#back")
    count.check("before the undo", page.at() == "Item 8 of 10", page.at())
    page.click("#undo")
    shown = page.run("[snaplab.state.report.at, snaplab.state.report.total].join(' ')")
    count.check("the position after an undo is the one of the state", page.at() == "Item {} of {}".format(*shown.split()), page.at() + " " + shown)
    count.check("which is the one of before the call", page.at() == "Item 9 of 9", page.at())


def try_keys_after_a_choice(page, count):
    page.choose(FIRST_IDEA + 2)
    page.key("ArrowRight", "ArrowRight")
    count.check("Right after a choice is one item on, of this lesson", page.at() == "Item 2 of 64" and "3. A scan" in page.text("#menu"), page.at())
    page.key("1")
    count.check("and 1 is a step of process 1", page.at() == "Item 3 of 64", page.at())
    page.tab.key("t")
    page.run("document.getElementById('menu').focus()")
    page.key("ArrowRight", "1")
    count.check("keys at the menu's button choose no lesson", page.at() == "Item 5 of 64" and "3. A scan" in page.text("#menu"), page.at())


def try_loans(page, count):
    """The arrows are those of the module's picture."""
    arrows = "(snaplab.state.shapes?.loan ?? []).map(l => [l.lender, l.ended, l.who, l.item].join(' ')).join('; ')"
    page.choose(FIRST_IDEA + 3)
    page.click("#change")
    page.click("#end")
    count.check("idea 4 changed: the arrow begins at the lender's scan", page.run(arrows) == "2 15 1 51", page.run(arrows))
    page.choose(FIRST_IDEA + 9)
    page.click("#end")
    count.check("idea 10: both arrows", page.run(arrows) == "3 114 2 127; 2 128 1 141", page.run(arrows))
    page.choose(FIRST_IDEA + 2)
    page.write("listing", page.value("#listing textarea").replace("24: return s", "24: let c = c + 0\n25: return s"))
    page.write("schedule", page.value("#schedule textarea").replace("1*9 ", "1*10 "))
    page.leave()
    page.click("#end")
    count.check("idea 3 with one line more before the answer: an arrow, and a lender", page.run(arrows) == "2 52 1 63" and
                "view of process 2" in page.text("#verdicts"), page.run(arrows) + page.text("#verdicts"))
    text = open(browser.PAGE, encoding="utf-8").read()
    count.check("nothing guesses who lent", "BORROWED" not in text and "findLenders" not in text)


# What stands here is what is kept of it.
DRAFT_IS_KEPT = "(() => { const d = JSON.parse(localStorage.getItem('snaplab.draft')); return d?.schedule === state.schedule && d.at === state.at; })()"


def try_keeping(page, count):
    page.choose(FIRST_IDEA)
    page.click("#end")
    page.click(".process .scan")
    wanted = page.schedule()
    page.tab.until(DRAFT_IS_KEPT)
    page.tab.open("file://" + browser.PAGE)
    count.check("work is there after a reload", page.schedule() == wanted and page.at() == "Item 15 of 15", page.at())
    page.click(".process .step")
    page.tab.open("about:blank", False)
    page.tab.until("location.href === 'about:blank'")
    page.tab.open("file://" + browser.PAGE)
    count.check("and after going away at once", page.schedule() == wanted + "1\n", page.schedule())
    page.choose(0)
    listing = page.value("#listing textarea")
    type_text(page, "listing", "# a comment of many letters, one after the other")
    page.leave()
    page.click("#undo")
    count.check("a text that was typed is one step of undo", page.value("#listing textarea") == listing, page.value("#listing textarea")[-60:])
    page.click("#redo")
    count.check("and of redo", page.value("#listing textarea").endswith("after the other"))
    exercise = FIRST_IDEA + IDEAS
    page.choose(exercise)
    page.click("#memory [data-register='r 1']")
    page.click(".process .scan")
    page.choose(FIRST_IDEA + 1)
    page.click("#undo")
    count.check("undo after a choice brings lesson, goal, marks and texts back", "Goal: a scan of process 1" in page.text("#goal") and
                "r 1" in page.text("#marks") and page.schedule() == "shape 2 2\n1 scan\n" and "A scan that answers" in page.text("#menu"),
                page.text("#goal") + page.text("#marks") + page.schedule())
    text = page.run("asInput()")
    page.choose(0)
    open_bytes(page, text.encode())
    count.check("a saved exercise has its goal", "Goal: a scan of process 1" in page.text("#goal") and "r 1" in page.text("#marks"), page.text("#goal"))
    page.run("window.kept = Storage.prototype.setItem; Storage.prototype.setItem = () => { throw new Error('full'); }")
    page.click(".process .scan", 1)
    stopped = page.run("(() => { const e = new Event('beforeunload', {cancelable: true}); window.dispatchEvent(e); return e.defaultPrevented; })()")
    page.run("Storage.prototype.setItem = window.kept")
    page.click(".process .crash", 1)
    page.tab.until(DRAFT_IS_KEPT)
    fine = page.run("(() => { const e = new Event('beforeunload', {cancelable: true}); window.dispatchEvent(e); return e.defaultPrevented; })()")
    count.check("it warns where work cannot be kept, and there alone", stopped and not fine, [stopped, fine])


def try_changes(page, count):
    page.choose(FIRST_IDEA + 2)
    page.click("#end")
    page.choose(FIRST_IDEA)
    count.check("a lesson just chosen has changed nothing", not page.run("document.querySelectorAll('#memory .changed, .process .changed').length"),
                page.text("#memory"))
    page.choose(FIRST_IDEA + 2)
    row = page.run("snaplab.state.listing.split('\\n').findIndex(l => l.startsWith('33:'))")
    page.click("#listing .gutter > div", row)
    page.key("r")
    ran = page.run("document.querySelector('#listing .back .now')?.textContent ?? ''")
    count.check("at a stop the line that ran is shown", page.at() == "Item 24 of 64" and ran.startswith("32: put"), page.at() + ran)
    changed = page.text("#memory")
    count.check("and what it changed, beside what was", "0\u21925" in changed and "0\u21921" in changed, changed)
    page.key("r")
    count.check("and again at the next", page.at() == "Item 54 of 64" and "5\u21926" in page.text("#memory"), page.text("#memory"))
    page.key("Home", "End")
    # The value of word 2, and of r 2 the data, the sequence number and the view.
    titles = page.run("[...document.querySelectorAll('#memory .since')].map(e => e.title)")
    count.check("after a jump too", titles == 3 * ["was 0 at item 0"] + ["was 0 0 at item 0"], titles)


def try_texts(page, count):
    """At 1280 x 720 no line of a lesson is cut, and its text is on the screen."""
    page.tab.look(**PROJECTOR)
    cut, below = [], []
    for k in range(FIRST_IDEA + IDEAS):
        page.choose(k)
        for part in ("listing", "schedule"):
            wide = page.run(f"(() => {{ const a = document.querySelector('#{part} textarea'), r = document.getElementById('{part}'); return [a.scrollWidth, "
                            "a.clientWidth, r.scrollWidth, r.clientWidth, a.scrollHeight - a.clientHeight]; })()")
            if wide[0] > wide[1] or wide[2] > wide[3] or wide[4] > 0:
                cut.append((k, part, wide))
        if k >= 3:
            low = page.run("(() => { const r = document.getElementById('idea').getBoundingClientRect(), p = document.querySelector('#idea-text p')"
                           ".getBoundingClientRect(), c = document.getElementById('caption').getBoundingClientRect(); return [r.bottom, p.bottom, c.bottom,"
                           " document.getElementById('right').getBoundingClientRect().bottom]; })()")
            if low[1] > low[0] or low[2] > low[3]:
                below.append((k - 2, low))
    count.check("no line of a lesson is cut", not cut, cut)
    count.check("each lesson's caption is on the screen, and its text below it", not below, below)
    rows = page.run("[...document.querySelectorAll('#schedule .gutter > div')].map((r, k) => [r.getBoundingClientRect().top, "
                    "document.querySelectorAll('#schedule .back > div')[k].getBoundingClientRect().top]).filter(([a, b]) => Math.abs(a - b) > 1.5).length")
    count.check("each row of the margin is beside its line", rows == 0, rows)
    before = page.run("document.getElementById('left').getBoundingClientRect().width")
    page.run("document.getElementById('edge-left').focus()")
    page.key("ArrowRight", "ArrowRight")
    wider = page.run("document.getElementById('left').getBoundingClientRect().width")
    count.check("an edge is moved by keys", wider > before + 50, [before, wider])
    box = page.run("(() => { const r = document.getElementById('edge-left').getBoundingClientRect(); return [r.x + r.width / 2, r.y + 200]; })()")
    page.tab.mouse(box[0], box[1], (box[0] - 60, box[1]), (box[0] - 120, box[1]))
    count.check("and dragged", page.run("document.getElementById('left').getBoundingClientRect().width") < wider - 80)
    page.choose(0)
    type_text(page, "listing", "# " + "word " * 60)
    told = page.run("(() => { const a = document.querySelector('#listing textarea'), rows = document.querySelectorAll('#listing .gutter > div'); return ["
                    "a.scrollWidth - a.clientWidth, a.scrollHeight - a.clientHeight, rows[rows.length - 1].offsetHeight / rows[0].offsetHeight]; })()")
    count.check("a long line typed goes on below itself, and its row with it", told[0] == 0 and told[1] <= 0 and told[2] >= 4, told)
    page.leave()
    page.choose(FIRST_IDEA + 2)
    page.run("goTo(state.shapes.test[0].item)")
    page.tab.settled()
    bars = page.run("[...document.querySelectorAll('.back > .now')].map(e => { const s = getComputedStyle(e); return [e.textContent.slice(0, 3), e.offsetHeight, "
                    "s.backgroundImage !== 'none' && s.backgroundRepeat === 'no-repeat' ? parseFloat(s.backgroundPosition.split(' ')[1]) : 0]; })")
    count.check("a bar is beside what goes on below a line, in colour, too", bars[0][0] == "16:" and bars[0][1] > bars[0][2] + 10 and
                all(abs(bar - 23) < 1 for _, _, bar in bars), bars)


def try_zoomed(page, count):
    page.choose(FIRST_IDEA + 2)
    for name, how in (("200 %", ZOOMED), ("a phone", PHONE), ("a projector", PROJECTOR)):
        page.tab.look(how["width"], how["height"], scale=how.get("scale", 1), mobile=how.get("mobile", False))
        page.run("scrollTo(0, 0)")
        hidden = page.run("[...document.querySelectorAll('#controls button, #timeline')].filter(e => e.checkVisibility()).filter(e => { const r = "
                          "e.getBoundingClientRect(); return r.bottom > innerHeight + 1 || r.top < 0 || r.left > innerWidth; }).map(e => e.id)")
        count.check(f"{name}: the controls are in the window", not hidden, hidden)
        share = page.run("document.querySelector('footer').getBoundingClientRect().height / innerHeight")
        count.check(f"{name}: the bar leaves room", share < {"200 %": .36, "a phone": .17, "a projector": .25}[name], share)
    page.tab.look(**PROJECTOR)


def try_exercises(page, count):
    k = FIRST_IDEA + IDEAS + 2
    page.choose(k)
    page.write("listing", page.value("#listing textarea").replace("view s = data(b)", "view s = view(a[1])"))
    page.write("schedule", "shape 2 2\n1 update 1 3\n1*17\n1 scan\n1*14\n")
    page.leave()
    page.click("#end")
    none = "point none" in page.text("#verdicts")
    count.check("another listing does not meet an exercise", none and "met" not in page.run("document.getElementById('goal').className") and
                "listing is another one" in page.text("#goal"), page.text("#goal") + page.text("#verdicts"))
    page.click("#goal button")
    count.check("its listing is put back by a click", "Not met yet" in page.text("#goal"), page.text("#goal"))
    page.write("schedule", "shape 2 2\n2 update 2 5\n2*15\n1 update 1 3\n1*17\n1 scan\n1*6\n2*2\n1*5\n1*14\n")
    page.leave()
    page.click("#end")
    count.check("a schedule meets it", page.text("#goal").startswith("Met:"), page.text("#goal"))
    page.choose(FIRST_IDEA + IDEAS + 1)
    page.write("schedule", "shape 4 4\n")
    count.check("nor does another shape", "asks for shape 3 3" in page.text("#goal"), page.text("#goal"))


def try_without_module(page, count, running):
    """A browser without WebAssembly, and one that cannot run the module."""
    text = open(browser.PAGE, encoding="utf-8").read()
    for name, old, new in (("no WebAssembly", 'id="worker">\n', 'id="worker">\ndelete globalThis.WebAssembly;\n'),
                           ("a module that is none", 'id="module">', 'id="module">AAAA')):
        with tempfile.NamedTemporaryFile("w", suffix=".html", encoding="utf-8") as file:
            file.write(text.replace(old, new, 1))
            file.flush()
            other = Page(running.tab(address="file://" + file.name))
            other.tab.until("!document.getElementById('broken').hidden")
            said = other.text("#broken")
            alive = other.run("[...document.querySelectorAll('header button, main button, footer button, input, select, textarea')]"
                              ".filter(e => !e.disabled && !e.closest('[inert]') && e.checkVisibility()).map(e => e.id)")
            count.check(f"{name}: it is said plainly", "cannot run" in said and "WebAssembly" in said and other.shown("#broken"), said)
            count.check(f"{name}: no control looks alive", not alive, alive)
            other.tab.close()


# What `snaplab run --explain` says below the line of the refusal, of the part alone, up to the list of all instructions.
EXPLAINED = """line 25 of the listing, column 5:
    33: finnish
        ^
expected an instruction; found `finnish`
a local is set by `let`, as in `let c = c + 1`
instructions begin with let, """


def try_refusals(page, count):
    page.tab.look(**PROJECTOR)
    page.choose(FIRST_IDEA + 2)
    page.click("#end")
    text = page.value("#listing textarea")
    page.write("listing", text.replace("33: finish", "33: finnish"))
    told = page.text("#listing-refusal")
    count.check("a refusal is explained as the program explains it", re.fullmatch(
        re.escape("refused: L3 BadLine 25\n" + EXPLAINED) + ".* or finish", told), told)
    inside = page.run("(() => { const b = document.querySelector('#listing .back .bad').getBoundingClientRect(), r = document.getElementById('listing')"
                      ".getBoundingClientRect(); return b.top >= r.top - 2 && b.bottom <= r.bottom + 2; })()")
    page.leave()
    count.check("the line that the explanation names is marked, and in sight", inside and page.run(
        "[...document.querySelectorAll('.back .bad')].map(e => e.textContent)") == ["33: finnish"])
    dim = page.run("['processes', 'state', 'timeline', 'where'].filter(id => Number(getComputedStyle(document.getElementById(id)).opacity) > .9)")
    count.check("all of the old run is dim", not dim, dim)
    page.write("listing", "\n" * 60 + text.replace("33: finish", "33: finnish"))
    page.leave()
    page.run("snaplab.showState()")
    inside = page.run("(() => { const b = document.querySelector('#listing .back .bad').getBoundingClientRect(), r = document.getElementById('listing')"
                      ".getBoundingClientRect(); return b.top >= r.top - 2 && b.bottom <= r.bottom + 2; })()")
    count.check("the line is scrolled to", inside)


def try_opening(page, count):
    listing, schedule = read("examples", "u.txt"), "shape 2 2\n1 scan\n1*13\n2 scan\n2*13\n"
    open_bytes(page, f"{listing}%\n{schedule}%\nbreak 1 14\n".encode())
    count.check("a breakpoint of one process is one of this one", "line 14 of process 1" in page.text("#marks"), page.text("#marks"))
    count.check("and saved so", "break 1 14" in page.run("asInput()") and "break 2 14" not in page.run("asInput()"))
    told = page.run("['break 1 14\\nbreak 2 14\\n', 'break 1 14\\nbreak 9 14\\n', 'break 2 14\\nwatch q 1 2\\n'].map(text => marksOf(text, 2).join())")
    count.check("one of each process is one of the line", told == ["line 14", "line 14 of 1,line 14 of 9", "line 14 of 2,q 1 2"], told)
    page.click("#home")
    for _ in range(4):
        page.key("r")
    count.check("and stops it alone", page.at() == "Item 28 of 28", page.at())
    open_bytes(page, f"{listing}%\n{schedule}%\nwatch r\n".encode())
    page.click("#end")
    count.check("a watch of nothing does not freeze the page", page.at() == "Item 28 of 28" and page.text("#marks") == "", page.at())
    open_bytes(page, f"{listing}%\n{schedule}%\nwatch r\n".encode())
    count.check("and is told", "G1 BadCommand" in page.text("#note"), page.text("#note"))
    before = page.schedule()
    open_bytes(page, f"{listing}%\nshape 3 3\n%\nwhere\n%\nwhere\n".encode())
    count.check("a fourth part is refused", "P2 WrongParts 4" in page.text("#note") and page.schedule() == before, page.text("#note"))


def try_notes(page, count):
    page.choose(FIRST_IDEA)
    page.click("#memory [data-register='r 1']")
    told = page.text("#note")
    page.click("#on")
    count.check("a note goes at the next click", "where r 1 has changed" in told and page.text("#note") == "", told)


def try_traps(page, count):
    listing, schedule = re.split(r"(?m)^%\n", read("examples", "trap-of-one-process", "stdin"))[:2]
    open_bytes(page, f"{listing}%\n{schedule}".encode())
    page.click("#end")
    page.tab.settled()
    traps = page.run("(snaplab.state.shapes?.trap ?? []).map(t => t.item + ' ' + t.who).join()")
    count.check("a trap is a mark of the time line", bool(re.match(r"\d+ \d+", traps)), traps)
    item = int(traps.split()[0])
    box = page.run(f"(() => {{ const r = document.getElementById('timeline').getBoundingClientRect(); return [r.x + placeOf({item}), r.y + 22]; }})()")
    page.tab.hover(box[0], box[1])
    title = page.run("document.getElementById('timeline').title")
    count.check("and says what it is", f"item {item}" in title and "trap" in title, title)
    page.run(f"goTo({item})")
    page.tab.settled()
    count.check("with its cause", "trapped" in page.text("#where"), page.text("#where"))


# How many dots of the time line's canvas, in a part of its height from here on, are of this colour.
DOTS = """((top, tall, red, green, blue) => { const c = document.querySelector('#timeline canvas'), r = devicePixelRatio, {data} = c.getContext('2d')
    .getImageData(0, top * r, c.width, tall * r); let n = 0; for (let k = 0; k < data.length; k += 4)
    if (data[k] === red && data[k + 1] === green && data[k + 2] === blue) n++; return n; })"""


def told_at(page, item):
    """What the time line tells where the mouse is at an item."""
    box = page.run(f"(() => {{ const r = document.getElementById('timeline').getBoundingClientRect(); return [r.x + placeOf({item}), r.y + 40]; }})()")
    page.tab.hover(box[0], box[1])
    return page.run("document.getElementById('timeline').title")


def try_timeline(page, count):
    """What the time line draws is what the module tells of the run's shapes, as far as it is past."""
    page.choose(FIRST_IDEA + 2)
    texts = [page.run(f"state.{part}").encode() for part in ("listing", "schedule")]
    told = page.tab.ask_module("page_shapes", texts, (1, 64))[1].decode().splitlines()
    drawn = page.run("['values', 'bar', 'inner', 'read', 'write', 'test', 'loan', 'point', 'none', 'trap', 'crash'].reduce((n, k) => "
                     "n + state.shapes[k].length, 0)")
    count.check("each of the module's shapes is there, and no other one", drawn == len(told) > 20, [drawn, len(told)])
    point = page.run("placeOf(24)")
    blue = f"{DOTS}(18, 8, 0, 114, 178)"
    page.key("End", "ArrowLeft")
    before = page.run(blue)
    page.key("ArrowRight")
    count.check("the point of a scan is told with its answer", before == 0 and page.run(blue) > 10 and point > 0, [before, page.run(blue)])
    words = [told_at(page, 4), told_at(page, 24), told_at(page, 30), told_at(page, 63)]
    count.check("the mouse at an item is told what it did", words == [
        "item 4, process 1, line 12: reads r[1]", "item 24, process 2, line 32: writes r[2], values 0 5", "item 30, process 1, line 16: a test that fails",
        "item 63, process 1, line 23: borrows the view of the scan that process 2 ended at item 52"], words)
    page.key("Home")
    count.check("and nothing of an item that is to come", told_at(page, 24) == "item 24", told_at(page, 24))
    numbers, axis = [], "(() => { const tall = parseFloat(document.querySelector('#timeline canvas').style.height); return " + DOTS + "(tall - 12, 12, 86, 93, 105); })()"
    page.key("End")
    for _ in range(4):
        numbers.append(page.run(axis))
        page.key("+")
    count.check("a zoomed time line has numbers", min(numbers) > 30 and len(set(numbers)) > 1, numbers)
    page.key("0")
    page.choose(FIRST_IDEA)
    page.click("#end")
    count.check("the caption leaves it to the verdict to name the point", "point" not in page.text("#caption") and "5 of 5" in page.text(
        "#caption") and "point 1," in page.text("#verdicts"), page.text("#caption") + page.text("#verdicts"))


def try_untold(page, count):
    page.choose(FIRST_IDEA + 2)
    count.check("no verdict before anything has run", "No scan has ended here yet" in page.text("#verdicts") and "answers" not in page.text("#verdicts"),
                page.text("#verdicts"))
    page.click("#end")
    count.check("and then there is one", "answers 0 5: point 24" in page.text("#verdicts"), page.text("#verdicts"))
    colours = page.run("(() => { const s = getComputedStyle(document.body), all = n => s.getPropertyValue(n).trim(); return [all('--scan-bar'), all('--update-bar'), "
                       "...Array.from({length: 8}, (_, k) => all('--p' + k))]; })()")
    style = read("docs", "pictures", "borrowed-view.svg")
    count.check("operations have the colours of a picture, and no process has", all(colours) and colours[0] in style and colours[1] in style and
                not set(colours[:2]) & set(colours[2:]), colours)
    page.click("#change")
    page.choose(FIRST_IDEA + 3)
    page.click("#change")
    edited = page.run("[...document.querySelectorAll('#listing .back .edited')].map(e => e.textContent)")
    count.check("a change is marked", edited == ["18: first j n: moved[@] = 1 goto 23"], edited)
    page.click("#change")
    page.write("listing", page.value("#listing textarea") + "# my own\n")
    page.leave()
    page.click("#change")
    count.check("a change asks before it overwrites a text of one's own", page.value("#listing textarea").endswith("# my own\n") and
                "Replace your own" in page.text("#change"), page.text("#change"))
    page.click("#change")
    count.check("and does so then", "my own" not in page.value("#listing textarea"))
    page.click("#undo")
    count.check("and undo brings it back", page.value("#listing textarea").endswith("# my own\n"))


def try_margin(page, count):
    page.choose(0)
    page.write("schedule", "shape 33 33\n1 scan\n1*40\n")
    page.leave()
    page.key("l", *["ArrowDown"] * 60)
    page.run("0")
    rows = page.run("[...document.querySelectorAll('#listing .gutter > div')].flatMap((r, k) => r.classList.contains('numbered') ? [k] : [])")
    page.click("#listing .gutter > div", rows[1])
    page.click("#listing .gutter > div", rows[2])
    page.key("Home", "r")
    first = page.at()
    page.key("r")
    count.check("33 processes have more than one breakpoint", first == "Item 2 of 41" and page.at() == "Item 3 of 41" and page.text("#note") == "",
                [first, page.at(), page.text("#note")])
    page.choose(FIRST_IDEA)
    page.key("l", *["ArrowUp"] * 40, *["ArrowDown"] * 10, "Enter")
    told = page.text("#marks")
    page.key(" ")
    count.check("Enter and Space work in the margin", "line 13" in told and page.text("#marks") == "", [told, page.text("#marks")])
    labels = page.run("[...document.querySelectorAll('[role=option]')].filter(o => !o.ariaLabel).length")
    count.check("every row of a margin has a name", labels == 0, labels)
    page.tab.ask("Emulation.setEmulatedMedia", media="print")
    shown = page.run("['header .bar', '#processes .step', '#idea-text'].map(s => document.querySelector(s).checkVisibility())")
    page.tab.ask("Emulation.setEmulatedMedia", media="", features=[{"name": "prefers-color-scheme", "value": "light"}])
    count.check("print leaves the buttons out", shown == [False, False, True], shown)
    titles = page.run("[...document.querySelectorAll('#lessons-list button')].map(b => b.textContent.split('.')[0])")
    count.check("all ideas of the gallery are there", [str(k) for k in range(IDEAS + 1)] == [one for one in titles if one.isdigit()], titles)


def try_movers(page, count):
    page.choose(0)
    count.check("what is idle says so, and its step is disabled", page.run("document.querySelector('.process .step').disabled") and
                "idle" in page.text(".process .next"), page.text(".process"))
    page.click(".process .update", 1)
    for _ in range(3):
        page.click(".process .step", 1)
    count.check("what is busy is not called", page.run("document.querySelectorAll('.process .scan')[1].disabled"))
    box = page.run("(() => { const r = document.querySelectorAll('.process .step')[1].getBoundingClientRect(); return [r.x + 5, r.y + 5]; })()")
    page.tab.hover(1, 1)
    page.tab.hover(box[0], box[1])
    page.tab.until("document.querySelectorAll('.process .peek')[1].innerText !== ''")
    told, before = page.text(".process:nth-child(2) .peek"), page.run("snaplab.state.report.processes[1].locals")
    page.click(".process .step", 1)
    after = page.run("snaplab.state.report.processes[1].locals")
    changed = [new for old, new in zip(before.split("\n"), after.split("\n")) if old != new]
    at = page.run("snaplab.state.report.processes[1].at")
    count.check("what a step would do is told before, and comes so", "would be stepped" in told and f"then at {at}" in told and all(
        one.split(" = ")[0] in told for one in changed), [told, changed, at])
    page.choose(0)
    page.click(".process .scan", 1)
    page.click(".process .finish", 1)
    count.check("a click leads to the end of an operation", page.schedule() == "shape 3 3\n2 scan\n2*17\n" and "answered 0 0 0" in page.text("#where"),
                page.schedule() + page.text("#where"))
    page.click("#undo")
    page.leave()
    page.key("Home", "ArrowRight")
    row = page.run("snaplab.state.listing.split('\\n').findIndex(l => l.startsWith('14:'))")
    page.key("l", *["ArrowUp"] * 60, *["ArrowDown"] * row, "u")
    count.check("a key leads to a line", "scan at 14" in page.text(".process:nth-child(2) .what") and page.schedule() == "shape 3 3\n2 scan\n2*8\n",
                page.schedule() + page.text("#note"))
    page.click("#home")
    page.key("l", *["ArrowUp"] * 60, *["ArrowDown"] * row, "u")
    count.check("where no process has moved yet, none is led anywhere", "No process has moved" in page.text("#note"), page.text("#note"))
    page.key("End")
    page.write("schedule", "shape 3 3\n2 scan\n2*8\n2 crash\n")
    page.leave()
    page.key("End")
    page.run("goOn(2, 14)")
    page.tab.settled()
    stopped = page.text("#note")
    page.run("change({schedule: 'shape 3 3\\n2 scan\\n2*8\\n', at: 9})")
    page.tab.settled()
    page.run("goOn(2, 15000)")
    page.tab.settled()
    count.check("why no steps lead somewhere is told", "crashed" in stopped and page.text("#note") == "Process 2: there is no such line.", [
        stopped, page.text("#note")])
    page.key("e")
    count.check("and one to the end", page.schedule() == "shape 3 3\n2 scan\n2*8\n2*9\n" and page.at() == "Item 18 of 18", page.schedule())
    page.choose(FIRST_IDEA + 2)
    page.click("#end")
    page.click("#memory .writer", 1)
    count.check("a value leads to its write", page.at() == "Item 54 of 64", page.at())


def reasons(page):
    """What is said of why an item came out so, a line each, with the commands that bin/snapdb names."""
    return [line.replace(": item ", ": goto ") for line in page.run("[...document.querySelectorAll('#why-lines p')].map(p => p.textContent)")]


def try_why(page, count):
    """Why a scan answered so, and why a process trapped: by buttons, and by keys."""
    wanted = read("examples", "prompt", "why", "stdout").splitlines()
    page.choose(FIRST_IDEA + 9)
    page.click("#end")
    page.tab.settled()
    page.click("#verdicts .why")
    count.check("why a scan answered so", page.text("#why-title") == "Why item 142 came out so" and reasons(page) == wanted[1:13], reasons(page))
    count.check("its words have the focus", page.run("document.activeElement.id") == "why-title")
    page.tab.key("Tab")
    page.tab.key("Enter")
    page.tab.settled()
    count.check("a key leads to an item that is named", page.at() == "Item 1 of 142" and page.shown("#why"), page.at())
    page.click("#why-lines button", 1)
    count.check("so does a click", page.at() == "Item 78 of 142", page.at())
    page.key("End", "x")
    count.check("the same key again puts it away", not page.shown("#why"))
    page.key("x")
    page.tab.key("Escape")
    count.check("so does Escape", not page.shown("#why"))
    page.key("Home", "x")
    count.check("where there is nothing to explain, it says where there is", reasons(page) == wanted[:1], reasons(page))
    page.click("#why-close")
    page.key("x", "l")
    page.write("schedule", "shape 2 2\n1 scan\n")
    page.leave()
    count.check("it goes with its run", not page.shown("#why"))
    folder = ("examples", "prompt", "why-trap")
    open_bytes(page, f"{read(*folder, 'listing.txt')}%\n{read(*folder, 'schedule.txt')}".encode())
    page.click("#end")
    page.tab.settled()
    page.click(".process .why", 2)
    said = read(*folder, "stdout").splitlines()
    count.check("why a process trapped", page.text("#why-title") == "Why item 14 came out so" and reasons(page) == said[4:6], reasons(page))
    page.click("#undo")


def written_at(page, register):
    """The last item of the run that changed a register, by the module's trace."""
    text = page.tab.answer("trace", "", page.run("state.listing + '%\\n' + state.schedule").encode())[1].decode()
    items = [one for one in ("\n" + text).split("\nitem ")[1:] if f"\n+ {register} = " in one]
    return int(items[-1].split()[0]) if items else 0


def try_writers(page, count):
    """A click on a value leads to the item that wrote it, whichever register has it, and however far it is."""
    for idea, names in ((3, ("r 1", "r 2")), (6, ("r 1", "r 3")), (7, ("r 1", "r 2", "v 1", "v 2"))):
        page.choose(FIRST_IDEA + idea - 1)
        for name in names:
            page.click("#end")
            wanted = written_at(page, name)
            place = page.run(f"[...document.querySelectorAll('#memory .writer')].findLastIndex(b => b.ariaLabel.includes('of {name}:'))")
            page.click("#memory .writer", place)
            found = page.at().split()[1]
            told = "Nobody has written" in page.text("#note")
            count.check(f"idea {idea}, {name}: its writer", found == str(wanted) if wanted else told, [found, wanted, page.text("#note")])
    page.choose(FIRST_IDEA + 2)
    page.click("#end")
    page.click("#memory .values .writer", 1)
    count.check("the values lead to their writers", page.at() == "Item 54 of 64", page.at())
    page.choose(0)
    page.write("schedule", "shape 3 3\n2 update 2 5\n2*40\n" + "1 scan\n1*20000\n" * 3)
    page.leave()
    page.key("End")
    page.click("#memory .values .writer", 1)
    count.check("the writer of a value that is far away", "0\u21925" in page.text("#memory") and int(page.at().split()[1]) < 42, page.at())
    page.click("#end")
    page.click("#memory .values .writer", 0)
    count.check("and that there is none", "Nobody has written r 1" in page.text("#note") and page.at() == "Item 60044 of 60044", page.text("#note"))


def try_compare(page, count):
    """The run of a lesson beside that of its change: what differs, and the first item that did something else."""
    page.choose(FIRST_IDEA + 3)
    page.key("c")
    told = page.text("#compared")
    edited = page.run("[...document.querySelectorAll('#compared .edited')].map(e => e.textContent.replace(/ *#.*/, ''))")
    count.check("two runs: the changed line of each is marked", edited == [
        "16 18: first j n: moved[@] = 2 goto 23", "10 1*14", "16 18: first j n: moved[@] = 1 goto 23", "10 1*4"], edited)
    parted = page.run("[...document.querySelectorAll('#compared li.parted button')].map(e => e.textContent)")
    count.check("and the first item at which they part", "part at item 50" in told and parted == [
        f"item 50, process 1: stepped at 18: first j n: moved[@] = {k} goto 23" for k in (2, 1)], parted)
    traced = [page.tab.answer("trace", "", "%\n".join(page.run(f"[data.choices[{FIRST_IDEA + 3}]{part}].map(c => [c.listing, c.schedule])[0]")).encode()
                              )[1].decode().split("\nitem ") for part in ("", ".change")]
    effects = [[re.sub(r"^(\d+ \d+ [^:\n]*):.*", r"\1", one, flags=re.M) for one in run] for run in traced]
    first = next(k + 1 for k, (a, b) in enumerate(zip(*effects)) if a != b)
    count.check("which is so in the module's traces", first == 50, first)
    columns = page.run("[...document.querySelectorAll('#compared section')].map(e => e.innerText)")
    count.check("and what is judged of each", "answers 3 5: point 42" in columns[0] and "Linearizable." in columns[0] and
                "answers 0 0: no point" in columns[1] and "Not linearizable: item 52, process 1." in columns[1], columns)
    page.click("#compared section:nth-child(2) li.parted button")
    count.check("a click leads to the item, in its run", page.at() == "Item 50 of 52" and not page.shown("#compared") and
                page.text("#change") == "Back to how it was", page.at())
    page.click("#undo")
    count.check("and undo leads back", page.text("#change") == "Make the change", page.text("#change"))
    page.choose(FIRST_IDEA + 2)
    page.click("#compare")
    count.check("a change of the schedule alone is compared, too", "schedule" in page.text("#compared") and "Here the runs part" in page.text(
        "#compared"), page.text("#compared")[:300])
    page.tab.key("Escape")
    page.run("change({idea: null, listing: state.listing, schedule: 'shape 2 2\\n1 scan\\n1*13\\n', at: 0})")
    page.tab.settled()
    page.write("schedule", "shape 2 2\n1 scan\n1*12\n2 scan\n")
    page.leave()
    page.click("#compare")
    count.check("without a lesson it is what stood there before", "Before the last change" in page.text("#compared") and "part at item 14" in page.text(
        "#compared-first"), page.text("#compared-first"))
    page.tab.key("Escape")
    page.write("listing", page.value("#listing textarea").replace("33: finish", "33: finnish"))
    page.leave()
    page.click("#compare")
    count.check("what is refused is told", not page.shown("#compared") and "Now: refused: L3" in page.text("#note"), page.text("#note"))


CONTRAST = """(() => {
    const parts = c => (c.match(/[\\d.]+/g) ?? []).map(Number), light = ([r, g, b]) => [r, g, b].map(v => v / 255).map(v =>
        v <= .03928 ? v / 12.92 : ((v + .055) / 1.055) ** 2.4).reduce((sum, v, k) => sum + v * [.2126, .7152, .0722][k], 0);
    const ground = e => { for (; e; e = e.parentElement) { const c = parts(getComputedStyle(e).backgroundColor);
        if (c.length === 3 || c[3] > 0) return c; } return [255, 255, 255]; };
    const found = [], walker = document.createTreeWalker(document.body, NodeFilter.SHOW_TEXT);
    let count = 0;
    while (walker.nextNode()) {
        const e = walker.currentNode.parentElement;
        if (!walker.currentNode.data.trim() || !e.checkVisibility() || e.closest('.back, script, :disabled, .badge, option')) continue;
        const [a, b] = [light(parts(getComputedStyle(e).color)), light(ground(e))].sort((x, y) => y - x), ratio = (a + .05) / (b + .05);
        count++;
        if (ratio < 4.5) found.push(`${ratio.toFixed(2)} ${e.tagName} ${e.className} ${walker.currentNode.data.slice(0, 30)}`);
    }
    return [count, found];
})()"""


def try_lessons(page, count):
    """Three lessons, by clicks and by keys alone, in each size, light and dark: each caption is on the screen, and the end is told."""
    sizes = (("1440 x 900", {"width": 1440, "height": 900}), ("1280 x 720", PROJECTOR), ("200 %", ZOOMED), ("a phone", PHONE))
    for dark in (False, True):
        for name, how in sizes:
            page.tab.look(how["width"], how["height"], dark, how.get("scale", 1), how.get("mobile", False))
            page.run("scrollTo(0, 0)")
            for idea, answer in ((1, "answers 0 0: point 1,"), (3, "answers 0 5: point 24,"), (10, "answers 0 5 7: point 78,")):
                hidden, told = walk_lesson(page, idea, dark)
                end = page.text("#verdicts")
                count.check(f"{name}, {'dark, by keys' if dark else 'light, by clicks'}: idea {idea}", not hidden and told >= 4 and answer in end,
                            [hidden[:2], told, end])
    page.tab.look(**PROJECTOR)


def walk_lesson(page, idea, keys):
    """Goes through a lesson; the captions that are not on the screen, and how many there are."""
    if keys:
        page.key("o")
        while True:
            title = page.run("document.activeElement.textContent")
            if title.startswith(f"{idea}. "):
                break
            page.tab.key("ArrowDown")
        page.tab.key("Enter")
        page.tab.settled()
    else:
        page.choose(FIRST_IDEA + idea - 1)
    hidden, told = [], set()
    for _ in range(30):
        at = page.at().split()
        told.add(page.text("#caption"))
        box = page.run("(() => { const r = document.getElementById('caption').getBoundingClientRect(), f = document.querySelector('footer')"
                       ".getBoundingClientRect(); return [r.top, r.bottom, f.top, r.height]; })()")
        if box[0] < 0 or box[1] > box[2] or not box[3]:
            hidden.append((page.text("#caption"), box))
        if at[1] == at[3]:
            break
        if keys:
            page.key("n")
        else:
            page.click("#next")
    return hidden, len(told)


def try_contrast(page, count):
    """What is written is at least 4.5 times as light as its ground, or as dark."""
    page.choose(FIRST_IDEA + 3)
    page.click("#change")
    page.click("#end")
    page.click("#verdicts .none")
    page.click("#memory [data-register='r 1']")
    for name in ("light", "dark"):
        page.tab.look(1280, 720, name == "dark")
        page.click("#verdicts .why")
        page.key("ArrowLeft", "ArrowRight")
        seen, low = page.run(CONTRAST)
        count.check(f"contrast, {name}: {seen} texts", seen > 60 and not low, low[:6])
        listing = page.value("#listing textarea")
        page.write("listing", listing.replace("24: return s", "24: retort s"))
        low = [one for one in page.run(CONTRAST)[1]]
        count.check(f"contrast of a refusal, {name}", not low, low[:6])
        page.leave()
        page.click("#undo")
    page.tab.look(**PROJECTOR)


def try_play(page, count):
    page.choose(FIRST_IDEA)
    page.run("document.getElementById('speed').value = '20'")
    page.click("#play")
    page.tab.until("snaplab.state.at === 14 && document.getElementById('play').innerText === 'Play'")
    count.check("play goes to the end, and ends", page.at() == "Item 14 of 14", page.at())
    page.click("#home")
    page.click("#play")
    page.key("ArrowLeft")
    page.tab.settled()
    count.check("a key ends it", page.run("playing.timer") == 0 and page.text("#play") == "Play", [page.run("playing.timer"), page.at()])
    size = page.run("getComputedStyle(document.querySelector('#listing textarea')).fontSize")
    page.key("f")
    large = page.run("getComputedStyle(document.querySelector('#listing textarea')).fontSize")
    count.check("present is large type", float(large[:-2]) > 1.2 * float(size[:-2]), [size, large])
    page.key("f")


def said_in_frame(host, script, first):
    """What an expression says in the frame of a page, where that begins so; its document may be on its way."""
    try:
        frame, *_ = host.tab.ask("Page.getFrameTree")["frameTree"].get("childFrames", [])
        world = host.tab.ask("Page.createIsolatedWorld", frameId=frame["frame"]["id"])["executionContextId"]
        said = host.tab.ask("Runtime.evaluate", expression=script, contextId=world, returnByValue=True)["result"].get("value")
        return str(said).startswith(first) and said
    except (Failed, ValueError):
        return False


def try_addresses(page, count, running):
    other = Page(running.tab(address="file://" + browser.PAGE + "#lesson=3&item=24"))
    other.tab.until("snaplab.state.report?.at === 24 && snaplab.settled()")
    count.check("an address in words opens a lesson at an item", other.at() == "Item 24 of 64", other.at())
    changed = Page(running.tab(address="file://" + browser.PAGE + "#lesson=4&item=52&change"))
    changed.tab.until("snaplab.state.report?.at === 52 && snaplab.settled()")
    count.check("and its change", "point none" in changed.text("#verdicts"), changed.text("#verdicts"))
    changed.run("location.hash = '#lesson=99'")
    changed.tab.until("document.getElementById('note').innerText !== ''")
    count.check("a lesson that is not there is told", "no lesson 99" in changed.text("#note") and changed.at() == "Item 52 of 52", changed.text("#note"))
    changed.tab.close()
    other.run("window.copied = ''; navigator.clipboard.writeText = async text => { window.copied = text; }")
    other.click("#frame")
    other.tab.until("window.copied !== ''")
    frame = other.run("window.copied")
    with tempfile.NamedTemporaryFile("w", suffix=".html", encoding="utf-8") as file:
        file.write(f"<!doctype html><title>a page</title>{frame}")
        file.flush()
        host = Page(running.tab(address="file://" + file.name, wait=False))
        said = "document.querySelector('#where .at')?.innerText + getComputedStyle(document.querySelector('.files') ?? document.body).display"
        shown = browser.wait_for("a position in a frame", lambda: said_in_frame(host, said, "Item"))
        count.check("a frame opens at the position, without what it does not need", shown == "Item 24 of 64none", shown)
        host.tab.close()
    bomb = other.run("""(async () => { const big = new Blob([JSON.stringify({input: ' '.repeat(40000000)})]);
        const packed = new Uint8Array(await new Response(big.stream().pipeThrough(new CompressionStream('deflate-raw'))).arrayBuffer());
        let s = ''; for (let k = 0; k < packed.length; k += 8192) s += String.fromCharCode(...packed.subarray(k, k + 8192));
        return btoa(s).replace(/\\+/g, '-').replace(/\\//g, '_').replace(/=+$/, ''); })()""")
    other.run(f"location.hash = '#{bomb}'")
    other.tab.until("document.getElementById('note').innerText.includes('more than an input')")
    count.check("a link that unpacks to too much is not opened", other.at() == "Item 24 of 64", other.text("#note"))
    other.tab.close()


def try_png(page, count):
    page.choose(FIRST_IDEA + 2)
    page.click("#picture")
    with tempfile.TemporaryDirectory() as folder:
        folder = page.tab.downloads(folder)
        page.click("#keep-png")
        head = open(saved(page, folder, "snaplab-run.png"), "rb").read(24)
        count.check("a picture is saved as PNG", head[:8] == b"\x89PNG\r\n\x1a\n" and int.from_bytes(head[16:20], "big") == 3200, head)
    page.tab.key("Escape")


def main():
    browser.need()
    count = browser.Count()
    with browser.started() as running:
        page = fresh(running.tab(**PROJECTOR))
        for trial in (try_first_seconds, try_position, try_keys_after_a_choice, try_loans, try_keeping, try_changes, try_texts, try_zoomed,
                      try_exercises, try_refusals, try_opening, try_notes, try_traps, try_timeline, try_untold, try_margin, try_movers, try_writers, try_why, try_compare, try_lessons, try_contrast, try_play,
                      try_png):
            attempt(trial, count, page)
        attempt(try_without_module, count, page, running)
        attempt(try_addresses, count, page, running)
        wrong = [str(one["params"])[:400] for one in list(running.events.queue) if one["method"] == "Runtime.exceptionThrown"]
        count.check("no script failed", not wrong, wrong[:3])
    count.finish()


if __name__ == "__main__":
    main()
