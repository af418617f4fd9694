#!/usr/bin/env python3
"""Works each control of the page as a user does, by mouse and by keys, gives it bad input of every kind, and sees that it lives on."""
import json
import os
import re
import sys
import tempfile

sys.dont_write_bytecode = True
import browser  # noqa: E402
from browser import TOP, Failed, NotHere

FIRST_IDEA = 4      # the place of lesson 1, behind three listings and lesson 0
RARE = '#open, #save, #copy, #link, #frame, #picture, #make, #present, #words, #trust, #keys'


def read(*path):
    with open(os.path.join(TOP, *path), encoding="utf-8") as file:
        return file.read()


def parts(text):
    return re.split(r"(?m)^%\n", text)


class Page:
    """The page as its user sees it."""

    def __init__(self, tab):
        self.tab = tab

    def run(self, script):
        return self.tab.run(script)

    def text(self, selector):
        return self.run(f"document.querySelector({json.dumps(selector)})?.innerText ?? ''")

    def shown(self, selector):
        return self.run(f"Boolean(document.querySelector({json.dumps(selector)})?.checkVisibility())")

    def value(self, selector):
        return self.run(f"document.querySelector({json.dumps(selector)}).value")

    def click(self, selector, nth=0):
        """A click; buttons that are rarely needed are behind More."""
        if selector in RARE.split(", ") and not self.shown(selector):
            self.tab.click("#more")
        self.tab.click(selector, nth)
        self.tab.settled()

    def key(self, *keys):
        for key in keys:
            self.tab.key(key, 8 if len(key) == 1 and key.isupper() else 0)
        self.tab.settled()

    def choose(self, number):
        """Chooses in the list of lessons, by clicks; from there keys go to the time line."""
        self.tab.click("#menu")
        self.tab.click(f"#lessons-list button[value='{number}']")
        self.tab.settled()

    def write(self, part, text):
        """Puts a text where one types, as if it were pasted over all."""
        self.run(f"""(() => {{ const a = document.querySelector('#{part} textarea'); a.value = {json.dumps(text)};
            a.dispatchEvent(new Event('input', {{bubbles: true}})); }})()""")
        self.tab.settled()

    def leave(self):
        """Out of a text, to the time line."""
        self.tab.key("Escape")

    def at(self):
        return self.text("#where .at")

    def schedule(self):
        return self.run("snaplab.state.schedule")


# What a caption may say of its items, and the shape of the module's picture that is then among them.
SAID = ((r"\bfails?\b", "fail"), (r"\bpass(es)?\b", "pass"), (r"\b(borrow|lend|lent)|\bthe view of\b", "loan"))


def untrue_captions(page):
    """The captions that tell of a test, a loan or an answer that is not among their items."""
    texts, total = page.run("[[state.listing, state.schedule], state.report.total]")
    drawn = page.tab.ask_module("page_shapes", [text.encode() for text in texts], (1, total))[1].decode()
    happened = [(name, int(item)) for name, item in re.findall(r"(?m)^(pass|fail) \d+ (\d+) ", drawn) +
                re.findall(r"(?m)^(loan) \d+ \d+ \d+ (\d+) ", drawn)]
    traced = page.tab.answer("trace", "", "%\n".join(texts).encode())[1].decode()
    answers = [(view, int(item)) for item, view in re.findall(r"(?m)^item (\d+) \d+ answered ([\d ]+) at ", traced)]
    found = []
    for told in page.run("captions()"):
        items, text = range(told["from"] + 1, told["at"] + 1), told["text"]
        names, views = ({what for what, item in each if item in items} for each in (happened, answers))
        wanted = [name for pattern, name in SAID if re.search(pattern, text)]
        viewed = re.findall(r"\banswers? ((?:\d+ )*\d+)\b", text)
        if not names.issuperset(wanted) or not views.issuperset(viewed):
            found.append(text)
    return found


def try_gallery(page, count):
    data = json.loads(page.run("JSON.stringify(data)"))
    written = re.split(r"(?m)^## ", "".join(read("docs", "tutorial", name) for name in ("gallery.md", "gallery-2.md")))
    sections = {one.partition(".")[0]: " ".join(re.sub(r"\[([^]]*)\]\([^)]*\)|[`*]", r"\1", one).split()) for one in written}
    for place, idea in ((place, one) for place, one in enumerate(data["choices"]) if "change" in one):
        section, k = sections.get(idea["title"].partition(".")[0], ""), place - FIRST_IDEA
        page.choose(place)
        told = page.run("[...document.querySelectorAll('#idea-text p')].map(p => p.innerText)")
        open_ends = [one for one in told if one.endswith(":")]
        count.check(f"idea {k + 1}: no paragraph leads to what is not there", not open_ends, open_ends)
        places = [section.find(one[:40]) for one in told]
        count.check(f"idea {k + 1}: its paragraphs stand as in the document", -1 not in places and places == sorted(places), places)
        for which, shows in (("as it is", idea["shows"]), ("changed", idea["change"]["shows"])):
            page.click("#end")
            untrue = untrue_captions(page)
            count.check(f"idea {k + 1} {which}: its captions tell what happens", not untrue, untrue)
            if not shows:
                count.check(f"idea {k + 1} {which}: no scan ends", "No scan has ended" in page.text("#verdicts"), page.text("#verdicts"))
                page.click("#change")
                continue
            none = shows.endswith(" none")
            told = page.text("#verdicts")
            wanted = shows.removesuffix(" none").replace("answer ", "answers ")
            ends = f"{wanted}:" in told and ("point none" in told) == none
            count.check(f"idea {k + 1} {which}: {shows}", ends, told)
            if none:
                ink = page.run("getComputedStyle(document.querySelector('#verdicts .none')).color")
                count.check(f"idea {k + 1} {which}: not red", ink == "rgb(22, 24, 29)", ink)
            page.click("#change")
        count.check(f"idea {k + 1}, back", page.schedule() == idea["schedule"] and page.text("#change") == "Make the change")
    page.choose(FIRST_IDEA + 2)
    page.click("#end")
    count.check("a lender is told", "view of process 2" in page.text("#verdicts"), page.text("#verdicts"))
    for k, (first, words) in enumerate((("kind seq", "#"), ("kind bit", "#"), ("kind multi", "#"))):
        page.choose(k)
        listing = page.value("#listing textarea")
        count.check(f"listing {k + 1}, annotated", listing.startswith(first) and words in listing)


def try_buttons(page, count):
    page.choose(0)
    page.click(".process .scan")
    page.click(".process .step")
    page.click(".process .step")
    page.click(".process .update", 1)
    page.click(".process .step", 1)
    page.click(".process .crash", 2)
    count.check("the buttons write the schedule", page.schedule() == "shape 3 3\n1 scan\n1*2\n2 update 2 5\n2\n3 crash\n", page.schedule())
    count.check("and go on", page.at() == "Item 6 of 6", page.at())
    count.check("the next update has another value", page.value("#value") == "6")
    heads = [page.text(f".process:nth-child({k}) .what") for k in (1, 2, 3)]
    count.check("each process's place", heads == ["scan at 12", "update 2 5 at 10, then back to 31", "crashed"], heads)
    margin = page.run("[...document.querySelectorAll('#listing .gutter > div')].map(r => r.innerText.trim())"
                      ".map((t, k) => t && `${snaplab.state.listing.split('\\n')[k].split(':')[0]} ${t}`).filter(Boolean)")
    count.check("and its badge", [" ".join(one.split()) for one in margin] == ["10 2", "12 1", "31 2"], margin)
    page.click("#undo")
    page.click("#undo")
    count.check("undo", page.schedule().endswith("2 update 2 5\n"), page.schedule())
    page.click("#redo")
    count.check("redo", page.schedule().endswith("2 update 2 5\n2\n"), page.schedule())
    page.click("#home")
    page.click(".process .step")
    count.check("a step of an idle process is not to be had", page.at() == "Item 0 of 5" and page.run(
        "[...document.querySelectorAll('.process .step')].every(one => one.disabled)"), page.at())
    page.key("1")
    count.check("nor by its key, and it says why", "idle: call it" in page.text("#note") and page.at() == "Item 0 of 5", page.text("#note"))
    page.click(".process .scan", 1)
    count.check("a call in the middle stands there", page.schedule().startswith("shape 3 3\n2 scan\n1 scan\n") and page.at() == "Item 1 of 6")
    page.click("#undo")
    page.run("goTo(2)")
    page.tab.settled()
    page.click(".process .scan", 2)
    count.check("a call parts a line", page.schedule() == "shape 3 3\n1 scan\n1\n3 scan\n1\n2 update 2 5\n2\n", page.schedule())
    page.click("#cut")
    count.check("what follows is cut", page.schedule() == "shape 3 3\n1 scan\n1\n3 scan\n", page.schedule())
    page.run("goTo(1)")
    page.tab.settled()
    page.click(".process .step")
    count.check("a step that comes next is just made", page.at() == "Item 2 of 3" and page.schedule().count("\n") == 4)
    page.click("#processes summary")
    page.tab.until("document.querySelector('.process .locals').innerText !== ''")
    count.check("locals unfold", "moved = 0 0 0" in page.text(".process .locals"), page.text(".process .locals"))
    page.click("#processes summary")


def try_walk(page, count):
    page.choose(FIRST_IDEA + 2)
    total = 64
    page.leave()
    for key, wanted in (("End", total), ("ArrowLeft", total - 1), ("Home", 0), ("ArrowRight", 1), ("PageDown", 11), ("PageUp", 1)):
        page.key(key)
        count.check(f"key {key}", page.at() == f"Item {wanted} of {total}", page.at())
    for button, wanted in (("end", total), ("back", total - 1), ("home", 0), ("on", 1)):
        page.click(f"#{button}")
        count.check(f"button {button}", page.at() == f"Item {wanted} of {total}", page.at())
    page.run("goTo(54)")
    page.tab.settled()
    page.run("goTo(53)")
    page.tab.settled()
    page.run("goTo(54)")
    page.tab.settled()
    changed = page.text("#memory")
    count.check("old beside new", "5\u21926" in changed and "0\u21925" in changed, changed)
    page.click("#end")
    box = page.run("(() => { const r = document.getElementById('timeline').getBoundingClientRect(); return [r.x, r.y, r.width, r.height]; })()")
    page.tab.mouse(box[0] + box[2] / 2, box[1] + box[3] / 2)
    page.tab.settled()
    middle = int(page.at().split()[1])
    count.check("a click on the time line", 28 <= middle <= 36, page.at())
    page.tab.mouse(box[0] + box[2] / 2, box[1] + 9, (box[0] + box[2] * .7, box[1] + 9), (box[0] + box[2] * .9, box[1] + 9))
    page.tab.settled()
    count.check("a drag", int(page.at().split()[1]) > 50, page.at())
    count.check("the slider tells", page.run("document.getElementById('timeline').getAttribute('aria-valuenow')") == page.at().split()[1])
    page.click("#end")
    page.click("#verdicts button")
    count.check("a verdict leads to its point", page.at() == "Item 24 of 64", page.at())
    page.run("(() => { const a = document.getElementById('at'); a.value = '38'; a.onchange(); })()")
    page.tab.settled()
    count.check("a position that is typed", page.at() == "Item 38 of 64", page.at())
    for key in "++-0":
        page.leave()
        page.key(key)
    for button in ("closer", "wider", "fit"):
        page.click(f"#{button}")
    count.check("zoom", page.run("line.from === 0 && line.to === 64"))


def try_marks(page, count):
    page.choose(FIRST_IDEA + 2)
    row = page.run("snaplab.state.listing.split('\\n').findIndex(l => l.startsWith('23:'))")
    page.click("#listing .gutter > div", row)
    count.check("a click sets a breakpoint", "line 23" in page.text("#marks"), page.text("#marks"))
    page.leave()
    page.key("r")
    count.check("run stops there", page.at() == "Item 62 of 64", page.at())
    page.key("r")
    count.check("and then at the end", page.at() == "Item 64 of 64", page.at())
    page.key("R")
    count.check("run back", page.at() == "Item 62 of 64", page.at())
    page.leave()
    page.key("b")
    count.check("b takes it away where the process stands", page.text("#marks") == "", page.text("#marks"))
    page.key("m", "Tab", "Tab", "w")
    count.check("w watches the register that has the focus", "r 2" in page.text("#marks"), page.text("#marks"))
    page.leave()
    page.key("Home", "r")
    count.check("run stops at a write", page.at() == "Item 24 of 64", page.at())
    page.click("#run")
    count.check("and at the next", page.at() == "Item 54 of 64", page.at())
    page.click("#rrun")
    count.check("and back by the button", page.at() == "Item 24 of 64", page.at())
    page.click("#marks button")
    count.check("a mark is taken away by its button", page.text("#marks") == "")
    page.click("#memory [data-register='r 1']")
    count.check("a click watches", "r 1" in page.text("#marks"))
    page.leave()
    page.key("l", *["ArrowUp"] * 30, *["ArrowDown"] * 24, "b")
    count.check("b sets one at the margin's line", "line 33" in page.text("#marks"), page.text("#marks"))
    page.write("listing", page.value("#listing textarea").replace("33: finish", "34: finish"))
    page.leave()
    page.key("r")
    count.check("a mark of a line that has gone is refused in words", "G2 NoSuchLine" in page.text("#note"), page.text("#note"))


def try_files(page, count, running):
    page.choose(FIRST_IDEA + 2)
    page.click("#listing .gutter > div", 10)
    page.run("goTo(30)")
    page.tab.settled()
    text = page.run("asInput()")
    wanted = parts(read("examples", "borrowed-view", "stdin").partition("\n")[2])    # without the sentence above the listing
    got = parts(text)
    lesson = '# lesson {"idea":"3. A scan that borrows its view","goal":null}\n'
    items = [re.findall(r"(?m)^[^#\n]*[^#\s]", part) for part in (got[1], wanted[1])]      # captions are the lesson's own
    count.check("the input of debug", got[0] == wanted[0] and items[0] == items[1] and got[2] == lesson + "break 1 13\nbreak 2 13\ngoto 30\n", got[2])
    page.run("window.copied = ''; navigator.clipboard.writeText = async text => { window.copied = text; }")
    page.click("#copy")
    page.tab.until("window.copied !== ''")
    count.check("copy", page.run("window.copied") == text)
    page.run("window.copied = ''")
    page.click("#link")
    page.tab.until("window.copied !== ''")
    link = page.run("window.copied")
    other = Page(running.tab(address=link))
    other.tab.until("snaplab.state.report?.at === 30 && snaplab.settled()")
    count.check("the link has all of it", other.run("asInput()") == text and other.run("snaplab.state.idea") == FIRST_IDEA + 2, link[:60])
    other.tab.close()
    with tempfile.TemporaryDirectory() as folder:
        folder = page.tab.downloads(folder)
        page.click("#save")
        path = saved(page, folder, "snaplab-input.txt")
        count.check("save", os.path.exists(path) and open(path, encoding="utf-8").read() == text)
        page.choose(0)
        open_file(page, path)
        count.check("open", page.run("asInput()") == text)
        for name in ("examples/debug", "tests/cases/debug-end-of-a-run"):
            open_file(page, os.path.join(TOP, name, "stdin"))
            out = re.findall(r"(?m)^report at (\d+) of", read(name, "stdout"))[-1]
            count.check(f"open {name}", page.at().split()[1] == out, page.at())


def try_picture(page, count):
    page.choose(FIRST_IDEA + 2)
    page.run("(window.blocked = [], document.addEventListener('securitypolicyviolation', event => blocked.push(event.violatedDirective)), 0)")
    page.click("#picture")
    colour = page.run("getComputedStyle(document.getElementById('drawn').shadowRoot.querySelector('.values rect')).fill")
    count.check("a picture has its colours, and breaks no policy", colour == "rgb(240, 228, 66)" and not page.run("blocked"), [colour, page.run("blocked")])
    shown = page.run("document.getElementById('drawn').shadowRoot?.querySelector('title')?.textContent ?? ''")
    count.check("a picture of the run", page.shown("#picture-shown") and "items 1 to 64 of 64" in shown, shown + page.text("#note"))
    count.check("and of which items it is", page.text("#drawn-items") == "items 1 to 64 of 64", page.text("#drawn-items"))
    with tempfile.TemporaryDirectory() as folder:
        folder = page.tab.downloads(folder)
        page.click("#keep")
        path = saved(page, folder, "snaplab-run.svg")
        wanted, got = (re.sub(r"(?s)<metadata>.*?</metadata>", "", one) for one in (
            read("docs", "pictures", "borrowed-view.svg"), open(path, encoding="utf-8").read()))
        count.check("it is saved, as bin/snapdraw draws it", got == wanted)
    page.tab.key("Escape")
    count.check("Escape closes it", not page.shown("#picture-shown"))
    page.write("schedule", "shape 2 2\n1 scan\n1*499\n2 update 2 5\n2*499\n")
    for steps, wanted in (((), "items 351 to 650 of 1000, around the position"), (("+", "+", "+"), "items 439 to 563 of 1000")):
        page.run("goTo(500)")
        page.leave()
        page.key(*steps)
        page.click("#picture")
        count.check(f"a part: {wanted}", page.text("#drawn-items") == wanted, page.text("#drawn-items"))
        page.tab.key("Escape")
    page.leave()
    page.key("0")
    page.write("schedule", "shape 2 2\n")
    page.click("#picture")
    count.check("a run of no items has none", "no picture" in page.text("#note"), page.text("#note"))
    page.write("schedule", "shape 2 2\nhello\n")
    page.click("#picture")
    count.check("nor has what is refused", "Mend" in page.text("#note") and not page.shown("#picture-shown"), page.text("#note"))


def saved(page, folder, name):
    """The path of a file that is saved, once it is there."""
    path = os.path.join(folder, name)
    browser.wait_for(f"the file {name}", lambda: os.path.exists(path) and os.path.getsize(path))
    return path


def open_file(page, path):
    page.tab.give_file("#file", path)
    page.tab.until("document.getElementById('file').value === '' && snaplab.settled()")


def try_exercise(page, count, running):
    data = json.loads(page.run("JSON.stringify(data)"))
    page.choose([bool(one.get("goal")) for one in data["choices"]].index(True))
    count.check("an exercise says that it is not met", "Not met yet" in page.text("#goal"), page.text("#goal"))
    page.write("schedule", "shape 2 2\n1 scan\n1*6\n2 update 2 7\n2*17\n1*50\n")
    count.check("and not before it has run", "Not met yet, up to item 0" in page.text("#goal"), page.text("#goal"))
    page.click("#end")
    count.check("and when it is", page.text("#goal").startswith("Met: the scan of process 1, items 1 to"), page.text("#goal"))
    page.write("schedule", "shape 2 2\n1 scan\n1*6\n")
    page.leave()
    page.click("#make")
    count.check("the form", page.shown("#form"))
    page.run("""(() => { const e = document.querySelector('#form form').elements; e.task.value = 'Find one double collect.';
        e.who.value = ''; e.view.value = '0  0'; e.collects.value = '1'; e.items.value = '14'; })()""")
    page.click("#form button[value=make]")
    page.tab.until("snaplab.state.goal?.task === 'Find one double collect.' && snaplab.settled()")
    count.check("a task of one's own", "Find one double collect." in page.text("#idea-text") and "in at most 14 items" in page.text("#goal"))
    link = page.run("asHash()")
    other = Page(running.tab(address="file://" + browser.PAGE + link))
    other.tab.until("snaplab.state.goal !== null && snaplab.settled()")
    count.check("goes by a link", "Find one double collect." in other.text("#idea-text"))
    other.key("End")
    for _ in range(7):
        other.click(".process .step")
    other.tab.settled()
    other.tab.until("snaplab.settled()")
    count.check("and is met by pressing step", other.text("#goal") == "Met: the scan of process 1, items 1 to 14.", other.text("#goal"))
    other.tab.close()


REFUSED = {
    "listing": ["L2.txt", "L3.txt", "L4.txt", "L5.txt", "L6.txt", "L7.txt", "L7-kind.txt", "L8.txt", "L9.txt", "L10.txt"],
    "schedule": ["S2.txt", "S3.txt", "S4.txt", "S5.txt", "W1.txt"],
}


def try_refusals(page, count):
    for part, names in REFUSED.items():
        for name in names:
            page.choose(FIRST_IDEA)
            listing, *more = parts(read("examples", "refusals", name))
            page.write("listing", listing)
            if more:
                page.write("schedule", more[0])
            code, told = name.removesuffix(".txt").removesuffix("-kind"), page.text(f"#{part}-refusal")
            bad = page.run(f"document.querySelectorAll('#{part} .back .bad').length")
            count.check(f"{name} is refused at its line", told.startswith(f"refused: {code} ") and len(told) > 30 and bad > 0, told[:90])
    others = {
        "L1 TooLong": ("listing", "#" * 65537), "S1 TooLong": ("schedule", "#" * 4194305), "P2 WrongParts": ("listing", "kind seq\n%\n"),
        "P1 InputTooLong": ("schedule", "#" * 16777217), "L2 BadHeader 1": ("listing", ""), "S2 BadShape": ("schedule", ""),
    }
    for wanted, (part, text) in others.items():
        page.choose(FIRST_IDEA)
        page.write(part, text)
        told = page.text("#listing-refusal") + page.text("#schedule-refusal")
        count.check(f"{wanted} is refused in words", f"refused: {wanted}" in told, told[:90])
        lives_on(page, count, wanted)
    page.choose(FIRST_IDEA)
    page.write("listing", "")
    page.write("schedule", "")
    count.check("an empty page is refused in words", "L2 BadHeader 1" in page.text("#listing-refusal"))
    page.click(".process .step")
    page.click("#run")
    page.click("#end")
    lives_on(page, count, "an empty page")
    open_bytes(page, bytes(range(256)) * 9)
    count.check("bytes that are no text are refused in words", "refused: L2" in page.text("#listing-refusal"), page.text("#note"))
    open_bytes(page, (read("examples", "first-run.txt") + "%\nhello\n").encode())
    count.check("commands that are none are refused in words", "G1 BadCommand 1" in page.text("#note"), page.text("#note"))
    open_bytes(page, (read("examples", "refusals", "G6.txt")).encode())
    count.check("65 marks are not too many", page.run("markCommands().length") > 64 and page.at().startswith("Item"), page.text("#note"))
    page.run("location.hash = '#nonsense'")
    count.check("a link that is cut is told", page.tab.when("document.getElementById('note').innerText.includes('cannot be read')"), page.text(
        "#note"))
    lives_on(page, count, "a bad link")


def open_bytes(page, content):
    with tempfile.NamedTemporaryFile(suffix=".txt") as file:
        file.write(content)
        file.flush()
        open_file(page, file.name)


def lives_on(page, count, after):
    page.choose(FIRST_IDEA)
    page.click("#end")
    count.check(f"the page lives on after {after}", page.at() == "Item 14 of 14" and "answers 0 0" in page.text("#verdicts"), page.at())


def work_long_schedules(page, check):
    """A schedule of 1,000,000 items in few lines, and one of 988,000 in a million bytes of text; a step at the end of each."""
    page.choose(FIRST_IDEA)
    page.write("schedule", "shape 2 2\n1 update 1 7\n2 scan\n" + "1*499999\n2*499999\n")
    listing = page.run("snaplab.state.listing")
    check("1,000,000 items", page.at() == "Item 0 of 1000000", page.at())
    page.click("#end")
    check("their end", page.at() == "Item 1000000 of 1000000", page.at())
    page.click(".process .scan")
    check("one more is refused in words", "S4 TooManyItems" in page.text("#schedule-refusal"), page.text("#schedule-refusal"))
    page.click("#undo")
    several = "".join(f"{k % 2 + 1} scan\n1*9\n2*9\n1 update 1 {k}\n1*6\n" for k in range(38000))
    open_bytes(page, f"{listing}%\nshape 2 2\n{several}".encode())
    check("988,000 items, a million bytes of text", page.at().endswith("of 988000"), page.at() + page.text("#schedule-refusal"))
    page.click("#end")
    check("the text is shown in part", page.run("document.querySelectorAll('#schedule .gutter > div').length") <= 301 and
          page.shown("#window"))
    page.click(".process .scan" if page.run("document.querySelector('.process .step').disabled") else ".process .step")
    check("a step at the end of them", page.at() == "Item 988001 of 988001", page.at())
    page.choose(FIRST_IDEA)


def try_tasks(page, count):
    """What takes a task of the page long by its own work does so each time; what a busy machine makes longer does not."""
    found, most = [], 100
    for check in (count.check, lambda *_: None, lambda *_: None):
        most = 100 * page.tab.slowness()
        page.tab.watch_tasks()
        work_long_schedules(page, check)
        found.append(page.tab.longest_tasks())
        if found[-1] and max(found[-1]) <= most:
            break
    count.check("no task of the page takes a processor for 100 ms, or on a slow one as much longer", found[-1] and max(found[-1]) <= most, [found, most])
    print("the longest tasks", found, "ms")


def try_sizes(page, count):
    page.choose(2)
    page.write("schedule", "shape 64 64\n" + "".join(f"{k} update {65 - k} {k}\n{k}*900\n" for k in range(1, 65)))
    page.click("#end")
    heads = page.run("document.querySelectorAll('.process').length")
    count.check("64 processes of M", heads == 64 and page.at() == "Item 57664 of 57664", page.at())
    page.click(".process .step", 63)
    count.check("a step of the 64th", page.schedule().endswith("64*901\n"), page.schedule()[-20:])
    lines = page.run("[...document.querySelectorAll('#listing .gutter > div')].flatMap((r, k) => r.classList.contains('numbered') ? [k] : [])")
    for k in lines[3:6]:
        page.click("#listing .gutter > div", k)
    page.click("#home")
    page.leave()
    page.key("r")
    count.check("192 breakpoints stop a run", 0 < int(page.at().split()[1]) < 57664, page.at() + page.text("#note"))
    lives_on(page, count, "64 processes")


def try_stop(page, count):
    page.choose(2)
    page.write("schedule", "shape 2 2\n1 scan\n")
    # The worker's answer is not heard, so that a fast machine too is still at it when the run is stopped.
    page.run("asker.worker.onmessage = null")
    page.run("""(() => { const a = document.querySelector('#schedule textarea');
        a.value = 'shape 64 64\\n' + Array.from({length: 64}, (_, k) => `${k + 1} update ${k + 1} 5\\n`).join('') +
            Array.from({length: 15000}, (_, k) => `${k % 64 + 1}*60\\n`).join('');
        a.dispatchEvent(new Event('input', {bubbles: true})); })()""")
    count.check("a long run has a bar", page.tab.when("!document.getElementById('progress').hidden", 60))
    page.tab.click("#stop")
    page.tab.settled()
    count.check("a long run is stopped", "Stopped" in page.text("#note"), page.text("#note"))
    lives_on(page, count, "a stop")


def try_trap(page, count):
    """The glue over instances that are made up: one traps, one asks for room, one has no memory."""
    script = """(() => {
        const {Glue, codes} = new Function(document.getElementById('worker').textContent
            + '; return {Glue, codes: {OUTPUT, MEMORY, TRAPPED}}')();
        const glue = new Glue(null), memory = new WebAssembly.Memory({initial: 8});
        let made = 0, freed = 0, next = 16, mode = 'trap', asked = [];
        glue.start = () => { made++; glue.instance = {memory, page_free: () => { freed++; },
            page_room: n => mode === 'none' ? 0n : BigInt((next += Number(n) + 16) - Number(n) - 16),
            page_output: (taken, s, sl, k, kl, i, il, room, length) => {
                asked.push(Number(length));
                if (mode === 'trap') throw new WebAssembly.RuntimeError('unreachable');
                const told = new DataView(memory.buffer), want = 100000;
                told.setUint8(Number(taken), length < want ? 3 : 0);
                told.setBigUint64(Number(taken) + 8, BigInt(want), true);
                if (length >= want) new Uint8Array(memory.buffer, Number(room), want).fill(65);
            }};
            glue.taken = glue.instance.page_room(16n); glue.room = 0n; glue.roomLength = 0n; };
        const ask = () => glue.answer('page_output', ['run', '', '']);
        const first = ask(), dropped = glue.instance === null;
        mode = 'small';
        const second = ask(), third = ask();
        mode = 'none'; glue.instance = null;
        const fourth = ask();
        return [first.code === codes.TRAPPED && dropped, made, second.code, second.bytes.length, third.bytes[99999],
            asked.join(), fourth.code === codes.MEMORY];
    })()"""
    told = page.run(script)
    count.check("after a trap the instance is given up, and a new one made", told[:2] == [True, 3], told)
    count.check("room that is too small is made larger once", told[2:6] == [0, 100000, 65, "65536,65536,100000,100000"], told)
    count.check("want of memory is told", told[6], told)
    page.run("state.refusal = readRefusal({code: TRAPPED, text: 'RuntimeError: unreachable'}), showState()")
    count.check("and the page says so", "was started anew" in page.text("#note"), page.text("#note"))
    lives_on(page, count, "a trap")


def try_readers(page, count):
    """Names and live regions, for those who listen; keys, for those who have no mouse."""
    page.choose(FIRST_IDEA + 3)
    page.click("#change")
    page.click("#end")
    page.click("#verdicts .none")
    told = page.text("#where")
    count.check("position, outcome and verdict are told", page.run("document.getElementById('where').getAttribute('aria-live')") == "polite"
                and "Item 52 of 52" in told and "answered 0 0" in told and "point none" in told, told)
    nodes = page.tab.ask("Accessibility.getFullAXTree")["nodes"]
    unnamed = [one["role"]["value"] for one in nodes if not one.get("ignored") and one["role"]["value"] in
               ("button", "textbox", "combobox", "slider", "listbox", "link", "option", "separator", "splitter") and not one.get("name", {}).get("value")]
    count.check("every control has a name", not unnamed, unnamed)
    reached = set()
    page.run("goTo(45)")
    page.tab.settled()
    page.leave()
    for _ in range(140):
        page.tab.key("Tab")
        reached.add(page.run("document.activeElement.id || document.activeElement.className || document.activeElement.dataset.register || "
                             "document.activeElement.parentElement?.parentElement?.id || document.activeElement.tagName"))
    wanted = {"menu", "hunt", "undo", "open", "save", "copy", "link", "picture", "make", "keys", "gutter", "word", "value", "step", "scan", "update", "crash",
              "cut", "run", "rrun", "home", "end", "at", "timeline", "play", "next", "previous", "compare", "words", "present", "trust", "frame",
              "edge-left", "edge-right", "edge-middle"}
    count.check("the Tab key reaches every control", wanted <= reached, wanted - reached)
    page.leave()
    page.key("?")
    count.check("the keys are listed", page.shown("#help") and "run back" in page.text("#help"))
    page.tab.key("Escape")
    page.choose(0)
    page.key("p")
    page.tab.key("Enter")
    page.tab.settled()
    page.key("1", "1", "t", "1")
    count.check("a schedule is written by keys alone", page.schedule() == "shape 3 3\n1 scan\n1*3\n", page.schedule())
    page.key("z")
    count.check("z takes back", page.schedule() == "shape 3 3\n1 scan\n1*2\n", page.schedule())
    page.key("y")
    count.check("y brings back", page.schedule().endswith("1*3\n"))


CONTROLS = ("button", "textbox", "combobox", "slider", "listbox", "link", "option", "separator", "splitter", "DisclosureTriangle")
PARTS = ("region", "table", "list", "group", "dialog", "heading", "rowheader", "columnheader")
# Where one comes to on the way through the page, in this order.
WAY = (("button", "Lesson 3. A scan that borrows its view"), ("button", "Undo"), ("region", "Listing"), ("listbox", "Margin: Listing"), ("textbox", "Listing"),
       ("region", "Processes and schedule"), ("group", "Process 1"), ("group", "Process 2"), ("heading", "Schedule"), ("button", "Find a failure"),
       ("textbox", "Schedule"), ("region", "Memory and verdicts"), ("list", "Verdicts"), ("table", "Registers r"), ("button", "Next caption"),
       ("region", "Position"), ("button", "One item on"), ("slider", "Time line: position in the schedule"))


def spoken(tab):
    """What a screen reader is told, in order: role, name, description and states of each part."""
    nodes, found = {one["nodeId"]: one for one in tab.ask("Accessibility.getFullAXTree")["nodes"]}, []

    def walk(node):
        if not node.get("ignored"):
            states = {one["name"]: one["value"].get("value") for one in node.get("properties", [])}
            found.append((node["role"]["value"], *(node.get(part, {}).get("value", "").strip() for part in ("name", "description")), states))
        for child in node.get("childIds", []):
            if child in nodes:
                walk(nodes[child])

    walk(next(one for one in nodes.values() if "parentId" not in one))
    return found


def try_spoken(page, count):
    """What a screen reader is told at three positions of a lesson: a name of each control, its state, and nothing twice."""
    page.choose(FIRST_IDEA + 2)
    page.click("#memory [data-register='r 1']")
    page.leave()
    page.tab.ask("Accessibility.enable")
    for item in (0, 54, 64):
        page.run(f"(document.getElementById('timeline').focus(), goTo({item}).then(() => 0))")
        page.tab.settled()
        told = spoken(page.tab)
        unnamed = [role for role, name, *_ in told if role in CONTROLS + PARTS and not name]
        count.check(f"item {item}: every control has a name", len(told) > 300 and not unnamed, unnamed[:5])
        names = [name for role, name, *_ in told if role == "button"]
        count.check(f"item {item}: and each button a name of its own", len(names) == len(set(names)) > 50, sorted(one for one in names if names.count(one) > 1))
        twice = [(name, more) for role, name, more, _ in told if role in CONTROLS and more and (more in name or name == more)]
        count.check(f"item {item}: no name is told again behind it", not twice, twice[:3])
        places = [next((k for k, one in enumerate(told) if one[:2] == part), -1) for part in WAY]
        count.check(f"item {item}: the way through the page is in order", -1 not in places and places == sorted(places), list(zip(WAY, places)))
        states = {name: states for role, name, _, states in told if role == "button"}
        count.check(f"item {item}: states are told", states["r 1"]["pressed"] == "true" and states["r 2"]["pressed"] == "false" and (
            states["step, process 1"].get("disabled") or False) == (item != 54), [states["r 1"], states["step, process 1"]])
        where = "[document.getElementById('timeline').getAttribute('aria-valuetext'), document.getElementById('where').textContent, document." \
                "getElementById('where').getAttribute('aria-live')]"
        slider, words, live = page.run(where)
        count.check(f"item {item}: the position is told once, by the time line that has the focus", slider == words != "" and live == "off", [slider, words, live])
    for button in ("menu", "keys", "words", "trust", "picture", "compare", "make"):
        page.click("#" + button)
        page.tab.until("document.querySelector('dialog[open]') !== null && snaplab.settled()")
        told = spoken(page.tab)
        unnamed = [role for role, name, *_ in told if role in CONTROLS + PARTS and not name]
        count.check(f"what {button} opens has names", not unnamed and any(role == "dialog" for role, *_ in told), unnamed[:5])
        page.tab.key("Escape")
    page.click("#verdicts .why")
    told = spoken(page.tab)
    unnamed = [role for role, name, *_ in told if role in CONTROLS + PARTS and not name]
    heard = {(role, name) for role, name, *_ in told}
    count.check("so has why", not unnamed and {("region", "Why item 64 came out so"), ("button", "point: to item 24")} <= heard, unnamed[:5])
    page.click("#why-close")
    page.tab.ask("Accessibility.disable")
    page.click("#memory [data-register='r 1']")


def try_alone(page, count):
    """The page is one file, and asks for nothing."""
    text = open(browser.PAGE, encoding="utf-8").read()
    policy = re.search(r'http-equiv="Content-Security-Policy" content="([^"]*)"', text)[1]
    hashed = [re.search(rf"{part} 'sha256-[A-Za-z0-9+/=]*'", policy) for part in ("script-src", "style-src")]
    count.check("the policy allows the page's script and style alone, by their hashes", all(hashed) and "unsafe-inline" not in policy and all(
        part in policy for part in ("default-src 'none'", "base-uri 'none'", "form-action 'none'")), policy)
    page.run("document.body.append(Object.assign(document.createElement('script'), {textContent: 'window.strange = 1'}))")
    count.check("another script does not run", page.run("window.strange === undefined"))
    page.run("document.body.append(Object.assign(document.createElement('style'), {textContent: 'h1 { letter-spacing: 9px; }'}))")
    page.run("document.querySelector('h1').setAttribute('style', 'word-spacing: 9px')")
    told = page.run("(() => { const s = getComputedStyle(document.querySelector('h1')); return [s.letterSpacing, s.wordSpacing]; })()")
    count.check("nor has another style any effect", "9px" not in told, told)
    outside = re.findall(r"(?:src|href)=\"?(?!data:)[a-z]+:|url\((?!#)|@import|fetch\(|XMLHttpRequest|https?://", text)
    count.check("nothing is loaded from elsewhere", not outside, outside[:5])
    page.click("#trust")
    sentences = re.split(r"(?<=\.)\s+", page.run("document.querySelector('#proved p').textContent.trim()"))
    count.check("a button tells what is proved", page.shown("#proved"))
    page.tab.key("Escape")
    count.check("five sentences say what is proved and what is trusted", len(sentences) == 5 and all(
        word in " ".join(sentences) for word in ("proved", "judgement", "trusted", "browser", "wasm64", "linker", "lowering", "heap")), len(sentences))


def main():
    browser.need()
    count = browser.Count()
    with browser.started() as running:
        page = Page(running.tab())
        for trial in (try_alone, try_gallery, try_buttons, try_walk, try_marks, try_picture, try_readers, try_spoken, try_refusals, try_tasks, try_sizes,
                      try_stop, try_trap):
            attempt(trial, count, page)
        attempt(try_files, count, page, running)
        attempt(try_exercise, count, page, running)
        wrong = [str(one["params"])[:300] for one in list(running.events.queue) if one["method"] == "Runtime.exceptionThrown"]
        count.check("no script failed", not wrong, wrong[:3])
    count.finish()


def attempt(trial, count, page, *more):
    try:
        trial(page, count, *more)
    except NotHere as why:
        print(f"left out here, the rest of {trial.__name__}: {why}")
    except Failed as failed:
        count.check(trial.__name__, False, str(failed)[:300])


if __name__ == "__main__":
    main()
