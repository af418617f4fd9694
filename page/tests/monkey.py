#!/usr/bin/env python3
"""Presses what there is to press, by chance, and compares all that is shown with what the program says of the texts and the position, and
with what each press is to do.

    page/tests/monkey.py [ACTIONS [SEEDS [FIRST]]]    so many actions (200) for each of so many seeds (2), from this one on (1)

The program is crates/snaplab/out/snaplab, or what SNAPLAB names; without it the module of another tab answers. Why an item came out so is
compared with what crates/snapdb/out/snapdb says, where that is there.
"""
import json
import os
import random
import re
import subprocess
import sys
import tempfile

sys.dont_write_bytecode = True
import browser  # noqa: E402
from browser import TOP, Failed  # noqa: E402

LESSONS, MOST_ITEMS = 17, 400
# What there is to press, and how often.
ACTIONS = {"step": 30, "call": 14, "crash": 1, "back": 10, "on": 8, "home": 2, "end": 5, "run": 5, "rrun": 3, "break": 4, "watch": 3, "undo": 7,
           "redo": 5, "cut": 2, "lesson": 1, "jump": 5, "zoom": 2, "far": 3, "type": 2, "why": 3}
SHOWN = """
window.act = async (selector, nth, key) => {
    const target = key ? document.activeElement : document.querySelectorAll(selector)[nth];
    if (key) target.dispatchEvent(new KeyboardEvent('keydown', {key, bubbles: true, cancelable: true}));
    else target.click();
    return tellShown();
};
window.tellShown = async () => {
    do await new Promise(done => setTimeout(done, 1)); while (!asker.idle);
    const plain = element => { const copy = element.cloneNode(true); copy.querySelectorAll('s').forEach(s => s.remove());
        return copy.textContent.replace(/\\u2192/g, '').replace(/\\s+/g, ' ').trim(); };
    const all = selector => [...document.querySelectorAll(selector)];
    return {at: plain(document.querySelector('#where .at')), values: plain(document.querySelector('#memory .values')),
        rows: all('#memory tbody tr').map(row => [plain(row.querySelector('th')), [...row.querySelectorAll('td')].map(plain).join(' ')]),
        what: all('.process .what').map(plain), where: plain(document.querySelector('#where')),
        schedule: document.querySelector('#schedule textarea').value, listing: document.querySelector('#listing textarea').value,
        place: Number(document.querySelector('#at').value), refused: all('.refusal').filter(one => !one.hidden).map(plain),
        marks: [...snaplab.state.marks], lesson: snaplab.state.idea, note: document.querySelector('#note').textContent};
};
0"""


def items_of(schedule):
    """The items of a schedule, one by one, and first its shape."""
    found = []
    for line in schedule.split("\n"):
        words = " ".join(line.partition("#")[0].split())
        who, _, times = words.partition("*")
        found += [who.strip()] * int(times) if times else [words] if words else []
    return found


class Program:
    """What the program says, or the module of another tab."""

    def __init__(self, running):
        path = os.environ.get("SNAPLAB") or os.path.join(TOP, "crates", "snaplab", "out", "snaplab")
        self.path = path if os.access(path, os.X_OK) else None
        self.tab = None if self.path else running.tab()

    def says(self, sub, *parts):
        given = "%\n".join(parts)
        if self.path:
            return subprocess.run([self.path, sub], input=given.encode(), capture_output=True, check=False).stdout.decode()
        return self.tab.answer(sub, "", given.encode())[1].decode()


    def says_why(self, listing, schedule, item):
        """What the program with a prompt says of an item, a line each; none where there is no such program."""
        path = os.path.join(TOP, "crates", "snapdb", "out", "snapdb")
        if not os.access(path, os.X_OK):
            return None
        with tempfile.TemporaryDirectory() as folder:
            for name, text in (("listing", listing), ("schedule", schedule)):
                with open(os.path.join(folder, name), "w", encoding="utf-8") as file:
                    file.write(text)
            return subprocess.run([path, "listing", "schedule"], input=f"why {item}\n".encode(), capture_output=True, check=False,
                                  cwd=folder).stdout.decode().splitlines()


def report_of(text):
    """Position, values, rows, places and outcome, as the page shows them, of a session's output."""
    last = re.findall(r"(?m)^last (.*)$", text)[-1]
    report = text[text.rindex("\nreport at ") + 1:].split("\n")
    rows, what = {}, []
    for line in report[2:]:
        found = re.match(r"(([rqpv]) (\d+))((?: \d+)?) = (.*)$", line)
        if found:
            numbers = " ".join(re.findall(r"\d+", found[5]))
            rows[found[1]] = f"{rows[found[1]]} {numbers}" if found[1] in rows else numbers
        head = re.match(r"process \d+ (.*?)( at \d+)?(?: link (\d+))?$", line)
        if head and not line.startswith(" "):
            what.append(head[1] + (head[2] or "") + (f", then back to {head[3]}" if head[3] else ""))
    return {"at": int(report[0].split()[2]), "total": int(report[0].split()[4]), "values": report[1], "rows": [list(one) for one in rows.items()],
            "what": what, "last": last}


class Monkey:
    """One run of presses; it keeps what the items, the position and the undone steps have to be."""

    def __init__(self, tab, program, seed):
        self.tab, self.program, self.dice, self.reasons = tab, program, random.Random(seed), []
        self.lesson()

    def act(self, selector="", nth=0, key=""):
        return self.tab.run(f"act({json.dumps(selector)}, {nth}, {json.dumps(key)})")

    def lesson(self):
        k = self.dice.randrange(LESSONS)
        self.tab.run(f"act('#menu', 0, '').then(() => act('#lessons-list button[value=\"{k}\"]', 0, ''))")
        self.seen = self.tab.run("tellShown()")
        self.items, self.at, self.past, self.future = items_of(self.seen["schedule"]), 0, [], []
        self.marks = []
        return self.seen

    def now(self):
        return list(self.items), self.at, self.seen["listing"], list(self.marks)

    def step(self, items=None, marks=None, at=None):
        """A step that can be undone."""
        self.past.append(self.now())
        self.future = []
        self.items = items if items is not None else self.items
        self.marks = marks if marks is not None else self.marks
        self.at = self.at if at is None else at

    def place(self, item, who, call):
        total = len(self.items) - 1
        if not call and self.at < total and self.items[self.at + 1] == str(who):
            self.at += 1
            return
        self.step([*self.items[:self.at + 1], item, *self.items[self.at + 1:]], at=self.at + 1)

    def press(self):
        """One action: what it is, and what is shown then."""
        kind, = self.dice.choices(list(ACTIONS), ACTIONS.values())
        total, count = len(self.items) - 1, len(self.seen["what"])
        who = self.dice.randint(1, count)
        if kind in ("step", "call", "crash"):
            return self.press_process(kind, who, total)
        if kind in ("back", "on", "home", "end"):
            key = {"back": "ArrowLeft", "on": "ArrowRight", "home": "Home", "end": "End"}[kind]
            self.at = {"back": max(self.at - 1, 0), "on": min(self.at + 1, total), "home": 0, "end": total}[kind]
            return kind, self.act(key=key) if self.dice.random() < .5 else self.act("#" + kind)
        if kind in ("run", "rrun"):
            self.at = self.stop(kind)
            return kind, self.act(key={"run": "r", "rrun": "R"}[kind])
        if kind in ("undo", "redo"):
            return kind, self.turn(kind)
        return self.press_other(kind, total)

    def press_process(self, kind, who, total):
        button = {"step": "step", "crash": "crash", "call": self.dice.choice(["scan", "update"])}[kind]
        box = f".process:nth-child({who}) .{button}"
        if self.tab.run(f"document.querySelector({json.dumps(box)}).disabled") or total > MOST_ITEMS and self.at == total:
            return "nothing", self.seen
        item = {"step": f"{who}", "scan": f"{who} scan", "crash": f"{who} crash"}.get(button)
        if button == "update":
            word = self.tab.run("document.getElementById('word').value")
            item = f"{who} update {who if word == 'own' else word} {self.tab.run('document.getElementById(`value`).value')}"
        self.place(item, who, kind != "step")
        by_key = kind == "step" and who <= 9 and self.dice.random() < .5
        return f"{button} {who}", self.act(key=str(who)) if by_key else self.act(box)

    def press_other(self, kind, total):
        if kind == "break":
            rows = self.tab.run("[...document.querySelectorAll('#listing .gutter > div')].flatMap((r, k) => r.classList.contains('numbered') ? [k] : [])")
            row = self.dice.choice(rows)
            line = int(re.match(r"\s*(\d+)", self.seen["listing"].split("\n")[row])[1])
            self.mark(f"line {line}")
            return f"break {line}", self.act("#listing .gutter > div", row)
        if kind == "watch":
            self.mark("r 1")
            return kind, self.act("#memory [data-register='r 1']")
        if kind == "cut":
            if self.at < total:
                self.step(self.items[:self.at + 1])
            return kind, self.act("#cut")
        if kind == "jump":
            self.at = self.dice.randint(0, total)
            return kind, self.tab.run(f"(document.getElementById('at').value = '{self.at}', document.getElementById('at').onchange(), tellShown())")
        if kind == "far":
            ways = [("PageUp", max(self.at - 10, 0)), ("PageDown", min(self.at + 10, total))]
            key, self.at = self.dice.choice(ways)
            return kind, self.act(key=key)
        if kind == "type":
            line = self.dice.choice(["1", "1*3", "2 scan", "# words"])
            text = self.seen["schedule"] + line + "\n"
            if total > MOST_ITEMS:
                return "nothing", self.seen
            self.step([*self.items, *items_of(line)])
            return kind, self.tab.run(f"""(() => {{ const a = document.querySelector('#schedule textarea'); a.value = {json.dumps(text)}; state.typed = null;
                a.dispatchEvent(new Event('input', {{bubbles: true}})); return tellShown(); }})()""")
        if kind == "lesson":
            return kind, self.lesson()
        if kind == "why":
            return kind, self.why()
        return kind, self.act(self.dice.choice(["#closer", "#wider", "#fit"]))

    def why(self):
        """Asks why the item of the position came out so; where that stands there already, it is put away, and asked for anew."""
        shown, lines = "!document.getElementById('why').hidden", "[...document.querySelectorAll('#why-lines p')].map(p => p.textContent)"
        title = "document.getElementById('why-title').textContent"
        for _ in range(2):
            seen = self.act(key="x")
            self.tab.settled()
            if self.tab.run(shown):
                break
        wanted = self.program.says_why(seen["listing"], seen["schedule"], self.at)
        told = [line.replace(": item ", ": goto ") for line in self.tab.run(lines)]
        named = self.tab.run(title) == f"Why item {self.at} came out so"
        self.reasons = [] if named and wanted in (None, told) else [f"why {self.at}: {told}, not {wanted}"]
        return self.tab.run("tellShown()")

    def mark(self, mark):
        self.step(marks=[one for one in self.marks if one != mark] if mark in self.marks else [*self.marks, mark])

    def turn(self, kind):
        mine, other = (self.past, self.future) if kind == "undo" else (self.future, self.past)
        if mine:
            other.append(self.now())
            self.items, self.at, listing, self.marks = mine.pop()
            assert listing == self.seen["listing"]
            return self.act("#" + kind)
        # Steps of before the lesson was chosen are not gone back to here.
        return self.seen

    def stop(self, way):
        count = len(self.seen["what"])
        marks = [f"break {who} {mark.split()[1]}" for mark in self.marks if mark.startswith("line") for who in range(1, count + 1)]
        marks += [f"watch {mark}" for mark in self.marks if not mark.startswith("line")]
        found = [report_of("\n" + self.program.says("debug", self.seen["listing"], self.seen["schedule"], "\n".join([*marks[k:k + 64], f"goto {self.at}", way, "where"]) + "\n"))["at"]
                 for k in range(0, max(len(marks), 1), 64)]
        return min(found) if way == "run" else max(found)

    def wrong(self, verdicts):
        """What is shown, and is not so."""
        seen, found = self.seen, [*self.reasons]
        if items_of(seen["schedule"]) != self.items:
            found.append(f"the schedule has other items: {items_of(seen['schedule'])[-8:]}, not {self.items[-8:]}")
        if sorted(seen["marks"]) != sorted(self.marks):
            found.append(f"marks {seen['marks']}, not {self.marks}")
        told = self.program.says("debug", seen["listing"], seen["schedule"], f"goto {self.at}\nwhere\n")
        if not told:
            return found + ["the program refuses it"] if not seen["refused"] else found
        wanted = report_of("\n" + told)
        for what, shown, so in (("position", seen["at"], f"Item {wanted['at']} of {wanted['total']}"), ("place", seen["place"], wanted["at"]),
                                ("values", seen["values"], wanted["values"]), ("rows", seen["rows"], wanted["rows"]), ("places", seen["what"], wanted["what"])):
            if shown != so:
                found.append(f"{what}: {shown}, not {so}")
        if verdicts:
            found += self.wrong_verdicts()
        return found

    def wrong_verdicts(self):
        self.tab.settled()
        shown = self.tab.run("[...document.querySelectorAll('#verdicts button:not(.why)')].map(b => b.textContent)")
        told = [re.match(r"scan (\d+) call (\d+) answer (\d+) point (\w+) collects (\d+)", line) for line in self.program.says(
            "audit", self.seen["listing"], self.seen["schedule"]).splitlines()]
        wanted = [f"{v[1]} scan, items {v[2]} to {v[3]}" for v in told if int(v[3]) <= self.at]
        points = [f"point {v[4]}, {v[5]} double" for v in told if int(v[3]) <= self.at]
        same = len(shown) == len(wanted) and all(a.startswith(b) and p in a for a, b, p in zip(shown, wanted, points))
        return [] if same else [f"verdicts: {shown}, not {wanted} {points}"]


def main():
    browser.need()
    words = sys.argv[1:] + ["200", "2", "1"][len(sys.argv) - 1:]
    actions, seeds, first = (int(word) for word in words)
    count = browser.Count()
    with browser.started() as running:
        program = Program(running)
        print("compared with", program.path or "the module of another tab")
        for seed in range(first, first + seeds):
            tab = running.tab()
            tab.run(SHOWN)
            monkey, done, wrong = Monkey(tab, program, seed), [], []
            for k in range(actions):
                try:
                    what, monkey.seen = monkey.press()
                    wrong = monkey.wrong(k % 20 == 19)
                except (Failed, AssertionError, IndexError, TypeError) as failed:
                    wrong = [f"{type(failed).__name__} {failed}"[:300]]
                done.append(what)
                if wrong:
                    break
            count.check(f"seed {seed}: {len(done)} actions", not wrong, f"{done[-6:]}: {wrong}"[:900])
            tab.close()
        bad = [str(one["params"])[:300] for one in list(running.events.queue) if one["method"] == "Runtime.exceptionThrown"]
        count.check("no script failed", not bad, bad[:3])
    count.finish()


if __name__ == "__main__":
    main()
