#!/usr/bin/env python3
"""Walks the lessons' stories: each claim of a screen is what the program answers, nothing is named that comes after the position, and the
texts fit the screen.

    page/tests/stories.py           all stories
    page/tests/stories.py 3 4       these

The program is bin/snaplab, or the one that SNAPLAB names.

A screen has its claims beside its words; claims.py says what there are.
"""
import json
import os
import re
import sys

sys.dont_write_bytecode = True
sys.path.insert(0, os.path.join(os.path.dirname(os.path.abspath(__file__)), ".."))
import build  # noqa: E402
from claims import WHERE, Lessons, Wrong, flat, latest  # noqa: E402

TITLE, BODY, OPTION, OPTIONS = 70, 240, 48, 115
LOOKS = {"gap", "fits", "inner", "write", "equal", "moved", "view", "why"}
HIDES = {"fits", "equal"}
STORY, SCENE = {"hero", "folded", "start", "scenes", "change", "compare"}, {
    "at", "title", "body", "doing", "look", "before", "hide", "hideBefore", "later", "hero", "claims", "ask", "options", "right", "means"}
TIMES = {"once": 1, "twice": 2, "three times": 3}
# The fields of a claim that a text may have as values.
VALUES = {"memory", "held", "never", "read", "writes", "calls", "open", "done", "is", "view", "seq", "toggle", "id", "hands", "data", "answers", "saw", "right",
          "wrong", "unfit", "same", "has"}
# What a comment of a schedule would tell of items that are still to come: outcomes, and values.
AHEAD = re.compile(r"\b(fails?|pass(es)?|answers?|moved|borrow\w*|becomes?|sees?|saw|finds?|clean|values?|wrong|right)\b|\d")


def plain_but_code(text):
    return text.replace("**", "")


def numbers(words):
    """'0, 5 and 7' as a view."""
    return " ".join(re.findall(r"\d+", words))


# Sentences of a usual form, and the claim that each of them needs.
SENTENCES = (
    (r"[Pp]rocess (\d) (?:writes|wrote|has written) (?:its |the |a )?(\d+)(?! times)",
     lambda claim, who, value: claim.get("writes") == value and claim["process"] == int(who)),
    (r"[Pp]rocess (\d) (?:updates|writes|has updated) `r\[(\d)\]` (?:once more, )?to (\d+)",
     lambda claim, who, word, value: claim.get("writes", "") == value and (claim["process"], claim["word"]) == (int(who), int(word))
     or claim.get("calls") == f"update {word} {value}" and claim["process"] == int(who)),
    (r"[Pp]rocess (\d) (?:has|had) (?:been seen to )?move[d]? (?:only )?(once|twice|three times)",
     lambda claim, who, times: claim.get("moved") == TIMES[times] and claim["who"] == int(who)),
    (r"[Cc]olumn ([ab]) has (\d+(?:(?:, | and )\d+)*)",
     lambda claim, column, values: claim.get("column") == column and claim.get("is") == numbers(values)),
    (r"Both columns have (\d+(?:(?:, | and )\d+)*)", lambda claim, values: claim.get("column") == "b" and claim["is"] == numbers(values)),
    (r"Memory is (?:still )?`([\d ]+)`", lambda claim, view: claim.get("memory") == view or claim.get("held") == view),
    (r"[Mm]emory (?:never held|was never) `([\d ]+)`", lambda claim, view: claim.get("never") == view),
    (r"answers `([\d ]+)`", lambda claim, view: claim.get("answers") == view),
    (r"answers `([\d ]+)`, and (?:that|this time that) is (right|wrong)", lambda claim, view, how: claim.get(how) == view),
    (r"borrows(?: the view)? `([\d ]+)`", lambda claim, view: "lends" in claim),
    (r"beside (?:it|the \d+) the view `([\d ]+)`", lambda claim, view: claim.get("view") == view),
    (r"(?:it|It) reads `r\[(\d)\]`: (\d+)", lambda claim, word, value: claim.get("read") == value and claim["word"] == int(word)),
    (r"[Pp]rocess (\d) has read `r\[(\d)\]` twice already, an? (\d+) each time",
     lambda claim, who, word, value: "has" in claim and (claim["process"], claim["word"], claim["is"], claim["column"]) == (int(who), int(word), value, "b")),
    (r"(?:the|The) update to (\d+)", lambda claim, value: claim.get("writes") == value or any(
        claim.get(key, "").startswith("update ") and claim[key].endswith(f" {value}") for key in ("calls", "open", "done"))),
    (r"\b(?:saw|seen) `([\d ]+)`", lambda claim, view: claim.get("saw") == view),
    (r"`([rv])\[(\d)\]`(?:,| is)(?: still)? `([\d ]+)`", lambda claim, letter, place, view: claim.get("register") == f"{letter} {place}" and
     view in (claim.get("is"), claim.get("view")) or letter == "r" and claim.get("view") == view and claim["word"] == int(place)),
    (r"[Mm]emory (?:was|held) `([\d ]+)`", lambda claim, view: view in (claim.get("held"), claim.get("memory"))),
    (r", and is `([\d ]+)`", lambda claim, view: view in (claim.get("held"), claim.get("memory"))),
    (r"[Pp]rocess (\d) showed (\d)", lambda claim, who, bit: claim.get("finds", "").startswith(f"p {who} ") and claim["is"] == bit),
    (r"[Pp]rocess (\d) shows (?:it )?(?:the handshake bit )?(\d)", lambda claim, who, bit: claim.get("finds", "").startswith(f"p {who} ") and claim["is"] == bit),
    (r"`([pq])\[(\d),(\d)\]` (?:was|to be) (\d)", lambda claim, *bit: claim.get("finds") == " ".join(bit[:3]) and claim["is"] == bit[3]),
    (r"`([pq])\[(\d),(\d)\]` is (\d)", lambda claim, *bit: claim.get("register") == " ".join(bit[:3]) and claim["is"] == bit[3]),
    (r"steps (\d+) to (\d+)", lambda claim, first, last: claim.get("scan") == [int(first), int(last)]),
    (r"[Pp]rocess (\d) is about to write (\d+)", lambda claim, who, value: claim.get("calls", claim.get("open", "")).endswith(f" {value}") and
     claim["process"] == int(who)),
    (r"[Pp]rocess (\d) (?:scans|calls a scan)", lambda claim, who: claim.get("calls", claim.get("open", "")) == "scan" and claim["process"] == int(who) or
     "answers" in claim),
    (r"[Pp]rocess (\d) crashes", lambda claim, who: claim.get("crashes") == int(who)),
    (r"(?:test|it) fails\b(?!,? too)", lambda claim: claim.get("test") == "fails"),
    (r"tests? (?:has )?passe[sd]", lambda claim: claim.get("test") == "passes"),
    (r"diamond stands", lambda claim: "sure" in claim),
)


def plain(text):
    """A text as it is read: without the marks of code and bold."""
    return re.sub(r"\*\*|`", "", text)


class Story:
    """One story, walked screen by screen."""

    def __init__(self, section, story, lessons):
        self.section, self.story, self.lessons = section, story, lessons
        self.faults, self.claims, self.screens = [], 0, 0

    def fault(self, where, words):
        self.faults.append(f"{where}: {words}")

    def run(self, name):
        return self.lessons.run((name, self.section))

    # What a reader has seen by a position.
    def seen(self, name, at):
        """The values that stood anywhere by this position, each number and each view."""
        found, run = set(), self.run(name)
        for item in run.items[1:at + 1]:
            if item.outcome == "called":
                found |= set(run.status(item.who, item.number).split(" at ")[0].split()[2:])
        for state in run.states[:at + 1]:
            for key, line in state.items():
                if key == "values":
                    found |= {line.removeprefix("values "), *line.split()[1:]}
                elif key[0] in "rqpv" and " = " in line:
                    text = line.partition(" = ")[2]
                    found |= set(re.findall(r"\d+", text)) | {text} | set(re.findall(r"view ([\d ]+)", text))
                elif " = " in line:
                    found |= {line.partition(" = ")[2]}
        return found

    def check_words(self, where, text, name, known, at):
        """Each value in backticks and each number of a text is known; each process, line, register, lesson and step is there."""
        run = self.run(name)
        for code in re.findall(r"`([^`]*)`", text):
            register = re.fullmatch(r"([rqpv])\[(\d+)(?:,(\d+))?\]", code)
            if register:
                place = " ".join(filter(None, register.groups()))
                if place not in run.states[0]:
                    self.fault(where, f"there is no register {code}")
            elif code not in known and not any(code in line for line in run.lines.values()):
                self.fault(where, f"`{code}` is not known by item {at}")
        self.check_numbers(where, re.sub(r"`[^`]*`", " ", text), run, at, known)

    def check_numbers(self, where, text, run, at, known):
        def take(pattern, fits, what):
            nonlocal text
            for found in re.finditer(pattern, text):
                for number in re.findall(r"\d+", found[0]):
                    if not fits(int(number)):
                        self.fault(where, f"there is no {what} {number} by item {at}")
            text = re.sub(pattern, " ", text)
        take(r"[Pp]rocess(?:es)? \d+(?:(?:,| and| or) \d+)*", lambda number: 1 <= number <= run.processes, "process")
        take(r"\b[Ww]ord \d+", lambda number: 1 <= number <= run.words, "word")
        take(r"[Ss]teps? \d+(?: (?:to|and) \d+)?", lambda number: number <= at, "step")
        take(r"[Ll]ines? \d+(?: and \d+)?", lambda number: number in run.lines, "line")
        take(r"[Ll]essons? \d+", lambda number: number in self.lessons.ideas, "lesson")
        take(r"\bn - 1\b", lambda number: True, "")
        for number in re.findall(r"\d+", text):
            if number not in known:
                self.fault(where, f"{number} is not known by item {at}")

    def check_named(self, where, text, told):
        """Each process, register, line and step that a text names is one that its claims are about."""
        people = {claim[key] for claim in told for key in ("process", "who", "lends", "crashes", "crashed") if key in claim}
        people |= {int(number) for claim in told for key in ("finds", "register") for number in re.findall(r"\d+", claim.get(key, ""))}
        for found in re.finditer(r"[Pp]rocess(?:es)? \d+(?:(?:,| and| or) \d+)*", text):
            for number in map(int, re.findall(r"\d+", found[0])):
                if number not in people:
                    self.fault(where, f"nothing is claimed of process {number}")
        whole = any({"memory", "held", "never", "column"} & set(claim) for claim in told)
        words = {str(claim["word"]) for claim in told if "word" in claim}
        words |= {claim[key].split()[1] for claim in told for key in ("calls", "done", "open") if claim.get(key, "").startswith("update ")}
        registers = {claim[key] for claim in told for key in ("finds", "register") if key in claim} | {f"r {word}" for word in words}
        for letter, place, other in re.findall(r"`([rqpv])\[(\d+)(?:,(\d+))?\]`", text):
            if " ".join(filter(None, (letter, place, other))) not in registers and not (letter == "r" and whole):
                self.fault(where, f"nothing is claimed of {letter}[{place}{other and ',' + other}]")
        lines = {claim[key] for claim in told for key in ("line", "before") if key in claim}
        for number in re.findall(r"[Ll]ine (\d+)", text):
            if int(number) not in lines:
                self.fault(where, f"nothing is claimed of line {number}")
        places = {place for claim in told for key in ("scan", "sure", "gap") for place in claim.get(key, [])}
        places |= {claim[key] for claim in told for key in ("at", "to", "same") if key in claim}
        for found in re.findall(r"[Ss]teps? \d+(?: to \d+)?", text):
            for number in map(int, re.findall(r"\d+", found)):
                if number not in places:
                    self.fault(where, f"nothing is claimed of step {number}")

    def check_length(self, where, text, most):
        if len(plain(text)) > most:
            self.fault(where, f"{len(plain(text))} letters, of at most {most}: {text}")

    def check_claims(self, where, claims, name, at):
        if not claims:
            self.fault(where, "nothing is claimed")
        for claim in claims:
            self.claims += 1
            try:
                if not self.lessons.holds(claim, self.section, name):
                    self.fault(where, f"not so: {claim}")
            except Wrong as error:
                self.fault(where, str(error))
            if at is not None:
                for one in flat([claim]):
                    if not set(one) & WHERE and latest(one) > at:
                        self.fault(where, f"ahead of item {at}: {one}")

    def check_question(self, where, scene, name, start, end, told):
        """A question, asked at `start` of the run of `name`, whose reveal stands at `end` of the run of `told`."""
        options, means = scene.get("options", []), scene.get("means", [])
        if not 2 <= len(options) <= 3 or len(means) != len(options) or not 0 <= scene.get("right", -1) < len(options):
            return self.fault(where, "a question has two or three options, one of them right, and what each means")
        self.screens += 1
        self.check_length(where, scene["ask"], TITLE)
        for option in options:
            self.check_length(where, option, OPTION)
        if sum(len(plain(option)) for option in options) > OPTIONS:
            self.fault(where, f"options of {sum(len(plain(option)) for option in options)} letters, of at most {OPTIONS}")
        known = self.seen(name, start) | (self.of_change() if told != name else set())
        self.check_words(where, scene["ask"], told, known, start)
        for k, meaning in enumerate(means):
            try:
                holds = self.lessons.holds(meaning, self.section, told)
            except Wrong as error:
                self.fault(where, str(error))
                continue
            if holds != (k == scene["right"]):
                self.fault(where, f"option {k + 1} is {'so' if holds else 'not so'}: {options[k]}")
        return None

    def of_change(self):
        """The numbers of the lines that only the changed texts have, and of those that only the unchanged ones have."""
        (listing, schedule), (other, items) = build.runs_of(self.lessons.ideas[self.section])
        old, new = set((listing + schedule).split("\n")), set((other + items).split("\n"))
        return {number for line in old ^ new for number in re.findall(r"\d+", line.partition("#")[0])}

    def check_scene(self, k, scene, name, start, later):
        where = f"{name}, scene {k + 1}, item {scene.get('at')}"
        run, at = self.run(name), scene["at"]
        if set(scene) - SCENE:
            self.fault(where, f"unknown: {sorted(set(scene) - SCENE)}")
        if not start <= at <= run.total:
            return self.fault(where, f"not between {start} and {run.total}")
        self.screens += 1
        claims = scene.get("claims", [])
        self.check_claims(where, claims, name, at)
        self.check_length(where, scene["title"], TITLE)
        self.check_length(where, scene["body"], BODY)
        self.check_text(where, f"{scene['title']} {scene['body']}", claims, name, at)
        self.check_looks(where, scene)
        # While the items follow one another, the title stands there already, if nothing else is said.
        shown = scene.get("doing", scene["title"])
        self.check_length(where, shown, TITLE)
        if "ask" not in scene and not later and at > start:
            self.check_words(f"{where}, while it plays", shown, name, self.seen(name, start + 1), start + 1)
        return None

    def check_looks(self, where, scene):
        for key, known in (("look", LOOKS), ("before", LOOKS), ("hide", HIDES), ("hideBefore", HIDES)):
            for word in scene.get(key, "").split():
                if word not in known:
                    self.fault(where, f"{key}: {word}")

    def walk(self):
        story = self.story
        if set(story) != STORY and set(story) | {"folded"} != STORY:
            self.fault("story", f"it has {sorted(story)}")
        self.check_end("start", story["start"], "lesson", 0)
        at = self.walk_scenes("lesson", story["scenes"])
        if at != self.run("lesson").total:
            self.fault("lesson", f"its scenes end at {at}, and its run at {self.run('lesson').total}")
        at = self.walk_scenes("change", story["change"]["scenes"])
        if at != self.run("change").total:
            self.fault("change", f"its scenes end at {at}, and its run at {self.run('change').total}")
        for name in ("lesson", "change"):
            self.check_captions(name)
            last = self.run(name).items[-1]
            if last.outcome.startswith("skipped"):
                self.fault(name, f"the run ends on {last.outcome}")
        self.check_end("compare", story["compare"], "change", self.run("change").total)

    def check_captions(self, name):
        """The comments of a schedule, which the page has as captions, say what is done, and not what comes of it."""
        for line in self.run(name).schedule.split("\n"):
            comment = re.sub(r"[rpqv]\[[\d,]+\]|process \d|words \d, \d, \d|\d and \d again", "", line.partition("#")[2])
            if AHEAD.search(comment):
                self.fault(name, f"a comment that tells what comes: {line}")

    def walk_scenes(self, name, scenes):
        at, later = 0, False
        for k, scene in enumerate(scenes):
            if "ask" in scene:
                over = name == "change" and not k
                where = f"{name}, question before scene {k + 1}"
                self.check_question(where, scene, "lesson" if over else name, self.run("lesson").total if over else at, scene["at"], name)
            elif name == "change" and not k:
                self.fault(name, "a change begins with a question")
            self.check_scene(k, scene, name, at, later)
            at, later = scene["at"], scene.get("later", False)
        return at

    def check_end(self, where, text, name, at):
        """The first words of a story, or the last ones, which are about both runs."""
        self.screens += 1
        self.check_length(where, text["title"], TITLE)
        self.check_length(where, text["body"], BODY)
        claims, words = text.get("claims", []), f"{text['title']} {text['body']}"
        if where == "start":
            return self.check_words(where, words, name, self.seen(name, at), at)
        self.check_claims(where, claims, name, None)
        return self.check_text(where, words, claims, name, at)

    def check_text(self, where, text, claims, name, at):
        """What a screen tells is what it claims: its values, whom and what it names, and those of its sentences that have a usual form."""
        told = list(flat(claims))
        known = {str(claim[key]) for claim in told for key in VALUES & set(claim)}
        known |= {part for value in known for part in value.split()}
        self.check_words(where, text, name, known, at)
        self.check_named(where, text, told)
        if re.search(r"\bpoints?\b", text):
            self.fault(where, "a point: what a lesson names is the moment that its own argument gives")
        for pattern, holds in SENTENCES:
            for found in re.finditer(pattern, plain_but_code(text)):
                if not any(holds(claim, *found.groups()) for claim in told):
                    self.fault(where, f"not claimed: {found[0]}")


def main():
    lessons, stories = Lessons(), json.loads(build.source("stories.json"))
    asked = [int(word) for word in sys.argv[1:]] or sorted(lessons.ideas)
    passed = failed = 0
    for section in asked:
        if str(section) not in stories:
            failed += 1
            print(f"FAILED story {section}: there is none")
            continue
        story = Story(section, stories[str(section)], lessons)
        story.walk()
        passed, failed = passed + (not story.faults), failed + bool(story.faults)
        if story.faults:
            print(f"FAILED story {section}")
            for fault in story.faults:
                print(f"    {fault}")
        else:
            print(f"ok story {section}: {story.screens} screens, {story.claims} claims")
    print(f"{passed} passed, {failed} failed, 0 skipped")
    sys.exit(1 if failed else 0)


if __name__ == "__main__":
    main()
