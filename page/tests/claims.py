"""What a screen of a story claims of a run, and whether the program says so.

A claim is a record. Its first field is its kind, a method of Claims below, which says what the other fields are. A claim is of the run
that its screen shows; "run" names the other one of the lesson, "lesson" another lesson's, "example" that of an example. `at` is a
position: so many items were executed.
"""
import json

import build
import runs

WHERE = {"run", "lesson", "example"}


class Wrong(Exception):
    """What is not so, or cannot be read."""


class Claims:
    """What a screen claims of a run, up to a position. Each method takes the fields of a claim, and says whether it holds."""

    def __init__(self, run):
        self.run = run

    def scan(self, process, at):
        return self.run.scan_at(process, at)

    def ended(self, process, at):
        """The scan of a process that ended at this item."""
        found = [scan for scan in self.run.scans if scan.who == process and scan.end == at]
        if not found:
            raise Wrong(f"no scan of process {process} ends at {at}")
        return found[0]

    # What memory and its registers hold.
    def memory(self, memory, at):
        return self.run.values(at) == memory

    def held(self, held, start, to):
        """Memory held these values from one position to another one."""
        return all(self.run.values(at) == held for at in range(start, to + 1))

    def never(self, never, start, to):
        """At no position between these two memory held these values."""
        return all(self.run.values(at) != never for at in range(start, to + 1))

    def register(self, register, at, **fields):
        """A register is this, or has these fields."""
        found = self.run.register(register, at)
        own = runs.fields(found)
        return found == fields["is"] if "is" in fields else fields.items() <= own.items() and bool(fields)

    # What one item did.
    def calls(self, calls, process, at):
        return self.run.items[at].who == process and self.run.items[at].outcome == "called" and self.run.status(process, at).startswith(calls)

    def read(self, read, word, process, at, **fields):
        """An item read this value of a word, and these fields of it."""
        found = self.run.items[at]
        own = runs.fields(found.read["text"]) if found.who == process and found.read else {}
        return own.get("data") == read and found.read["word"] == word and fields.items() <= own.items()

    def writes(self, writes, word, process, at, **fields):
        found, own = self.run.items[at], runs.fields(self.run.register(f"r {word}", at))
        return found.who == process and found.write == f"r {word}" and own["data"] == writes and fields.items() <= own.items()

    def finds(self, finds, process, at, **found):
        """An item read this bit: {"finds": "p 3 1", "is": "0"}."""
        item = self.run.items[at]
        return item.who == process and item.bit and " ".join(map(str, item.bit)) == finds and self.run.register(finds, at) == found["is"]

    def test(self, test, process, at):
        """An item was a test, which 'passes' or 'fails'."""
        item = self.run.items[at]
        if test not in ("passes", "fails"):
            raise Wrong(f"a test does not {test}")
        return item.who == process and item.test is not None and item.test == (test == "passes")

    def crashes(self, crashes, at):
        return self.run.items[at].who == crashes and self.run.items[at].outcome == "crashed"

    # Where a process is.
    def before(self, before, process, at):
        """The next step of a process executes this line."""
        return self.run.line_of(process, at) == str(before)

    def open(self, open, process, at):
        """An operation of a process has been called, and has not ended."""
        return self.run.status(process, at).startswith(open)

    def done(self, done, process, at):
        """An operation of a process has ended by this position, and the process has called nothing since."""
        called = [item for item in self.run.items[1:at + 1] if item.who == process and item.outcome == "called"]
        return self.run.status(process, at) == "idle" and bool(called) and self.run.status(process, called[-1].number).startswith(done)

    def crashed(self, crashed, at):
        return self.run.status(crashed, at).startswith("crashed")

    # What a scan has read.
    def column(self, column, process, at, **fields):
        """A column, 'a' or 'b', of the scan that a process is in has these values of the words from the first one on, and no others."""
        scan = self.scan(process, at)
        begun = [one for one in scan.collects if min(one["a"].values()) <= at]
        reads = {word: item for word, item in begun[-1][column].items() if item <= at} if begun else {}
        data = [runs.fields(self.run.items[reads[word]].read["text"])["data"] for word in sorted(reads)]
        return sorted(reads) == list(range(1, len(reads) + 1)) and " ".join(data) == fields["is"]

    def has(self, has, column, word, process, at, **fields):
        """A field of a word as a column has it: {"has": "seq", "column": "a", "word": 2, "is": "0"}."""
        scan = self.scan(process, at)
        item = [one[column][word] for one in scan.collects if one[column].get(word, at + 1) <= at][-1]
        return runs.fields(self.run.items[item].read["text"])[has] == fields["is"]

    def moved(self, moved, who, process, at):
        """A process was seen to move so many times."""
        return int(self.run.local(process, "moved", at).split()[who - 1]) == moved

    def collects(self, collects, process, at):
        """A scan has begun so many double collects."""
        return len([one for one in self.scan(process, at).collects if min(one["a"].values()) <= at]) == collects

    def gap(self, gap, process, at):
        """The positions between the two collects of the double collect that a scan is in."""
        one = [one for one in self.scan(process, at).collects if one["b"] and min(one["b"].values()) <= at][-1]
        return [max(one["a"].values()), min(one["b"].values()) - 1] == gap

    # What a scan answered, and whether that is right.
    def answers(self, answers, process, at):
        return self.run.items[at].who == process and self.run.items[at].outcome == f"answered {answers}"

    def saw(self, saw, process, scan):
        """The scan of an update, of these items, saw this view."""
        found = self.ended(process, scan[1])
        return found.embedded and found.call == scan[0] and found.view == saw

    def right(self, right, process, at):
        """Memory held the answer at a moment of the scan, and an order of all operations explains it."""
        scan = self.ended(process, at)
        return scan.view == right and bool(self.run.spans(right, scan.call, at)) and self.run.judged == "linearizable"

    def wrong(self, wrong, process, at):
        """At no moment of the scan memory held the answer, and no order of the operations explains it."""
        scan = self.ended(process, at)
        named = self.run.judged == f"not linearizable: event {at} process {process}"
        return scan.view == wrong and not self.run.spans(wrong, scan.call, at) and named

    def unfit(self, unfit, process, at):
        """At no moment of the scan memory held the answer, though an order of the operations explains it."""
        scan = self.ended(process, at)
        return scan.view == unfit and not self.run.spans(unfit, scan.call, at) and self.run.judged == "linearizable"

    def fits(self, fits, process, at):
        """All spans of the scan in which memory held the answer."""
        scan = self.ended(process, at)
        return self.run.spans(scan.view, scan.call, at) == fits

    def sure(self, sure, process, at):
        """The moment that the scan can be sure of: the gap of its own clean double collect, or of its lender's, with the answer in memory."""
        scan = self.ended(process, at)
        held = all(self.run.values(place) == scan.view for place in range(sure[0], sure[1] + 1))
        return list(self.run.sure(scan)) == sure and held and scan.call <= sure[0]

    def lends(self, lends, scan, process, at, inside):
        """An item of a process borrowed the view that this scan of another one saw, which lies inside its own, or not."""
        if self.run.items[at].borrow is None or self.run.items[at].who != process:
            return False
        own = [one for one in self.run.scans if one.borrow == at][0]
        lender = self.run.lender(own)[0]
        return [lender.who, lender.call, lender.end] == [lends, *scan] and (lender.call > own.call) == inside

    def linearizable(self, linearizable):
        return (self.run.judged == "linearizable") == linearizable

    # The texts of a run.
    def line(self, line, has):
        return has in self.run.lines.get(line, "")

    def processes(self, processes):
        return self.run.processes == processes

    def operations(self, operations):
        """So many operations were called."""
        return len([item for item in self.run.items[1:] if item.outcome == "called"]) == operations

    def same(self, same, run):
        """Up to this item the run was that of the lesson without its change."""
        plain = lambda item: (item.who, item.outcome, item.line)
        return [plain(item) for item in self.run.items[1:same + 1]] == [plain(item) for item in run.items[1:same + 1]]


def latest(claim):
    """The last position that a claim names."""
    spans = [claim.get("scan", [0])[-1], claim.get("sure", [0])[-1], claim.get("gap", [0])[-1]]
    return max([claim.get("at", 0), claim.get("to", 0), claim.get("same", 0), *spans])


class Lessons:
    """The runs of all lessons, each made once."""

    def __init__(self):
        self.ideas = {idea["section"]: idea for idea in json.loads(build.source("gallery.json"))["ideas"]}
        self.made = {}

    def run(self, which):
        if which not in self.made:
            kind, name = which
            both = build.parts(name) if kind == "example" else build.runs_of(self.ideas[name])[kind == "change"]
            self.made[which] = runs.Run(*both)
        return self.made[which]

    def holds(self, claim, section, name):
        """Whether a claim holds; one that cannot be read is an error."""
        if "all" in claim:
            return all([self.holds(one, section, name) for one in claim["all"]])
        if "not" in claim:
            return not self.holds(claim["not"], section, name)
        which = ("example", claim["example"]) if "example" in claim else (claim.get("run", "lesson" if "lesson" in claim else name),
                                                                          claim.get("lesson", section))
        run, told = self.run(which), {("start" if key == "from" else key): value for key, value in claim.items() if key not in WHERE}
        form = next(iter(told), "")
        if form.startswith("_") or form in ("scan", "ended") or not callable(getattr(Claims, form, None)):
            raise Wrong(f"a claim that cannot be read: {claim}")
        if latest(claim) > run.total:
            raise Wrong(f"behind the end of the run, {run.total}: {claim}")
        if form == "same":
            told["run"] = self.run(("lesson", section))
        try:
            return bool(getattr(Claims(run), form)(**told))
        except (TypeError, KeyError, IndexError, runs.Failed) as error:
            raise Wrong(f"a claim that cannot be read: {claim}: {error}") from error


def flat(claims):
    """Claims, and those within them."""
    for claim in claims:
        if "all" in claim or "not" in claim:
            yield from flat(claim.get("all", []) + ([claim["not"]] if "not" in claim else []))
        else:
            yield claim
