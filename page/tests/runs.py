"""A run as data: what each item did, what memory held behind it, and how each scan came to its answer. All of it is read from what
`snaplab trace`, `run` and `judge` print."""
import os
import re
import subprocess
import sys

TOP = os.path.abspath(os.path.join(os.path.dirname(__file__), "..", ".."))
HEAD = re.compile(r"(idle|scan|update|trapped|crashed)\b")
READ = re.compile(r"get (\w+)\[(\w+)\] = r\[(\w+)\]$")
BORROW = re.compile(r"view \w+ = view\((\w+)\[(\w+)\]\)$")
LOOK = re.compile(r"look \w+ = v\[(\w+)\]$")
BIT = re.compile(r"bit \w+ = ([pq])\[(\w+),(\w+)\]$")


class Failed(Exception):
    """What the program refused, or what no run has."""


def program():
    return os.environ.get("SNAPLAB") or os.path.join(TOP, "bin", "snaplab")


def ask(command, text):
    told = subprocess.run([program(), command], input=text.encode(), capture_output=True, check=False)
    if told.returncode not in (0, 4):
        sys.exit(f"{program()} {command}: {told.stderr.decode()}")
    return told.stdout.decode()


def lines_of_report(text):
    """The lines of a report, the locals of a process under its name, as a trace has them."""
    who = ""
    for line in text.split("\n"):
        if line.startswith("process "):
            who = " ".join(line.split()[:2])
        yield f"{who} {line.strip()}" if line.startswith("  ") else line


def key_of(line):
    """What a line of a report is about."""
    name, mark, _ = line.partition(" = ")
    if mark:
        return name
    words = line.split()
    return " ".join(words[:2]) if words[0] == "process" else words[0]


def fields(text):
    """The fields of a register: '5 seq 1 view 0 0' as data, seq and view."""
    found = re.findall(r"([a-z]+) ([\d ]*\d)", f"data {text}")
    return dict(found)


class Item:
    """An item of a schedule, and what it did."""

    def __init__(self, number, who, outcome, line, instruction):
        self.number, self.who, self.outcome, self.line, self.instruction = number, who, outcome, line, instruction
        self.read = self.test = self.write = self.borrow = self.bit = None


class Scan:
    """A scan, a process's own or that of an update: its first and last item, what it answers, and how it came to that."""

    def __init__(self, who, call, embedded):
        self.who, self.call, self.embedded = who, call, embedded
        self.end = self.view = self.borrow = None
        self.collects = []      # of each double collect: the reads of both collects, and the test

    def own_gap(self):
        """The positions between the last read of the first collect and the first one of the second, of the last double collect."""
        first, second = self.collects[-1]["a"], self.collects[-1]["b"]
        return max(first.values()), min(second.values()) - 1


class Run:
    def __init__(self, listing, schedule):
        self.listing, self.schedule = listing, schedule
        text = f"{listing.rstrip(chr(10))}\n%\n{schedule}"
        shape = re.search(r"(?m)^shape (\d+) (\d+)", schedule)
        self.processes, self.words = int(shape[1]), int(shape[2])
        begun = ask("run", f"{listing.rstrip(chr(10))}\n%\n{shape[0]}\n")
        state = {key_of(line): line for line in lines_of_report(begun.partition("report at 0 of 0\n")[2]) if line}
        self.kind = re.search(r"(?m)^kind (\w+)", listing)[1]
        self.lines = {int(number): line for number, line in re.findall(r"(?m)^(\d+): ([^#\n]*?) *(?:#.*)?$", listing)}
        self.names = (re.search(r"(?m)^words *([^#\n]*)", listing)[1].split() + ["a", "b"])[:2]
        self.states, self.items, self.events = [state], [None], []
        self.read_trace(ask("trace", text))
        self.total = len(self.items) - 1
        self.judged = ask("judge", text).split("\n")[0]
        self.audited = ask("audit", text).strip().split("\n")
        self.scans = self.find_scans()

    def read_trace(self, text):
        for part in re.split(r"(?m)^(?=item )", text)[1:]:
            head, *changes = part.rstrip("\n").split("\n")
            number, who, outcome, line, instruction = re.fullmatch(
                r"item (\d+) (\d+) (.*?)(?: at (\d+): (.*))?", head).groups()
            item = Item(int(number), int(who), outcome, line and int(line), instruction or "")
            before, state = self.states[-1], dict(self.states[-1])
            for change in changes:
                if change.startswith("+ event "):
                    self.events.append(change.removeprefix("+ event ").split(" ", 2))
                elif change.startswith("+ "):
                    state[key_of(change[2:])] = change[2:]
            self.items.append(item)
            self.states.append(state)
            self.understand(item, before, state)

    def understand(self, item, before, state):
        """What an item read, wrote, tested or borrowed."""
        place = lambda name: self.place(item, before, name)
        if not item.outcome.startswith(("stepped", "answered", "finished")):
            return
        read, borrow, look = READ.match(item.instruction), BORROW.match(item.instruction), LOOK.match(item.instruction)
        bit = BIT.match(item.instruction)
        if read:
            word = place(read[3])
            item.read = {"into": read[1], "word": word, "text": self.register(f"r {word}", item.number - 1)}
        elif bit:
            item.bit = (bit[1], place(bit[2]), place(bit[3]))
        elif borrow:
            item.borrow = {"lender": place(borrow[2]), "register": f"r {place(borrow[2])}"}
        elif look:
            item.borrow = {"lender": place(look[1]), "register": f"v {place(look[1])}"}
        elif item.instruction.startswith("if all"):
            target = item.instruction.rsplit(" ", 1)[1]
            item.test = self.line_of(item.who, item.number) == target
        elif item.instruction.startswith("put "):
            letter, inside = re.match(r"put ([rpqv])\[([^]]*)\]", item.instruction).groups()
            item.write = " ".join([letter, *(str(place(one)) for one in inside.split(","))])

    def place(self, item, before, name):
        if name.isdigit():
            return int(name)
        if name == "word":
            return int(re.search(r"update (\d+)", before[f"process {item.who}"])[1])
        known = {"me": item.who, "n": self.processes, "w": self.words}
        return known[name] if name in known else int(before[f"process {item.who} {name}"].rsplit(" ", 1)[1])

    def register(self, name, at):
        return self.states[at][name].partition(" = ")[2]

    def values(self, at):
        return self.states[at]["values"].removeprefix("values ")

    def status(self, who, at):
        return self.states[at][f"process {who}"].split(" ", 2)[2]

    def line_of(self, who, at):
        """The line that a process is about to execute."""
        found = re.search(r" at (\d+)", self.states[at][f"process {who}"])
        return found[1] if found else ""

    def local(self, who, name, at):
        """A local: a number, or some; of words their data."""
        own = self.states[at].get(f"process {who} {name}")
        if own:
            return own.partition(" = ")[2]
        rows = [self.states[at].get(f"process {who} {name} {place}") for place in range(1, self.words + 1)]
        if None in rows:
            raise Failed(f"process {who} has no local {name}")
        return " ".join(fields(row.partition(" = ")[2])["data"] for row in rows)

    def spans(self, view, call, end):
        """The spans of positions at which memory held these values."""
        found = []
        for at in range(call, end + 1):
            if self.values(at) == view:
                if found and found[-1][1] == at - 1:
                    found[-1][1] = at
                else:
                    found.append([at, at])
        return found

    def find_scans(self):
        found, open_now = [], {}
        for item in self.items[1:]:
            who = item.who
            if item.outcome == "called" and self.status(who, item.number).startswith("scan"):
                open_now[who] = Scan(who, item.number, False)
            elif item.outcome == "stepped" and item.instruction.startswith("call "):
                open_now[who] = Scan(who, item.number, True)
            scan = open_now.get(who)
            if scan is None:
                continue
            self.follow(scan, item)
            if item.outcome.startswith("answered") or item.outcome == "stepped" and item.instruction.startswith("return "):
                scan.end = item.number
                scan.view = item.outcome.removeprefix("answered ") if not scan.embedded else self.local(
                    who, item.instruction.split()[1], item.number)
                found.append(open_now.pop(who))
        return found + list(open_now.values())

    def follow(self, scan, item):
        """One item of a scan: a read of a collect, a test, or what it borrows. A first collect begins with the read of word 1 into a."""
        if item.read and item.read["into"] == self.names[0]:
            if item.read["word"] == 1:
                scan.collects = [one for one in scan.collects if one["test"] or one["b"]] + [{"a": {}, "b": {}, "test": None}]
            scan.collects[-1]["a"][item.read["word"]] = item.number
        elif item.read:
            scan.collects[-1]["b"][item.read["word"]] = item.number
        elif item.test is not None and scan.collects:
            scan.collects[-1]["test"] = item.number
        elif item.borrow:
            scan.borrow = item.number

    def scan_at(self, who, at):
        """The scan of a process that ended at this item, or the one that it is in there: an update's own, too."""
        of_process = [scan for scan in self.scans if scan.who == who and scan.call <= at]
        if not of_process:
            raise Failed(f"process {who} has called no scan by item {at}")
        return max(of_process, key=lambda scan: scan.call)

    def lender(self, scan):
        """The scan that saw what this one borrowed, and the item that wrote it."""
        item = self.items[scan.borrow]
        if item.borrow["register"].startswith("r"):
            read = max(scan.collects[-1]["b"].items(), key=lambda one: one[0] == item.borrow["lender"])[1]
        else:
            read = item.number
        wrote = max(one.number for one in self.items[1:read] if one.write == item.borrow["register"])
        inner = [one for one in self.scans if one.who == item.borrow["lender"] and one.embedded and one.end and one.end < wrote]
        return max(inner, key=lambda one: one.end), wrote

    def sure(self, scan):
        """The positions at which the values that a scan answers were surely those of memory, by its own reads or its lender's."""
        return self.sure(self.lender(scan)[0]) if scan.borrow else scan.own_gap()
