#!/usr/bin/env python3
"""What the module inside the page answers, byte for byte: to the examples and the gallery's commands what is committed, to made-up
inputs what the native program says.

    page/tests/answers.py [PAIRS [SEED]]    so many made-up pairs of listing and schedule (200), from this seed on (1)

The native program is crates/snaplab/out/snaplab, or what SNAPLAB names; without it the made-up pairs are skipped.
"""
import base64
import itertools
import json
import os
import re
import socketserver
import subprocess
import sys
import tempfile
import threading

sys.dont_write_bytecode = True
import browser  # noqa: E402
from browser import TOP

ASKED = ("check", "assemble", "list", "upgrade", "run", "debug", "audit", "batch", "judge")
JUDGED = {b"linearizable": 0, b"not linearizable": 4, b"undecided": 5}     # statuses of judge
SHIM = """#!%s
import base64, json, socket, sys
asked = {"args": sys.argv[1:], "stdin": base64.b64encode(sys.stdin.buffer.read()).decode()}
line = socket.socket(socket.AF_UNIX)
line.connect(%r)
line.sendall(json.dumps(asked).encode() + b"\\n")
told = json.loads(line.makefile("rb").readline())
sys.stdout.buffer.write(base64.b64decode(told["stdout"]))
sys.stderr.buffer.write(base64.b64decode(told["stderr"]))
sys.exit(told["status"])
"""


def read(path, mode="rb"):
    with open(path, mode) as file:
        return file.read()


def ask(tab, args, given):
    """Status, standard output and standard error, as the program would have them; none where the module is not asked for this."""
    if not args or args[0] not in ASKED or args[1:] and (len(args) != 3 or args[1] != "--shipped"):
        return None
    code, said = tab.answer(args[0], args[2] if args[1:] else "", given)
    if args[0] == "judge" and code == 0:
        return JUDGED[re.split(rb"[:\n]", said)[0]], said, b""
    return {0: (0, said, b""), 1: (1, b"", said)}.get(code, (code, b"", b"code %d" % code))


def try_examples(tab, count):
    passed_over = []
    for name in sorted(f"{place}/{it}" for place in ("examples", "tests/cases") for it in os.listdir(os.path.join(TOP, place))):
        folder = os.path.join(TOP, name)
        if not os.path.isfile(os.path.join(folder, "args")):
            continue
        args = read(os.path.join(folder, "args"), "r").split("\n")[:-1]
        given = read(os.path.join(folder, "stdin"))
        told = ask(tab, args, given)
        if not told:
            passed_over.append(name)
            continue
        file = os.path.join(folder, "status")
        status = int(read(file)) if os.path.exists(file) else 0
        file = os.path.join(folder, "stderr")
        same = told[0] == status and told[1] == read(os.path.join(folder, "stdout"))
        count.check(name, same and (not os.path.exists(file) or told[2] == read(file)), told[2][:80])
        for other, sub in (("audit", "audit"), ("events", "run")):
            wanted = os.path.join(folder, other)
            if os.path.exists(wanted):
                said = ask(tab, [sub, *args[1:]], given)[1]
                if other == "events":
                    said = b"".join(line for line in said.splitlines(True) if line.startswith(b"event "))
                count.check(f"{name}, {other}", said == read(wanted))
    print("not asked of the module:", ", ".join(passed_over))


def commands(document):
    """The commands of a document of the tutorial, and what it says that they print."""
    found, shown = [], False
    for line in read(os.path.join(TOP, "docs", "tutorial", document), "r").splitlines(True):
        if line.startswith("```"):
            shown = line == "```console\n"
        elif shown and line.startswith("$ "):
            found.append([line[2:], ""])
        elif shown:
            found[-1][1] += line
    return found


def serve(tab, place):
    """Answers what stands in for bin/snaplab."""
    lock = threading.Lock()

    class Answering(socketserver.StreamRequestHandler):
        def handle(self):
            asked = json.loads(self.rfile.readline())
            with lock:
                told = ask(tab, asked["args"], base64.b64decode(asked["stdin"])) or (2, b"", b"the module is not asked for this\n")
            letters = {"status": told[0], "stdout": base64.b64encode(told[1]).decode(), "stderr": base64.b64encode(told[2]).decode()}
            self.wfile.write(json.dumps(letters).encode() + b"\n")

    server = socketserver.ThreadingUnixStreamServer(place, Answering)
    threading.Thread(target=server.serve_forever, daemon=True).start()
    return server


def try_gallery(tab, count):
    with tempfile.TemporaryDirectory() as folder:
        os.mkdir(os.path.join(folder, "bin"))
        for name in ("examples", "docs", "crates"):
            os.symlink(os.path.join(TOP, name), os.path.join(folder, name))
        place, shim = os.path.join(folder, "socket"), os.path.join(folder, "bin", "snaplab")
        with open(shim, "w", encoding="utf-8") as file:
            file.write(SHIM % (sys.executable, place))
        os.chmod(shim, 0o755)
        server = serve(tab, place)
        for command, wanted in commands("gallery.md") + commands("gallery-2.md"):
            if any(it in command for it in ("bin/snaphunt", "bin/snapspin")):   # what the module is not
                continue
            said = subprocess.run(["sh", "-c", command], cwd=folder, stdin=subprocess.DEVNULL, stdout=subprocess.PIPE,
                                  stderr=subprocess.STDOUT, check=False).stdout.decode()
            count.check(f"gallery: {command.strip()[:90]}", said == wanted, said[:200])
        server.shutdown()
        server.server_close()


def drawings():
    """The files of docs/pictures that bin/snapdraw draws."""
    return sorted(name for name in os.listdir(os.path.join(TOP, "docs", "pictures")) if name.endswith(".svg"))


def try_pictures(tab, count):
    """The pictures of docs/pictures, which bin/snapdraw draws; those of shipped listings are passed over, since the page has a listing."""
    for name in drawings():
        example = os.path.join(TOP, "examples", name.removesuffix(".svg"))
        if "--shipped" in read(os.path.join(example, "args"), "r"):
            continue
        parts, wanted = re.split(rb"(?m)^%\n", read(os.path.join(example, "stdin"))), read(os.path.join(TOP, "docs", "pictures", name))
        total = int(re.search(rb"items 1 to (\d+) of", wanted)[1])
        count.check(f"docs/pictures/{name}", tab.ask_module("page_picture", parts[:2], (1, total)) == (0, wanted))
        part = tab.ask_module("page_picture", parts[:2], (2, total - 1))
        count.check(f"docs/pictures/{name}, a part", part[0] == 0 and b"items 2 to %d of %d<" % (total - 1, total) in part[1])
    refused = {b"D1 NoSuchItems 2": (b"1*2", 1, 3), b"D1 NoSuchItems 0": (b"", 1, 1), b"D2 TooManyItems 20001": (b"1*20001", 1, 20001),
               b"S3 BadItem 2": (b"hello", 1, 1), b"W1 BadShape": None}
    listing = read(os.path.join(TOP, "examples", "u.txt"))
    for line, asked in refused.items():
        items, first, last = asked or (b"1", 1, 1)
        shape = b"shape 2 2\n" if asked else b"shape 2 3\n"
        told = tab.ask_module("page_picture", (listing, shape + items + b"\n"), (first, last))
        count.check(f"a picture is refused: {line.decode()}", told == (1, b"refused: " + line + b"\n"), told[1][:80])
    told = tab.ask_module("page_picture", (b"kind so\n", b"shape 2 2\n1\n"), (1, 1))
    count.check("a picture of no listing is refused", told == (1, b"refused: L2 BadHeader 1\n"), told[1][:80])


def try_hunts(tab, count):
    """The hunts of the gallery, which bin/snaphunt makes; and what there is no hunt of."""
    for command, wanted in commands("gallery-2.md"):
        found = re.fullmatch(r"bin/snaphunt (examples/hunts/\S+) \| sed -n '/\^# run/,\$p'\s*", command)
        if found:
            text = read(os.path.join(TOP, found[1]))
            told = tab.ask_module("page_hunt", (text,), (3, 3, 1, 1000))
            count.check(f"hunt: {found[1]}", told == (0, text + b"%\n" + wanted.encode()), told[1][-200:])
    listing = read(os.path.join(TOP, "examples", "u.txt"))
    count.check("no run of U fails", tab.ask_module("page_hunt", (listing,), (3, 3, 1, 100)) == (0, b""))
    count.check("there is no hunt of no processes", tab.ask_module("page_hunt", (listing,), (0, 0, 1, 100)) == (4, b""))
    count.check("nor of more than 1,000,000 runs", tab.ask_module("page_hunt", (listing,), (3, 3, 1, 1000001)) == (4, b""))
    count.check("a shape that does not fit is refused", tab.ask_module("page_hunt", (listing,), (3, 2, 1, 100)) == (1, b"refused: W1 BadShape\n"))
    told = tab.ask_module("page_hunt", (b"kind so\n",), (3, 3, 1, 100))
    count.check("a hunt of no listing is refused", told == (1, b"refused: L2 BadHeader 1\n"), told[1][:80])


def try_explanations(tab, count):
    """What is said below the line of a refusal, which `--explain` prints; of the cases that say so, those of what the module is asked."""
    tried = 0
    for name in sorted(os.listdir(os.path.join(TOP, "tests", "cases"))):
        folder = os.path.join(TOP, "tests", "cases", name)
        file = os.path.join(folder, "args")
        args = read(file, "r").split("\n")[:-1] if os.path.isfile(file) else []
        plain = [word for word in args if word != "--explain"]
        if "--explain" not in args or plain[0] not in ASKED or plain[1:] and (len(plain) != 3 or plain[1] != "--shipped"):
            continue
        tried += 1
        given, wanted = read(os.path.join(folder, "stdin")), read(os.path.join(folder, "stderr")).partition(b"\n")[2]
        # What a run that is not refused tells of skipped calls is no explanation: there is none of it.
        if plain[0] == "run" and not os.path.isfile(os.path.join(folder, "status")):
            wanted = b""
        names = (plain[0].encode(), plain[2].encode() if plain[1:] else b"")
        told = tab.ask_module("page_explanation", (*names, given))
        count.check(f"tests/cases/{name}: the explanation", told == (0, wanted), told[1][-200:])
    count.check("there are explanations to be tried", tried > 50, tried)
    listing = read(os.path.join(TOP, "examples", "u.txt"))
    told = tab.ask_module("page_explanation", (b"run", b"", listing + b"%\nshape 2 2\n1 scan\n"))
    count.check("what is not refused is not explained", told == (0, b""), told)
    count.check("nor what is no subcommand", tab.ask_module("page_explanation", (b"live", b"", b"")) == (4, b""))


def try_steps(tab, count):
    """Steps to a line and to the end of an operation. A scan of U alone with three processes makes 17: lines 10 and 11, 12 and 13 three times,
    14 and 15 three times, 16, 21 and 22. An update makes one, line 30, then a scan, and lines 31 to 33."""
    listing = read(os.path.join(TOP, "examples", "u.txt"))
    schedule = b"shape 3 3\n2 scan\n2*5\n1 update 1 4\n3 scan\n3 crash\n"
    wanted = {("end", 1, 2): b"17", ("until", 1, 2, 14): b"8", ("until", 1, 2, 12): b"2", ("until", 3, 2, 12): b"2", ("end", 6, 2): b"12",
              ("until", 6, 2, 33): b"12", ("end", 7, 1): b"21", ("until", 7, 1, 33): b"20", ("until", 7, 1, 10): b"1"}
    for (name, *numbers), steps in wanted.items():
        told = tab.ask_module(f"page_{name}", (listing, schedule), numbers)
        count.check(f"steps: {name} {numbers}", told == (0, steps), told)
    refused = {("end", 1, 1): b"the process is idle", ("end", 1, 4): b"there is no such process", ("until", 1, 2, 20): b"there is no such line",
               ("end", 9, 3): b"the process has crashed", ("end", 10, 1): b"G6 NoSuchPosition"}
    for (name, *numbers), why in refused.items():
        told = tab.ask_module(f"page_{name}", (listing, schedule), numbers)
        count.check(f"no steps: {name} {numbers}", told[0] == 1 and told[1].startswith(b"refused: ") and told[1][9:-1].split()[-1] == why.split()[-1],
                    told)
    loop = b"kind seq\nscalar j\nrow\nwords a\nview s\nscan 1\nupdate 3\n1: goto 1\n2: return s\n3: finish\n"
    told = tab.ask_module("page_end", (loop, b"shape 1 1\n1 scan\n"), (1, 1))
    count.check("an operation that does not end", told == (1, b"refused: the schedule is full\n"), told)
    told = tab.ask_module("page_until", (b"kind so\n", b"shape 1 1\n"), (0, 1, 1))
    count.check("a listing that is none", told == (1, b"refused: L2 BadHeader 1\n"), told)


SHIPPED = {"seq": "u.txt", "bit": "b.txt", "multi": "m.txt"}


def try_reasons(tab, count):
    """Why an item came out so is what bin/snapdb says of it, in those of its examples that begin by that."""
    tried, place = 0, os.path.join(TOP, "examples", "prompt")
    for name in sorted(os.listdir(place)):
        folder = os.path.join(place, name)
        asked = [line.partition("#")[0].split() for line in read(os.path.join(folder, "stdin"), "r").splitlines()]
        items = [int((words[1:] or [0])[0]) for words in itertools.takewhile(lambda words: words[:1] == ["why"], asked)]
        if not items:
            continue
        tried += 1
        args = read(os.path.join(folder, "args"), "r").split()
        kind = args[1] if args[0] == "--shipped" else None
        listing = read(os.path.join(TOP, "examples", SHIPPED[kind])) if kind else read(os.path.join(folder, os.path.basename(args[0])))
        schedule = read(os.path.join(folder, os.path.basename(args[-1])))
        told = [tab.ask_module("page_why", (listing, schedule), (item,)) for item in items]
        said = b"".join(text for _, text in itertools.takewhile(lambda one: one[0] == 0, told))
        count.check(f"examples/prompt/{name}", said and read(os.path.join(folder, "stdout")).startswith(said), said[-300:])
    count.check("there are reasons to be tried", tried > 2, tried)
    listing = read(os.path.join(TOP, "examples", "u.txt"))
    refused = {b"G5 NoSuchPosition": (listing, b"shape 2 2\n1 scan\n", 2), b"S3 BadItem 2": (listing, b"shape 2 2\nhello\n", 0),
               b"W1 BadShape": (listing, b"shape 2 3\n", 0), b"L2 BadHeader 1": (b"kind so\n", b"shape 2 2\n", 0)}
    for line, (one, other, item) in refused.items():
        told = tab.ask_module("page_why", (one, other), (item,))
        count.check(f"nothing is said of why: {line.decode()}", told == (1, b"refused: " + line + b"\n"), told)


def try_marks(tab, count):
    """The marks that commands leave, worked by hand."""
    wanted = {
        b"break 1 5\nbreak 2 5\nwatch r 1\nclear 1 5 # no more\ngoto 3\n  watch\tr  1\n": b"break 2 5\nwatch r 1\n",
        b"watch q 1 2\nwatch p 1 2\nunwatch q 1 2\nbreak 1 2\nclear 1 2\nbreak 1 2\n": b"watch p 1 2\nbreak 1 2\n",
        b"clear 1 2\nunwatch v 3\nshow v 3\nshow 3\nrun\nrrun\nstep 1\nback 1\nvalues\nevents\nwhere\n": b"",
        b"watch v 3\nwatch r 3\nunwatch v 4\n# watch r 9\n": b"watch v 3\nwatch r 3\n", b"": b"",
        b"".join(b"break 9 %d\n" % k for k in range(1, 200)): b"".join(b"break 9 %d\n" % k for k in range(1, 200)),
    }
    for commands, marks in wanted.items():
        told = tab.ask_module("page_marks", (commands,))
        count.check(f"marks: {commands.decode()[:40]!r}", told == (0, marks), told)
    for commands, line in {b"break 1 5\nwatch r\n": b"G1 BadCommand 2", b"#" * 1048577: b"G7 TooLong"}.items():
        told = tab.ask_module("page_marks", (commands,))
        count.check(f"no marks: {line.decode()}", told == (1, b"refused: " + line + b"\n"), told)


def lines_of_picture(svg):
    """The lines of what a picture draws, of its titles."""
    drawn, found = svg[svg.index("</metadata>"):svg.rindex('<g class="legend"')], []
    for kind, title in re.findall(r'<(?:g|path|svg) class="([a-z]+)"[^>]*><title>([^<]+)', drawn):
        numbers = re.findall(r"\d+", title.replace("&#8594;", ""))
        if kind in ("scan", "update"):
            view, word = re.search(r"&#8594;( .*)$", title), title.rsplit(" ", 1)[-1]
            end = {"crashed": "crash", "trapped": "trap", "..": "open"}.get(word, "done")
            call = numbers[3:5] if kind == "update" else []
            end = "answer" + view[1] if view else end
            found.append(" ".join([kind, *numbers[:3], *call, end]))
        elif kind == "values":
            found.append(" ".join([kind, *numbers[-2:], *numbers[:-2]]))
        elif kind in ("inner", "none", "wrong"):
            found.append(" ".join([kind, *numbers[:3]]))
        elif kind == "point":
            span, item, values, collects = numbers[:3], numbers[3], numbers[4:-1], numbers[-1]
            found.append(" ".join([kind, *span, item, collects, *values]))
        else:
            item, who, line, *more = numbers
            found.append(" ".join([kind, *(more if kind == "loan" else []), who, item, line, *(more if kind != "loan" else [])]))
    return found


def try_shapes(tab, count):
    """What the time line draws is what the pictures of docs/pictures draw, which bin/snapdraw makes."""
    for name in drawings():
        example = os.path.join(TOP, "examples", name.removesuffix(".svg"))
        if "--shipped" in read(os.path.join(example, "args"), "r"):
            continue
        parts, svg = re.split(rb"(?m)^%\n", read(os.path.join(example, "stdin"))), read(os.path.join(TOP, "docs", "pictures", name), "r")
        total = int(re.search(r"items 1 to (\d+) of", svg)[1])
        code, told = tab.ask_module("page_shapes", parts[:2], (1, total))
        wanted = [one for one in lines_of_picture(svg) if not one.startswith("wrong ")]
        count.check(f"docs/pictures/{name}: its shapes", code == 0 and told.decode().splitlines() == wanted, told[:200])
    listing = read(os.path.join(TOP, "examples", "u.txt"))
    for asked, wanted in (((1, 3), b"D1 NoSuchItems 2"), ((0, 1), b"D1 NoSuchItems 2")):
        told = tab.ask_module("page_shapes", (listing, b"shape 2 2\n1*2\n"), asked)
        count.check(f"shapes are refused: {wanted.decode()}", told == (1, b"refused: " + wanted + b"\n"), told[1][:80])
    told = tab.ask_module("page_shapes", (listing, b"shape 2 2\n1 scan\n1 crash\n"), (1, 2))
    count.check("a crash", told == (0, b"values 0 2 0 0\nscan 1 1 2 crash\ncrash 1 2 10\n"), told)


def made_up(folder, seed):
    """Listing, schedule and commands of a seed, and their kind."""
    tools = os.path.join(TOP, "tools", "fuzzing")
    subprocess.run(["awk", "-v", f"seed={seed}", "-v", f"into={folder}", "-v", f"examples={TOP}/examples", "-f", f"{tools}/random.awk", "-f",
                    f"{tools}/case.awk"], check=True, cwd=folder)
    return *(read(os.path.join(folder, name)) for name in ("text", "schedule", "commands")), read(os.path.join(folder, "facts"), "r").split()[0]


def try_lines(tab, count, pairs, first):
    """The page's own reader of a schedule finds as many processes and items as the module does, each of the same process, and the line of each."""
    same = accepted = 0
    with tempfile.TemporaryDirectory() as folder:
        for seed in range(first, first + pairs):
            text, schedule, _, _ = made_up(folder, seed)
            code, traced = tab.answer("trace", "", text + b"%\n" + schedule)
            if code:
                continue
            accepted += 1
            lines = schedule.decode().split("\n")
            found = tab.run(f"(found => [found.processes, found.total, ...['from', 'who', 'line'].map(part => [...found[part]])])(readItems({json.dumps(schedule.decode())}))")
            processes, total, begins, who, places = found
            spread = [one for one, start, end in zip(who, begins, [*begins[1:], total]) for _ in range(end - start)]
            wanted = [int(one) for one in re.findall(rb"(?m)^item \d+ (\d+) ", traced)]
            told = [k for k, line in enumerate(lines) if line.partition("#")[0].strip()]
            shape = lines[told[0]].split("#")[0].split()
            if spread == wanted and places == told[1:] and processes == int(shape[1]):
                same += 1
            else:
                count.check(f"seed {seed}: the lines of a schedule", False, found)
    count.check(f"the lines of {accepted} made-up schedules: {same} are found right", same == accepted > pairs / 4)


def try_pairs(tab, count, pairs, first):
    program = os.environ.get("SNAPLAB") or os.path.join(TOP, "crates", "snaplab", "out", "snaplab")
    if not os.access(program, os.X_OK):
        count.skip(f"{pairs} made-up pairs", "there is no native program")
        return
    same = 0
    with tempfile.TemporaryDirectory() as folder:
        for seed in range(first, first + pairs):
            text, schedule, asked, kind = made_up(folder, seed)
            for args, parts in ((["run"], (text, schedule)), (["audit"], (text, schedule)), (["debug"], (text, schedule, asked)),
                                (["check"], (text,)), (["run", "--shipped", kind], (schedule,))):
                given = b"%\n".join(parts)
                native = subprocess.run([program, *args], input=given, capture_output=True, check=False)
                if ask(tab, args, given) == (native.returncode, native.stdout, native.stderr):
                    same += 1
                else:
                    count.check(f"seed {seed}: {' '.join(args)}", False)
    count.check(f"{pairs} made-up pairs: {same} answers are the native program's", same == 5 * pairs)


def main():
    browser.need()
    pairs, first = (int(word) for word in (sys.argv[1:] + ["200", "1"][len(sys.argv) - 1:]))
    count = browser.Count()
    with browser.started() as running:
        tab = running.tab()
        try_examples(tab, count)
        try_gallery(tab, count)
        try_pictures(tab, count)
        try_hunts(tab, count)
        try_explanations(tab, count)
        try_steps(tab, count)
        try_shapes(tab, count)
        try_reasons(tab, count)
        try_marks(tab, count)
        try_lines(tab, count, pairs, first)
        try_pairs(tab, count, pairs, first)
        count.check("a subcommand that is none is told so", tab.answer("live", "", b"") == (4, b""))
    count.finish()


if __name__ == "__main__":
    main()
