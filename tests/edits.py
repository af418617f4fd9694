"""Edits of a crate's text, and what the prover says of the crate with one of them.

An edit is a file of lines 'file: NAME', 'old: TEXT' and 'new: TEXT': in that file of the crate the old text, which has to stand there
once, gives way to the new one. Further pairs apply to what the earlier ones made. The prover checks the functions that are edited, or
those that a line 'checks: FUNCTION' names, and where there are none the whole crate.
"""
import os
import re
import shutil
import subprocess
import sys
import tempfile
import time

sys.dont_write_bytecode = True
TOP = os.path.realpath(os.path.join(os.path.dirname(os.path.abspath(__file__)), ".."))
PARTS = ("src", "specs", "proofs")
MOST_SECONDS = 1800


class Bad(Exception):
    """Why an edit says nothing of a contract: it cannot be applied, or the prover does not get as far as the proofs."""


class Edit:
    """An edit: what it is called, what it replaces, the texts of the files that it changes, and the functions whose contracts it is to
    break. It is of bodies alone where all that it replaces stands in these functions."""

    def __init__(self, path):
        self.crate = path.split("/crates/")[-1].split("/")[0]
        self.name = f"{self.crate}/{os.path.basename(path)[: -len('.edit')]}"
        self.replacements = []
        self.texts = {}
        self.functions = []
        self.is_of_bodies = True
        named, file, old = [], None, None
        with open(path, encoding="utf-8") as text:
            lines = text.read().splitlines()
        for line in lines:
            word, _, text = line.partition(": ")
            if word == "file":
                file = text
            elif word == "checks":
                named.append(text)
            elif word == "old":
                old = text
            elif word == "new" and old is not None:
                self.replace(file, old, text)
                old = None
            else:
                raise Bad(f"what is this line: {line}")
        self.functions = named or self.functions
        self.is_of_bodies = self.is_of_bodies and not named and bool(self.functions)

    def replace(self, file, old, new):
        self.replacements.append((file, old, new))
        start = replace_in(self.texts, self.crate, file, old, new)
        found = functions_at(file, self.texts[file], start, start + len(new)) if file.startswith("src/") else []
        self.is_of_bodies = self.is_of_bodies and bool(found)
        self.functions += [it for it in found if it not in self.functions]


def replace_in(texts, crate, file, old, new):
    """Replaces a text that stands once in a file of a crate, in the texts of its files that were changed already, and gives its place."""
    if file not in texts:
        with open(f"{TOP}/crates/{crate}/{file}", encoding="utf-8") as text:
            texts[file] = text.read()
    count = texts[file].count(old)
    if count != 1:
        raise Bad(f"{file} has {count} times: {old}")
    start = texts[file].index(old)
    texts[file] = texts[file].replace(old, new)
    return start


def texts_of(edits):
    """The texts of a crate's files with all of these edits."""
    texts = {}
    for edit in edits:
        for file, old, new in edit.replacements:
            replace_in(texts, edit.crate, file, old, new)
    return texts


def functions_in(crate):
    """The functions of a crate, as the prover calls them."""
    folder = f"{TOP}/crates/{crate}"
    found = set()
    for file in files_of(crate, ["src"]):
        with open(file, encoding="utf-8") as text:
            found.update(name for name, _, _ in functions_of(os.path.relpath(file, folder), text.read()))
    return found


def functions_at(file, text, start, end):
    """The functions of a file of src/ that have a part of a stretch of its text."""
    return [name for name, first, last in functions_of(file, text) if first < end and start < last]


def functions_of(file, text):
    """The functions of a file of src/, as the prover calls them, and where each begins and ends. A file is laid out by rt fmt: a
    function ends with the next brace that stands as far to the left as its first line."""
    module = [it for it in file[len("src/") : -len(".rt")].split("/") if it not in ("lib", "main", "mod")]
    found, owner, at = [], [], 0
    for line in text.splitlines(keepends=True):
        if re.match(r"(unsafe )?impl\b|(pub(\([^)]*\))? )?trait\b", line):
            owner = [owner_of(text[at : text.index("{", at)])]
        for function in re.finditer(r"(?:^|[;{}] )( *)(?:pub(?:\([^)]*\))? )?(?:const )?fn (\w+)", line):
            close = re.compile(rf"^{function[1]}}}", re.M).search(text, at + function.end())
            # (a method is called by its type, wherever its `impl` stands)
            name = "::".join([*(owner if function[1] else module), function[2]])
            found.append((name, at + function.start(), close.end() if close else len(text)))
        if line.startswith("}"):
            owner = []
        at += len(line)
    return found


def owner_of(head):
    """What the functions of an `impl` or a `trait` are called by: the type's name, and behind it the trait's."""
    while re.search(r"<[^<>]*>", head):
        head = re.sub(r"<[^<>]*>", "", head)
    head = re.sub(r"^(unsafe )?impl\b|^(pub(\([^)]*\))? )?trait\b|\brequires\b.*|\bwhere\b.*|:(?!:).*", "", head, flags=re.S)
    return "".join(re.findall(r"\w+", it)[-1] for it in reversed(head.split(" for ")))


class Prover:
    """The kit's prover over the libraries that the kit's gate has built in this checkout."""

    def __init__(self):
        said = subprocess.run(["rt", "doc"], stdout=subprocess.PIPE, text=True, check=True).stdout
        self.kit = os.path.dirname(os.path.realpath(said.strip()))
        self.below, self.kinds = {}, {}
        # of each check the crate, and how long it took
        self.checks = []
        with open(f"{TOP}/crates.txt", encoding="utf-8") as lines:
            for line in lines:
                head, colon, names = line.partition("#")[0].partition(":")
                if colon:
                    name, *kinds = head.split()
                    self.below[name], self.kinds[name] = names.split(), kinds

    def all_below(self, crate):
        """The crates of this repository below a crate."""
        found = {}
        for name in self.below[crate]:
            if name in self.below:
                found.update(self.all_below(name) if name not in found else {})
                found[name] = None
        return found

    def has_proved(self, crate):
        """Whether the crate is proved as it stands: it has a library, which only a proved crate has, newer than its sources and those
        of all crates below it."""
        return all(is_newer(library_of(crate), it) for it in [crate, *self.all_below(crate)])

    def need_libraries(self, crate):
        """Makes the libraries below a crate that the gate has not left here."""
        for name in self.all_below(crate):
            if not is_newer(library_of(name), name):
                subprocess.run(["rt", "lib"], cwd=f"{TOP}/crates/{name}", check=True)
                # (one of the same text is kept, and keeps its time)
                os.utime(library_of(name))

    def words(self, crate):
        """The prover's words for a check of a crate."""
        root = "src/main.rt" if os.path.isfile(f"{TOP}/crates/{crate}/src/main.rt") else "src/lib.rt"
        words = [f"{self.kit}/bin/rattle", "check", "--crate-name", crate, root, "-L", f"dependency={self.kit}/rlibs"]
        for name in ["std", *self.below[crate]]:
            is_own = name in self.below
            words += ["--extern", f"{name}={TOP}/crates/{name}/out/rlib/{name}.rlib" if is_own else f"{name}={self.kit}/rlibs/{name}.rlib"]
        for name in self.all_below(crate):
            words += ["-L", f"dependency={TOP}/crates/{name}/out/rlib"]
        words += ["--crate-type", "staticlib"] * ("staticlib" in self.kinds[crate])
        words += ["--antt-project", f"{self.kit}/rattle/logic/antt-project.json", "--logic-built", f"{self.kit}/logic_built"]
        return [*words, "--links", f"{crate}=", "--jobs", "1"]

    def check(self, crate, texts, functions, kept):
        """Checks these functions of a crate with these texts in place of its own, over what checks before it kept in a folder. It gives
        the status and the lines that were printed."""
        with tempfile.TemporaryDirectory(prefix="snaplab-edit-") as copy:
            for part in PARTS:
                if os.path.isdir(f"{TOP}/crates/{crate}/{part}"):
                    shutil.copytree(f"{TOP}/crates/{crate}/{part}", f"{copy}/{part}")
            for file, text in texts.items():
                with open(f"{copy}/{file}", "w", encoding="utf-8") as out:
                    out.write(text)
            only = [word for name in functions for word in ("--only", name)]
            how = {"cwd": copy, "stdin": subprocess.DEVNULL, "stdout": subprocess.PIPE, "stderr": subprocess.STDOUT, "timeout": MOST_SECONDS}
            begun = time.monotonic()
            ran = subprocess.run([*self.words(crate), "--incremental", kept, *only], errors="replace", **how)
            self.checks.append((crate, time.monotonic() - begun))
            return ran.returncode, ran.stdout.rstrip("\n").split("\n")

    def refused(self, edits, kept):
        """Those of a crate's edits, made together, of which the prover refuses a function for what stands in that function itself."""
        crate, texts = edits[0].crate, texts_of(edits)
        status, lines = self.check(crate, texts, [name for it in edits for name in it.functions], kept)
        unread = next((it for it in lines if is_unread(it, texts)), None)
        if unread or not re.match(r"only=\d+ proved=|logic=", lines[-1]) or status not in (0, 1):
            raise Bad(unread or next((it for it in lines if "error" in it), lines[-1]))
        return [it for it in edits if status == 1 and (not it.functions or any(is_of_own(crate, name, lines) for name in it.functions))]

    def is_refused(self, edit, kept):
        """Whether the prover refuses one of the functions of an edit."""
        return bool(self.refused([edit], kept))

    def is_proved(self, crate, texts, functions, kept):
        """Whether all these functions are proved, or the whole crate where there are none."""
        status, lines = self.check(crate, texts, functions, kept)
        return status == 0 and bool(re.match(r"only=(\d+) proved=\1$|logic=proved", lines[-1]))


def files_of(crate, parts=PARTS):
    """The files that a crate is made of."""
    for part in parts:
        for at, _, names in os.walk(f"{TOP}/crates/{crate}/{part}"):
            yield from (os.path.join(at, name) for name in names)


def library_of(crate):
    """The file that stands for the library of a crate."""
    return f"{TOP}/crates/{crate}/out/rlib/{crate}.rlib/format"


def is_newer(made, crate):
    """Whether a file is there, and newer than all that a crate is made of."""
    return os.path.isfile(made) and all(os.path.getmtime(it) <= os.path.getmtime(made) for it in files_of(crate))


def is_of_own(crate, name, lines):
    """Whether the prover says of a function that it is not proved, and not only that it calls one that is not."""
    # (a line may go on, as 'fn NAME: proved, may wait')
    of_it = [it for it in lines if re.match(rf"fn {crate}::(.*::)?{name}: ", it)]
    return any(not re.search(": proved|: no proof: it calls ", it) for it in of_it)


def is_unread(line, texts):
    """Whether a line tells of a text that the prover could not read, and not of a statement that does not hold."""
    at = re.match(r"(?:\./)?(\S+?):\d+:\d+: error: (?:(`[^`]*`): )?(.*)", line)
    if not at or not (at[1] in texts or at[1].startswith(("src/", "specs/"))):
        return False
    said = re.sub(r"`[^`]*`", "", at[3])
    return not at[2] or bool(re.search("is not in scope|has no field|is no name|operand is missing|expected the end|cannot continue", said))
