#!/usr/bin/env python3
"""Makes page/snaplab.html, one file, of page/src, the documents and examples that it shows, and the module.

The scripts are modules; here they become one script, and the page allows that script and its style
alone, by their hashes.

    page/build.py --module PATH/snap_page.wasm     with this module
    page/build.py                                  with the module that is inside the page already
    page/build.py --check                          says whether the page is what would be made
"""
import argparse
import base64
import hashlib
import html
import json
import os
import re
import sys
import zlib

HERE = os.path.dirname(os.path.abspath(__file__))
TOP = os.path.dirname(HERE)
PAGE = os.path.join(HERE, "snaplab.html")
GALLERY = ("gallery.md", "gallery-2.md")
PLACE = re.compile(r"<!-- ([a-z.\s]+?) -->")
MODULE = re.compile(r'<script type="text/plain" id="module">\n?([^<]*)</script>')


def read(*path):
    with open(os.path.join(TOP, *path), encoding="utf-8", newline="") as file:
        return file.read()


def source(name):
    return read("page", "src", name).rstrip("\n")


def inline(text):
    """A paragraph of a document as HTML: code and bold, and links as their words."""
    text = html.escape(" ".join(text.split()), quote=False)
    text = re.sub(r"\[([^]]*)\]\([^)]*\)", r"\1", text)
    text = re.sub(r"`([^`]*)`", r"<code>\1</code>", text)
    return re.sub(r"\*\*([^*]*)\*\*", r"<b>\1</b>", text)


def paragraphs(text):
    """The paragraphs of a piece of a document, without its blocks of commands and its pictures.

    A colon that leads to such a block is a full stop, since nothing follows it.
    """
    text = re.sub(r":(\s+```)", r".\1", text)
    text = re.sub(r"(?ms)^```.*?^```$", "", text)
    return [part.strip() for part in re.split(r"\n\s*\n", text) if part.strip() and not part.startswith("![")]


def told_of(text):
    return "".join(f"<p>{inline(part)}</p>" for part in paragraphs(text))


def sections():
    """The gallery's sections: their titles, what they say, and what they change, with what follows from that."""
    found = {}
    for piece in [piece for name in GALLERY for piece in re.split(r"(?m)^## ", read("docs", "tutorial", name))[1:]]:
        title, _, text = piece.partition("\n")
        number, _, name = title.partition(". ")
        before, mark, behind = text.partition("**Change:**")
        found[int(number)] = {"title": f"{number}. {name}", "text": told_of(before), "change": told_of(mark + behind)}
    return found


def parts(example, listing=None):
    """The listing and the schedule of an example, without the sentence above U, B or M, or above a schedule alone."""
    text = read("examples", example, "stdin")
    if listing:
        return read("examples", listing), text[text.index("shape"):]
    own, schedule = re.split(r"(?m)^%\n", text)[:2]
    below = own.partition("\n")[2]
    return below if below in [read("examples", name) for name in ("u.txt", "b.txt", "m.txt")] else own, schedule


def changed(change, both):
    """Listing and schedule, with each pattern replaced."""
    listing, schedule = parts(change["example"]) if "example" in change else both
    both = read("examples", change["listing"]) if "listing" in change else listing, schedule + change.get("add", "")
    for pattern, text in change.items():
        if pattern in ("example", "listing", "add"):
            continue
        flags = re.MULTILINE | (re.DOTALL if pattern.startswith("(?s)") else 0)
        both = tuple(re.sub(pattern.removeprefix("(?s)"), text, one, flags=flags) for one in both)
    return both


def items_of(schedule):
    """The items of a schedule, one by one, and its shape."""
    found = []
    for line in schedule.split("\n"):
        words = line.partition("#")[0].strip()
        who, _, times = words.partition("*")
        found += [who.strip()] * int(times) if times else [words] if words else []
    return found


def told_with(both, lines):
    """A lesson's schedule with other comments, which are its captions: the items are those of the example."""
    if not lines:
        return both
    listing, schedule = both
    shape = re.search(r"(?m)^shape.*$", schedule)[0]
    told = "\n".join([shape, *lines]) + "\n"
    if items_of(told) != items_of(schedule):
        sys.exit(f"these are not the items of the example: {lines}")
    return listing, told


def runs_of(idea):
    """Listing and schedule of an idea, and those of its change. What the idea edits are steps that nothing comes of."""
    both = told_with(changed(idea.get("edit", {}), parts(idea["example"], idea.get("listing"))), idea.get("lines"))
    return both, changed(idea["change"], both)


def story_of(section):
    """A lesson's story as the page tells it: without what a test compares with the run."""
    def without_claims(part):
        if isinstance(part, list):
            return [without_claims(one) for one in part]
        if isinstance(part, dict):
            return {name: without_claims(one) for name, one in part.items() if name not in ("claims", "means")}
        return part
    return without_claims(json.loads(source("stories.json")).get(str(section)))


def an_idea(idea, told):
    both, other = runs_of(idea)
    if other == both:
        sys.exit(f"idea {idea['section']} changes nothing")
    return {**told, "story": story_of(idea["section"]), "listing": both[0], "schedule": both[1], "shows": idea["shows"],
            "start": idea.get("start", 0),
            "change": {"text": told["change"], "listing": other[0], "schedule": other[1], "shows": idea["changed"]}}


def an_exercise(exercise):
    if "file" in exercise:
        listing, schedule = read("examples", exercise["file"]), exercise["schedule"]
    else:
        listing, schedule = changed(exercise.get("change", {}), parts(exercise["example"]))[0], exercise["cut"]
    goal = {**exercise["goal"], "listing": listing}
    return {"title": exercise["title"], "listing": listing, "schedule": schedule, "goal": goal}


def choices():
    """What the menu leads to, in its groups."""
    gallery, told = json.loads(source("gallery.json")), sections()
    return {
        "Listings": [{"title": one["title"], "listing": read("examples", one["file"]), "schedule": one["schedule"]}
                     for one in gallery["listings"]],
        "Gallery": [an_idea(idea, told[idea["section"]]) for idea in gallery["ideas"]],
        "Exercises": [an_exercise(one) for one in gallery["exercises"]],
    }


def shapes_of(example):
    """The shapes of a picture of the documents, without its style, which the page has once; none without a picture."""
    name = ("docs", "pictures", f"{example}.svg")
    if not os.path.exists(os.path.join(TOP, *name)):
        return ""
    text = re.sub(r"(?s)<style>.*?</style>|<metadata>.*?</metadata>|<title>.*?</title>|\n", "", read(*name))
    text = re.sub(r' xmlns="[^"]*"', "", re.sub(r"></(path|rect|circle|stop)>", "/>", text))
    same = re.compile(r'<path class="(read|tick|pass|fail)" d="([^"]*)"/><path class="\1" d="([^"]*)"/>')
    while same.search(text):
        text = same.sub(r'<path class="\1" d="\2\3"/>', text)
    return f"<figure>{text}</figure>"


def style_of_shapes():
    """The style of the pictures of the documents, within the lessons that stand in a page without a script."""
    style = re.search(r"(?s)<style>(.*?)</style>", read("docs", "pictures", "borrowed-view.svg"))[1]
    rules = re.findall(r"(?m)^(?!@)([^{}\n]+)(\{[^{}]*\})$", style)
    names = (",".join(f".still {one}" for one in selectors.split(",")) for selectors, _ in rules)
    return "\n".join(name + body for name, (_, body) in zip(names, rules))


def told_scene(scene):
    options = "".join(f"<li>{inline(one)}</li>" for one in scene.get("options", []))
    asked = f"<p><b>{inline(scene['ask'])}</b></p><ol>{options}</ol>" if "ask" in scene else ""
    return f"<li>{asked}<h3>{inline(scene['title'])}</h3>{told_of(scene.get('body', ''))}</li>"


def still_lessons():
    """All lessons in words, each with the picture of its run, for a browser that runs no script or no module."""
    told, found = sections(), []
    for idea in json.loads(source("gallery.json"))["ideas"]:
        story, section = story_of(idea["section"]), told[idea["section"]]
        if not story:
            continue
        scenes = [story["start"], *story["scenes"], *story.get("change", {}).get("scenes", [])]
        words = "".join(told_scene(scene) for scene in scenes + [story["compare"]] * ("compare" in story))
        title, shapes = inline(section["title"]), shapes_of(idea["example"])
        found.append(f"<section><h2>{title}</h2>{shapes}<ol>{words}</ol></section>")
    return "\n".join(found)


def script(names):
    """Modules as one script: without their imports, the word 'export', and comments on lines of their own."""
    text = "\n".join(source(name) for name in names.split())
    text = re.sub(r"(?m)^ *//.*\n", "", text)
    declared = re.findall(r"(?m)^(?:export )?(?:async )?(?:function|class|const|let) (\w+)", text)
    twice = sorted({name for name in declared if declared.count(name) > 1})
    if twice:
        sys.exit(f"declared in two modules of one script: {', '.join(twice)}")
    text = re.sub(r"(?ms)^import [^;]*? from '\./[a-z]+\.js';\n", "", text)
    return re.sub(r"(?m)^export ", "", text)


def page_script():
    """What the page's own script is: the one that is no data."""
    return re.search(r"(?s)<script>(.*?)</script>", source("page.html"))[1]


def page_style():
    """What the page's own style is."""
    return re.search(r"(?s)<style>(.*?)</style>", source("page.html"))[1]


def hash_of(said):
    return f"'sha256-{base64.b64encode(hashlib.sha256(said.encode()).digest()).decode()}'"


def data():
    told, groups, count = {"choices": sum(choices().values(), [])}, [], 0
    for name, group in choices().items():
        groups.append([name, list(range(count, count + len(group)))])
        count += len(group)
    told.update(groups=groups, first=dict(groups)["Gallery"][0])
    return json.dumps(told, ensure_ascii=False, sort_keys=True, separators=(",", ":"))


def built(module):
    """The page's text, with a packed module."""
    def put(match):
        names = match.group(1)
        if names == "module":
            return module
        if names == "data":
            return letters_of(data().encode(), "data")
        if names == "still lessons":
            return still_lessons()
        if names == "style of shapes":
            return style_of_shapes()
        if names in ("script hash", "style hash"):
            return hash_of(PLACE.sub(put, page_script() if names == "script hash" else page_style()))
        if names.endswith(".txt"):
            return html.escape(source(names), quote=False)
        return script(names) if names.endswith(".js") else source(names)
    return PLACE.sub(put, source("page.html")) + "\n"


def letters_inside():
    """The module that is inside the page, packed."""
    return MODULE.search(read("page", "snaplab.html"))[1]


def packed(content):
    """Bytes deflated, in letters that a script's element may have."""
    packer = zlib.compressobj(9, zlib.DEFLATED, -15, 9)
    letters = base64.b85encode(packer.compress(content) + packer.flush()).decode().replace("<", ",")
    return "\n".join(letters[k:k + 120] for k in range(0, len(letters), 120))


def unpacked(letters):
    return zlib.decompress(base64.b85decode("".join(letters.split()).replace(",", "<")), -15)


def letters_of(content, name):
    """Bytes packed: in the letters inside the page where these are of them, since another zlib may have others."""
    inside = re.search(rf'id="{name}">\n?([^<]*)</script>', read("page", "snaplab.html"))
    try:
        if inside and unpacked(inside[1]) == content:
            return inside[1]
    except (ValueError, zlib.error):
        pass
    return packed(content)


def main():
    words = argparse.ArgumentParser(description=__doc__, formatter_class=argparse.RawDescriptionHelpFormatter)
    words.add_argument("--module")
    words.add_argument("--check", action="store_true")
    asked = words.parse_args()
    if asked.module:
        with open(asked.module, "rb") as file:
            module = letters_of(file.read(), "module")
    else:
        module = letters_inside()
    text = built(module)
    if asked.check:
        same = text == read("page", "snaplab.html")
        print(f"page/snaplab.html is {'' if same else 'not '}what page/build.py makes")
        sys.exit(0 if same else 1)
    with open(PAGE, "w", encoding="utf-8", newline="") as file:
        file.write(text)
    print(f"page/snaplab.html: {len(text.encode())} bytes, {len(module)} of them the module")


if __name__ == "__main__":
    main()
