#!/usr/bin/env python3
"""Measures the page: its first paint, and a step, a walk and a run at 10,000 and 100,000 items of U with three processes.

    page/tests/measure.py [REPEATS]     the medians of so many (9); with the aims, which are not judged here
"""
import json
import os
import random
import statistics
import sys

sys.dont_write_bytecode = True
import browser  # noqa: E402

# A step of the first process that is busy, or a call where there is none.
STEP = """(() => { const k = state.report.processes.findIndex(one => one.what !== 'idle'); return k < 0 ? press(1, 'scan') : press(k + 1); })()"""
AIMS = {"first paint": 1000, "step at 10000": 16, "step at 100000": 100}


def a_schedule(total):
    """Three processes, each with scans and updates one after the other, mixed by chance, of so many items."""
    dice, lines, items = random.Random(1), ["shape 3 3"], 0
    while items < total:
        who, what = dice.randint(1, 3), dice.random()
        times = min(dice.randint(1, 8), total - items)
        if what < .1:
            times = 1
        lines.append(f"{who} scan" if what < .05 else f"{who} update {who} {items + 1}" if what < .1 else f"{who}*{times}")
        items += times
    return "\n".join(lines) + "\n"


def first_paint(running):
    """Milliseconds from the beginning of loading to the first paint, and to the first state shown."""
    tab = running.tab()
    tab.until("performance.getEntriesByName('first-contentful-paint').length > 0")
    paint = tab.run("performance.getEntriesByName('first-contentful-paint')[0].startTime")
    state = tab.run("window.snaplab.shownAt ?? performance.now()")
    tab.close()
    return paint, state


def times_of(tab, script, repeats):
    """Milliseconds until what is asked by a script is shown and laid out, and until the next frame begins, which draws the bars; what is
    asked afterwards, an audit, is waited for, but not counted."""
    shown, drawn = [], []
    for _ in range(repeats):
        laid, frame = tab.run(f"""(async () => {{ const begun = performance.now(); await {script};
            const laid = document.body.offsetHeight && performance.now() - begun;
            await new Promise(done => requestAnimationFrame(done)); return [laid, performance.now() - begun]; }})()""")
        shown.append(laid)
        drawn.append(frame)
        tab.settled()
    return shown, drawn


def tell(what, found, drawn=()):
    aim = AIMS.get(what)
    frame = f"; to the next frame {statistics.median(drawn):.1f} ms" if drawn else ""
    print(f"{what:28} median {statistics.median(found):7.1f} ms, least {min(found):7.1f} ms{frame}" + (f", aim {aim} ms" if aim else ""))


def main():
    browser.need()
    repeats = int(sys.argv[1]) if len(sys.argv) > 1 else 9
    print(f"{os.cpu_count()} processors, load {os.getloadavg()[0]:.1f}")
    with browser.started() as running:
        loads = [first_paint(running) for _ in range(max(repeats // 3, 1))]
        tell("first paint", [paint for paint, _ in loads])
        tell("first state", [state for _, state in loads])
        tab = running.tab()
        tab.run("choose(0)")
        for total in (10000, 100000):
            tab.run(f"change({{schedule: {json.dumps(a_schedule(total))}, at: {total}}}).then(() => 0)")
            tab.settled()
            tell(f"step at {total}", *times_of(tab, STEP, repeats))
            tell(f"one item back at {total}", *times_of(tab, "goTo(state.at - 1)", repeats))
            tell(f"to the middle of {total}", *times_of(tab, f"goTo({total // 2} + Math.floor(Math.random() * 99))", repeats))
            asked = tab.run("new TextEncoder().encode(asInput()).length")
            print(f"{'asked text at ' + str(total):28} {asked} bytes")
            tell(f"the module's run of {total}", *times_of(tab, """snaplab.answer('page_output',
                ['run', '', state.listing + '%\\n' + state.schedule])""", repeats))


if __name__ == "__main__":
    main()
