#!/usr/bin/env python3
"""Pictures of the page, to be looked at: five sizes, light and dark, in several states.

    page/tests/screens.py FOLDER
"""
import os
import sys

sys.dont_write_bytecode = True
import browser  # noqa: E402

SIZES = {
    "projector": {"width": 1280, "height": 720},
    "desk": {"width": 1440, "height": 900},
    "large": {"width": 1920, "height": 1080},
    "zoomed": {"width": 640, "height": 360, "scale": 2},      # the projector at 200 %
    "phone": {"width": 390, "height": 844, "scale": 2, "mobile": True},
}
FIRST_IDEA = 4
STATES = {
    "borrowed": [f"choose({FIRST_IDEA + 2})", "goTo(53)", "goTo(54)"],
    "none": [f"choose({FIRST_IDEA + 3})", "document.getElementById('change').onclick()", "goTo(51)", "goTo(52)"],
}
MORE = {
    "annotated": ["choose(0)", "press(1, 'scan')", *["press(1)"] * 6, "press(2, 'update 2 5')", *["press(2)"] * 5],
    "refused": [f"choose({FIRST_IDEA})", "change({listing: state.listing.replace('goto 14', 'got 14')})"],
    "bits": [f"choose({FIRST_IDEA + 5})", "goTo(199)", "goTo(200)"],
    "multi": [f"choose({FIRST_IDEA + 6})", "toggle('r 2')", "refresh('run')", "refresh('run')", "refresh('run')"],
    "exercise": ["choose(data.choices.findIndex(one => one.goal))", "press(1, 'scan')"],
    "many": ["choose(0)", "change({schedule: 'shape 12 12\\n' + Array.from({length: 12}, (_, k) => `${k + 1} update ${k + 1} 5\\n`)"
             ".join('') + Array.from({length: 200}, (_, k) => `${k % 12 + 1}*${k % 7 + 5}\\n`).join('')})", "goTo(700)", "goTo(701)"],
    "help": [f"choose({FIRST_IDEA})", "(document.getElementById('help').showModal(), 0)"],
    "picture": [f"choose({FIRST_IDEA + 2})", "(document.getElementById('picture').click(), 0)"],
    "lessons": [f"choose({FIRST_IDEA})", "(document.getElementById('menu').click(), 0)"],
    "words": [f"choose({FIRST_IDEA})", "(document.getElementById('words').click(), 0)"],
    "proved": [f"choose({FIRST_IDEA})", "(document.getElementById('trust').click(), 0)"],
    "present": [f"choose({FIRST_IDEA + 2})", "goTo(54)", "(document.body.classList.add('present'), 0)"],
}


def main():
    browser.need()
    folder = sys.argv[1]
    os.makedirs(folder, exist_ok=True)
    with browser.started() as running:
        for size, how in SIZES.items():
            for dark in (False, True):
                tab = running.tab(dark=dark, **how)
                states = {**STATES, **MORE} if size == "projector" and not dark else STATES
                for name, steps in states.items():
                    tab.run("[...document.querySelectorAll('dialog[open]')].forEach(one => one.close())")
                    for step in steps:
                        tab.run(f"Promise.resolve({step}).then(() => 0)")
                        tab.settled()
                    tab.run("new Promise(done => requestAnimationFrame(() => requestAnimationFrame(done)))")
                    path = os.path.join(folder, f"{size}-{'dark' if dark else 'light'}-{name}.png")
                    tab.picture(path, whole=size == "phone")
                    print(path)
                tab.close()


if __name__ == "__main__":
    main()
