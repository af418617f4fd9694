#!/usr/bin/env python3
"""Makes the picture of the page that README.md shows: a screen of a lesson, at rest.

    page/tests/front_picture.py docs/pictures/page.png
"""
import sys

sys.dont_write_bytecode = True
import browser  # noqa: E402
import lessons  # noqa: E402

SIZE = {"width": 1280, "height": 720}
LESSON, SCREEN = 3, 11


def main():
    browser.need()
    with browser.started() as running:
        tab = running.tab(bench=False, **SIZE)
        lessons.Lessons(tab).open(LESSON, SCREEN)
        tab.run("new Promise(done => setTimeout(done, 1000))")
        tab.picture(sys.argv[1])


if __name__ == "__main__":
    main()
