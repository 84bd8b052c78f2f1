"""Opens pages in headless Chromium: measures them, and takes pictures.

    python3 tests/report/browser.py PAGE WIDTH light|dark PICTURE
"""

from __future__ import annotations

import html
import json
import os
import re
import resource
import shutil
import subprocess
import sys
import tempfile
from collections.abc import Sequence
from pathlib import Path
from typing import Any

SECONDS = 300
# Writes what it measures into the page around it, which Chromium then prints: how wide the page is,
# the colour behind it, texts of schedules that overlap or leave their picture, and boxes that stick
# out.
MEASURE = """
<script>
window.addEventListener("load", function () {
  var wrong = [];
  document.querySelectorAll("svg.time[role]").forEach(function (picture) {
    var room = picture.getBoundingClientRect();
    var boxes = Array.prototype.map.call(picture.querySelectorAll("text"), function (text) {
      var box = text.getBoundingClientRect();
      if (box.right > room.right + 1 || box.left < room.left - 1 || box.bottom > room.bottom + 1)
        wrong.push("leaves its picture: " + text.textContent);
      return {box: box, text: text.textContent};
    });
    boxes.forEach(function (one, number) {
      boxes.slice(0, number).forEach(function (other) {
        if (one.box.left < other.box.right - 1 && other.box.left < one.box.right - 1 &&
            one.box.top < other.box.bottom - 3 && other.box.top < one.box.bottom - 3)
          wrong.push("overlap: " + one.text + ", " + other.text);
      });
    });
  });
  document.querySelectorAll("h1, h2, h3, h4, p, pre, dd, td, figure, .panel").forEach(
    function (element) {
      var box = element.getBoundingClientRect();
      if (box.width && box.right > window.innerWidth + 1)
        wrong.push("sticks out: " + element.tagName);
      if (element.scrollWidth > element.clientWidth + 1 && element.clientWidth)
        wrong.push("is cut off: " + element.tagName + " " + element.textContent.slice(0, 40));
    });
  var scrolled = [];
  document.querySelectorAll("pre, .scroll").forEach(function (element) {
    if (element.clientHeight && element.scrollHeight > element.clientHeight + 1)
      scrolled.push(element.tagName + " " + element.textContent.slice(0, 40));
  });
  var shown = function (selector) {
    return Array.prototype.filter.call(document.querySelectorAll(selector), function (element) {
      return element.getClientRects().length > 0;
    }).length;
  };
  var name = "data-measured-" + window.innerWidth;
  window.parent.document.documentElement.setAttribute(name, JSON.stringify({
    width: window.innerWidth,
    wide: document.documentElement.scrollWidth,
    behind: getComputedStyle(document.body).backgroundColor,
    graphs: shown("svg.graph"), lists: shown(".list"), inputs: shown("input"),
    buttons: shown("button"), scrolled: scrolled, wrong: wrong
  }));
});
</script>
"""
MEASURED = re.compile(r'data-measured-(\d+)="([^"]*)"')
# A page in frames, since Chromium's windows are at least 500 pixels wide.
FRAMES = """<!DOCTYPE html><html style="color-scheme: light dark"><body>{frames}</body></html>"""
FRAME = '<iframe src="{name}" style="width: {width}px; height: 900px; border: 0"></iframe>'


def program() -> str | None:
    """Chromium, by one of its names."""
    names = ("chromium", "chromium-browser", "google-chrome", "chrome")
    return next(filter(None, map(shutil.which, names)), None)


def run(page: Path, width: int, dark: bool, *more: str, height: int = 900) -> str:
    """What Chromium prints of a page."""
    browser = program()
    assert browser is not None
    with tempfile.TemporaryDirectory(prefix="mkcheck-browser-") as room:
        done = subprocess.run(
            [
                browser,
                "--headless",
                "--no-sandbox",
                "--disable-gpu",
                "--hide-scrollbars",
                "--disable-extensions",
                "--no-first-run",
                f"--user-data-dir={room}",
                f"--window-size={width},{height}",
                f"--blink-settings=preferredColorScheme={0 if dark else 1}",
                *more,
                page.absolute().as_uri(),
            ],
            env={**os.environ, "HOME": room},
            stdin=subprocess.DEVNULL,
            stdout=subprocess.PIPE,
            stderr=subprocess.DEVNULL,
            timeout=SECONDS,
            check=True,
        )
    return done.stdout.decode("utf-8", "replace")


def seconds_to_open(page: Path) -> float:
    """The processor time to open a page, beyond that of an empty one: what others run at the same
    time changes it little."""
    empty = page.with_name("empty.html")
    empty.write_text("<!DOCTYPE html><title>empty</title>", encoding="utf-8")
    spent = []
    for one in (empty, page):
        before = resource.getrusage(resource.RUSAGE_CHILDREN)
        run(one, 1280, False, "--single-process", "--no-zygote", "--dump-dom")
        after = resource.getrusage(resource.RUSAGE_CHILDREN)
        spent.append(after.ru_utime + after.ru_stime - before.ru_utime - before.ru_stime)
    return spent[1] - spent[0]


def measured(page: Path, widths: Sequence[int], dark: bool) -> dict[int, dict[str, Any]]:
    """What is measured of a page, by its width."""
    text = page.read_text(encoding="utf-8").replace("</body>", MEASURE + "</body>")
    copy = page.with_name(f"measured-{page.name}")
    copy.write_text(text, encoding="utf-8")
    frames = "".join(FRAME.format(name=copy.name, width=width) for width in widths)
    around = page.with_name(f"frames-{page.name}")
    around.write_text(FRAMES.format(frames=frames), encoding="utf-8")
    shown = run(around, 1700, dark, "--dump-dom", "--allow-file-access-from-files")
    return {int(width): json.loads(html.unescape(said)) for width, said in MEASURED.findall(shown)}


def main(words: list[str]) -> int:
    """Takes a picture of a page, as high as the page is."""
    page, width, scheme, picture = Path(words[0]), int(words[1]), words[2], words[3]
    run(
        page,
        width,
        scheme == "dark",
        f"--screenshot={os.path.abspath(picture)}",
        height=int(words[4]) if len(words) > 4 else 2400,
    )
    return 0


if __name__ == "__main__":
    sys.exit(main(sys.argv[1:]))
