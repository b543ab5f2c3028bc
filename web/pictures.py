#!/usr/bin/env python3
"""pictures.py PAGE [FOLDER]: looks at the page in a headless Chromium at several widths, light and dark, with and
without its diagram, and writes the pictures of docs/, or all of them to the folder. BROWSER names another
browser.

A line for each tells the least contrast of a text to what is behind it, and what of a row is cut off or not
seen without scrolling sideways. The exit status is 1 if a contrast is below 4.5, or something is not seen.
"""

import base64
import os
import pathlib
import shutil
import sys
import tempfile

HERE = pathlib.Path(__file__).resolve().parent
ROOT = HERE.parent
sys.dont_write_bytecode = True

from browser import Browser  # noqa: E402

SIZES = ((1280, 900), (1600, 900), (400, 800))
# The pictures of docs/, and which they are.
SHOWN = {"page": (1280, "light", False), "page-diagram": (1600, "dark", True), "page-phone": (400, "light", False)}
LEAST_CONTRAST = 4.5
# The least contrast of the texts that are seen, with the text.
CONTRAST = """(() => {
  const numbers = (color) => color.match(/[\\d.]+/g).map(Number);
  const over = ([...above], below) => below.map((it, at) => above[at] * (above[3] ?? 1) + it * (1 - (above[3] ?? 1)));
  const canvas = document.body.appendChild(document.createElement("i"));
  canvas.style.background = "Canvas";
  const page = numbers(getComputedStyle(canvas).backgroundColor).slice(0, 3);
  canvas.remove();
  const behind = (it) => (it ? over(numbers(getComputedStyle(it).backgroundColor), behind(it.parentElement)) : page);
  const linear = (it) => (it <= 0.04045 ? it / 12.92 : ((it + 0.055) / 1.055) ** 2.4);
  const light = (color) => color.map((it) => linear(it / 255));
  const lightness = (color) => light(color).reduce((sum, it, at) => sum + it * [0.2126, 0.7152, 0.0722][at], 0);
  const contrast = (color, below) => {
    const [low, high] = [over(color, below), below].map(lightness).sort((a, b) => a - b);
    return (high + 0.05) / (low + 0.05);
  };
  const isText = (it) => [...it.childNodes].some((node) => node.nodeType === 3 && node.textContent.trim());
  const seen = [...document.querySelectorAll("body *")].filter((it) => it.checkVisibility());
  const colorOf = (it) => numbers(getComputedStyle(it).color);
  const texts = seen.filter(isText).map((it) => [contrast(colorOf(it), behind(it)), it.textContent]);
  const lines = seen.filter((it) => it.matches(".shaft, .tip, .lifeline")).map((it) => {
    const style = getComputedStyle(it);
    return [contrast(numbers(it.matches(".tip") ? style.fill : style.stroke), behind(it)), it.getAttribute("class")];
  });
  const hints = seen.filter((it) => it.placeholder).map((it) => {
    const { color, opacity } = getComputedStyle(it, "::placeholder");
    return [contrast([...numbers(color).slice(0, 3), Number(opacity)], behind(it)), it.placeholder];
  });
  return [...texts, ...lines, ...hints].reduce((least, it) => (it[0] < least[0] ? it : least));
})()"""
# What is not seen: of the cells of rows, or because something is wider than the page.
UNSEEN = """(() => {
  const list = find("list"), diagram = find("diagram").checked;
  const wanted = ["number", "time", ...(diagram ? ["arrow"] : ["sender", "destination"]), "info"];
  const rows = [...find("seen").children].filter((it) => it.getBoundingClientRect().bottom <= innerHeight);
  const isWide = (it) => it.scrollWidth > it.clientWidth;
  const wide = [document.documentElement, find("seen")].filter(isWide).map((it) => `${it.tagName} is wider`);
  const cells = rows.flatMap((row) => wanted.map((name) => [row, name, row.querySelector(`.${name}`)]));
  const right = list.getBoundingClientRect().left + list.clientWidth, isRefused = (row) => row.matches(".refused");
  const missing = cells.filter(([row, name, cell]) => {
    const box = cell.getBoundingClientRect(), isEmpty = !cell.textContent && !cell.querySelector("svg");
    const isCut = ["number", "time"].includes(name) && cell.scrollWidth > cell.clientWidth;
    return !(isRefused(row) && isEmpty) && (isEmpty || box.width === 0 || box.right > right + 1 || isCut);
  });
  const short = cells.filter(([, name, cell]) => name === "info" && cell.getBoundingClientRect().width < 180);
  const told = [...missing.map(([row, name]) => `${name} of ${row.id}`), ...short.map(([row]) => `little of ${row.id}`)];
  return [...wide, ...told];
})()"""


def damaged(folder):
    """A capture of the samples with one message that is refused."""
    data = bytearray((ROOT / "samples" / "calls.pcap").read_bytes())
    # In the first message behind the file's header and the packet's: the length of its header fields.
    data[24 + 16 + 15] = 0xff
    path = pathlib.Path(folder) / "calls.pcap"
    path.write_bytes(data)
    return path


def look(browser, file, size, scheme, has_diagram):
    """Shows the file, and the error in it."""
    browser.ask("Emulation.setEmulatedMedia", features=[{"name": "prefers-color-scheme", "value": scheme}])
    browser.resize(*size)
    browser.open()
    browser.choose(file)
    browser.value(f"find('diagram').checked = {str(has_diagram).lower()}; showDiagram()")
    browser.value("choose(state.shown.findLastIndex((it) => state.rows.at(it).isError))")
    browser.value("mark(state.opened.leaves.findLastIndex((it) => it))")
    # What is drawn anew as sizes change is drawn.
    browser.value("new Promise((done) => requestAnimationFrame(() => requestAnimationFrame(done)))")


def main(page, folder=None):
    wrong = 0
    program = os.environ.get("BROWSER") or shutil.which("chromium") or shutil.which("google-chrome")
    with tempfile.TemporaryDirectory(prefix="dbus-wire-") as room, Browser(program, page) as browser:
        file = damaged(room)
        for size in SIZES:
            for scheme in ("light", "dark"):
                for has_diagram in (False, True):
                    look(browser, file, size, scheme, has_diagram)
                    (contrast, text), unseen = browser.value(CONTRAST), browser.value(UNSEEN)
                    wrong += contrast < LEAST_CONTRAST or bool(unseen)
                    name = f"{size[0]}-{scheme}{'-diagram' if has_diagram else ''}"
                    print(f"{name}: contrast {contrast:.2f} at {text[:40]!r}; not seen: {unseen[:5] or 'nothing'}")
                    image = base64.b64decode(browser.ask("Page.captureScreenshot", format="png")["data"])
                    shown = next((it for it, of in SHOWN.items() if of == (size[0], scheme, has_diagram)), None)
                    if folder:
                        (pathlib.Path(folder) / f"{name}.png").write_bytes(image)
                    elif shown:
                        (ROOT / "docs" / f"{shown}.png").write_bytes(image)
    return 1 if wrong else 0


if __name__ == "__main__":
    if len(sys.argv) not in (2, 3):
        sys.exit(__doc__)
    sys.exit(main(*sys.argv[1:]))
