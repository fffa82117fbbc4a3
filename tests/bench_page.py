#!/usr/bin/env python3
"""The page of `./foxentu bench` in headless Chromium: clicks, keys, edits, refusals, undo, target, save and reload, against what the feed program writes.

bench_page.py [FOLDER]: screenshots go to FOLDER where one is given. Without Chromium the test is left out, and says so.
"""
import os
import pathlib
import random
import re
import shutil
import signal
import subprocess
import sys
import tempfile

import chromium

ROOT = pathlib.Path(__file__).resolve().parent.parent
os.chdir(ROOT)
sys.path.insert(0, "bindings/python")
from foxentu import feedtext, running  # noqa: E402

PICTURES = pathlib.Path(sys.argv[1]) if len(sys.argv) > 1 else None
count, failed = 0, 0
EIGHT = "parameters depth=8 extended=0 qp=28 mode=dct\nlevels 8\n    31 -19 4 0 0 0 0 0\n    -7 3 ..\n"


def expect(name, holds, told=""):
    global count, failed
    count += 1
    if not holds:
        failed += 1
        print(f"bench_page: {name}: not as it should be{f': {told}' if told != '' else ''}")


def decoded(data):
    """The feed program's lines for a feed's bytes, and its refusal."""
    pieces = []
    refusal = running.decode(running.Input("a feed", data=data), pieces.append)
    return b"".join(pieces).decode().splitlines(), refusal


def rows_of(lines, at, size):
    return [int(word) for line in lines[at:at + size] for word in line.split(" ")]


def fresh(text):
    """The residual of the one block of a text, by the feed program."""
    data = feedtext.read(text.encode(), "f")
    return rows_of(decoded(data.bytes)[0], 0, data.records[-1].values[0])


KNOWS = decoded(feedtext.read((EIGHT + "edit 0 0 1 show").encode(), "f").bytes)[1] is None


class Page:
    def __init__(self, browser, address):
        self.browser, self.address = browser, address

    def open(self, block=1):
        self.browser.go("about:blank")
        self.browser.go(f"{self.address}#block-{block}")
        self.browser.until("document.querySelectorAll('#grid-levels [role=gridcell]').length > 0 && document.getElementById('grids').getAttribute('aria-busy') === 'false'", "the page has a grid")

    def drawn(self):
        self.browser.until("document.getElementById('grids').getAttribute('aria-busy') === 'false'", "the page is drawn")

    def grid(self, name):
        self.drawn()
        texts = self.browser.run(f"[...document.querySelectorAll('#grid-{name} [role=gridcell]')].map((cell) => cell.firstChild?.data ?? '')")
        return [int(text.replace("\u2212", "-")) if text else None for text in texts]

    def cell(self, name, index):
        self.drawn()
        self.browser.click(f"#grid-{name} [role=gridcell]", index)

    def text(self, selector):
        return self.browser.run(f"document.querySelector('{selector}')?.textContent")

    def status(self, word):
        """Waits for a word in the status line."""
        self.browser.until(f"document.getElementById('status').textContent.includes({word!r})", f"the status line says {word}")

    def enter(self, text):
        self.browser.type(text)
        self.browser.key("Enter")

    def settled(self, name, index, text):
        """Waits until a cell shows a text and all is drawn."""
        self.browser.until(f"document.getElementById('grids').getAttribute('aria-busy') === 'false' && document.querySelectorAll('#grid-{name} [role=gridcell]')[{index}].textContent === {text!r}", f"cell {index} of {name} is {text}")


def editing(page):
    browser = page.browser
    page.open()
    came = fresh(EIGHT)
    expect("the grids as they came", page.grid("after") == came == page.grid("before") and set(page.grid("difference")) == {0} and page.grid("levels")[:3] == [31, -19, 4])
    page.cell("levels", 1)
    page.enter("-9")
    page.settled("levels", 1, "\u22129")
    edited = fresh(EIGHT.replace("-19", "-9"))
    expect("an edit by click and keys", page.grid("after") == edited and page.grid("before") == came and page.grid("difference") == [a - b for a, b in zip(edited, came)])
    expect("the focus stays at the cell", browser.run("document.activeElement.closest('#grid-levels') !== null && document.activeElement.index === 1"))
    expect("m and why at the cell", "16: no list is in force" in page.text("#cell") and "m 16 (no list is in force)" in page.text("#cell-read"))
    expect("the list of edits", page.text("#edit-list") == "0, 1: \u221219 \u2192 \u22129", page.text("#edit-list"))
    for typed, words in (("12-", "is no whole number"), ("99999999999", "does not fit 32 bits")):
        browser.key("ArrowDown")
        page.enter(typed)
        browser.until("!document.getElementById('bubble').hidden", "a refusal is shown")
        near = browser.run("(() => { const b = document.getElementById('bubble').getBoundingClientRect(), c = document.querySelector('.entry').getBoundingClientRect(); return Math.abs(b.left - c.left) < 300 && Math.abs(b.top - c.bottom) < 60; })()")
        expect(f"the refusal of {typed} at its cell", words in page.text("#bubble") and near, page.text("#bubble"))
        expect("the entry is marked", browser.run("document.querySelector('.entry').getAttribute('aria-invalid') === 'true'"))
        browser.key("Escape")
        expect("nothing was changed", page.grid("after") == edited and browser.run("document.getElementById('bubble').hidden && !document.querySelector('.entry')"))
    page.cell("coefficients", 9)
    page.enter("7")
    browser.until("!document.getElementById('bubble').hidden", "a refusal is shown")
    expect("a coefficient that no level gives", "refused 11" in page.text("#bubble"), page.text("#bubble"))
    browser.key("Escape")
    browser.key("u")
    page.settled("levels", 1, "\u221219")
    expect("undo", page.grid("after") == came)
    browser.key("y", chromium.CTRL)
    page.settled("levels", 1, "\u22129")
    expect("redo", page.grid("after") == edited)
    browser.key("c")
    page.status("writes the same 64 samples")
    page.cell("levels", 63)
    page.enter("40000")
    page.settled("levels", 63, "40000")
    expect("what was limited", "both lay outside" in page.text("#cell") and browser.run("document.querySelectorAll('#grid-levels .limited').length") == 1, page.text("#cell"))
    browser.key("u")
    page.settled("levels", 63, "0")
    contributing(page)
    return came, edited


def contributing(page):
    page.cell("after", 20)
    page.browser.until("document.querySelector('#sample table, #sample .words')", "an answer about contributions")
    if page.browser.run("!!document.querySelector('#sample .words')"):
        expect("no contributions, in words", page.text("#sample") == "this archive has no contributions", page.text("#sample"))
    else:
        expect("contributions", "row 2, column 4" in page.text("#sample") and page.browser.run("document.querySelectorAll('#sample tbody tr').length") >= 3)
        expect("coefficients by contribution", "by contribution" in page.text("#panel-coefficients header"))
        page.browser.key("Escape")
        expect("colours by value again", "by contribution" not in page.text("#panel-coefficients header"))


def targeting(page, came):
    browser = page.browser
    browser.click("#aim-take")
    browser.until("!document.getElementById('panel-target').hidden", "the target is shown")
    page.drawn()
    expect("the target is the block as it came", page.grid("target") == came)
    expect("the focus is at the next step", browser.run("document.activeElement.id") == "aim-find", browser.run("document.activeElement.id"))
    expect("samples that miss it", browser.run("document.querySelectorAll('#grid-after .misses').length") == sum(a != b for a, b in zip(page.grid("after"), came)))
    browser.key("f")
    browser.until("document.querySelector('#aim table')", "edits that reach the target")
    expect("the cells that reach it", browser.run("[...document.querySelectorAll('#grid-levels .reaches')].map((cell) => cell.index).includes(1)"))
    page.drawn()
    row = browser.run("[...document.querySelectorAll('#aim tbody tr')].findIndex((row) => row.cells[0].textContent === '0, 1')")
    browser.click(f"#aim tbody tr:nth-child({row + 1}) button")
    page.settled("levels", 1, "\u221219")
    expect("one click makes the edit", page.grid("after") == came)
    page.drawn()
    browser.click("#aim-clear")
    page.cell("target", 0)
    page.enter("44")
    browser.until("document.querySelectorAll('#grid-target [role=gridcell]')[0].textContent === '44'", "a target is typed")
    page.drawn()
    browser.click("#aim-painting")
    page.drawn()
    for kind, index in (("mousePressed", 8), ("mouseMoved", 9), ("mouseReleased", 9)):
        x, y = browser.at("#grid-target [role=gridcell]", index)
        browser.mouse(kind, x, y, int(kind != "mouseReleased"))
    page.drawn()
    expect("targets painted", page.grid("target")[8:10] == [0, 0] and sum(value is not None for value in page.grid("target")) == 3, page.grid("target")[:12])
    from_other = browser.run("[...document.querySelectorAll('#aim-from option')].map((option) => option.textContent)")
    expect("the block of another case", any("other.txt, block 1" in text for text in from_other), from_other)
    browser.click("#aim-clear")


def keyboard(page):
    """All of an edit without a mouse, from the top of the page."""
    browser = page.browser
    page.open()
    browser.run("document.activeElement.blur()")
    for _ in range(40):
        browser.key("Tab")
        if browser.run("document.activeElement.closest('#grid-levels') !== null"):
            break
    expect("the grid by Tab", browser.run("document.activeElement.closest('#grid-levels') !== null"))
    outline = browser.run("getComputedStyle(document.activeElement).outlineStyle")
    expect("the focus is seen", outline == "solid", outline)
    browser.key("ArrowDown")
    browser.key("ArrowRight")
    page.enter("8")
    page.settled("levels", 9, "8")
    browser.key("Tab")
    expect("the next grid by Tab", browser.run("document.activeElement.closest('#grid-coefficients') !== null"))
    seen = set()
    for _ in range(60):
        browser.key("Tab")
        seen.add(browser.run("document.activeElement.id || document.activeElement.closest('[role=grid]')?.id || document.activeElement.className"))
    expect("everything by Tab", {"grid-after", "grid-difference", "cell-level", "aim-take", "picture-file"} <= seen, sorted(seen))
    browser.key("?")
    expect("the keys", browser.run("document.getElementById('keys').open"))
    browser.key("Escape")
    expect("the keys are closed", not browser.run("document.getElementById('keys').open"))
    browser.key("u")
    page.settled("levels", 9, "3")


def looks(page):
    """Light and dark, at 100 % and at 200 %."""
    browser = page.browser
    grounds = []
    for scheme in ("light", "dark"):
        browser.scheme(scheme)
        grounds.append(browser.run("getComputedStyle(document.documentElement).backgroundColor"))
        expect(f"numbers can be read, {scheme}", browser.run(CONTRAST) >= 4.5, browser.run(CONTRAST))
        for wide, scale in ((1440, 1), (640, 2)):
            browser.size(wide, 900 // scale, scale)
            expect(f"no part is outside the page, {scheme}, {wide}", browser.run("document.documentElement.scrollWidth <= innerWidth && [...document.querySelectorAll('button, input, select, h2')].every((e) => !e.offsetParent || e.closest('.scroll') || e.getBoundingClientRect().right <= innerWidth + 1)"))
            if PICTURES:
                browser.picture(PICTURES / f"page-{scheme}-{wide}.png", True)
    expect("two schemes", grounds[0] != grounds[1], grounds)
    browser.scheme("light")
    browser.size(1440, 900)
    expect("the picture of the block", browser.run("document.getElementById('picture').complete && document.getElementById('picture').naturalWidth") == 496)


# the least contrast of a cell's number against its ground, over all tones
CONTRAST = """(() => {
  const luminance = (text) => { const [r, g, b] = text.match(/[0-9.]+/g).map((v) => { const c = v / 255; return c <= 0.03928 ? c / 12.92 : ((c + 0.055) / 1.055) ** 2.4; }); return 0.2126 * r + 0.7152 * g + 0.0722 * b; };
  const cell = document.querySelector('#grid-levels [role=gridcell]'), kept = cell.dataset.tone;
  let least = 99;
  for (let tone = -7; tone <= 7; tone++) {
    cell.dataset.tone = tone;
    const style = getComputedStyle(cell), [a, b] = [luminance(style.color), luminance(style.backgroundColor)].sort((x, y) => y - x);
    least = Math.min(least, (a + 0.05) / (b + 0.05));
  }
  cell.dataset.tone = kept;
  return Math.round(least * 100) / 100;
})()"""

# from the key that ends an entry to the frame after the grids changed
TIMED = """new Promise((done) => {
  let begun;
  document.addEventListener('keydown', (event) => { if (event.key === 'Enter') begun = performance.now(); }, { capture: true, once: true });
  const seen = new MutationObserver(() => { if (!begun) return; seen.disconnect(); requestAnimationFrame(() => scheduler.postTask(() => { window.took = performance.now() - begun; }, { priority: 'user-blocking' })); });
  seen.observe(document.getElementById('grid-after'), { subtree: true, characterData: true, childList: true });
  window.took = 0;
  done();
})"""


def timing(page, block):
    browser = page.browser
    page.open(block)
    browser.until("document.querySelectorAll('#grid-levels [role=gridcell]').length === 1024")
    times = []
    for value in range(6):
        page.cell("levels", 32 * (31 - value) + 5)
        browser.type(str(20 + value))
        browser.run(TIMED)
        browser.key("Enter")
        browser.until("window.took > 0", "an edit is seen")
        times.append(browser.run("window.took"))
        page.settled("levels", 32 * (31 - value) + 5, str(20 + value))
    print(f"bench_page: an edit of a 32 x 32 block is seen after {min(times):.0f} ms at best, {sorted(times)[len(times) // 2]:.0f} ms in the middle of {len(times)}")
    # ten times what an idle machine may take is allowed, since this one may be busy
    expect("a large block is edited in a tenth of a second", min(times) < 1000, times)
    for _ in times:
        browser.key("u")
    browser.until("document.getElementById('undo').getAttribute('aria-disabled') === 'true'", "all edits are taken back")


def saving(page, saved, edited):
    browser = page.browser
    page.open()
    page.cell("levels", 1)
    page.enter("-9")
    page.settled("levels", 1, "\u22129")
    browser.key("s")
    if not KNOWS:
        page.status("nothing was saved: the feed program stops in it")
        print("bench_page: LEFT OUT: saved cases, since the feed program does not know kinds 8 and 9")
        return
    page.status("The feed program writes the same for")
    lines, refusal = decoded(feedtext.read(saved.read_bytes(), "saved").bytes)
    readings = [index for index, line in enumerate(lines) if line.startswith("columns ")]
    expect("the saved case, by the feed program", refusal is None and rows_of(lines, readings[0] - 8, 8) == page.grid("after") == edited)
    shown = subprocess.run(["./foxentu", "show", str(saved)], capture_output=True, text=True)
    last = " ".join(map(str, page.grid("after")[-8:]))
    expect("show on the saved case", shown.returncode == 0 and any(last in " ".join(line.split()) for line in shown.stdout.splitlines()), shown.stderr)
    kept = saved.read_bytes()
    browser.key("s", chromium.CTRL)
    browser.until("document.getElementById('ask').open", "the question before a file is overwritten")
    browser.key("Escape")
    expect("the question can be left", not browser.run("document.getElementById('ask').open") and saved.read_bytes() == kept)
    page.cell("levels", 2)
    page.enter("5")
    page.settled("levels", 2, "5")
    browser.key("s")
    browser.until("document.getElementById('ask').open", "the question again")
    browser.key("Tab")
    browser.key("Enter")
    page.status("Saved as saved.txt")
    expect("overwritten when asked", b"edit 0 2 5" in saved.read_bytes())
    after = page.grid("after")
    page.open()
    expect("a reload keeps the edits", page.grid("after") == after and page.grid("levels")[1:3] == [-9, 5])
    browser.key("u")
    page.settled("levels", 2, "4")


def run(room, browser):
    chance = random.Random(32)
    large = "levels 32 " + " ".join(str(chance.randrange(-9, 10) if chance.random() < 0.3 else 0) for _ in range(1024)) + "\n"
    path, saved, other = room / "page.txt", room / "saved.txt", room / "other.txt"
    path.write_text(EIGHT + large)
    other.write_text(EIGHT + "levels 4 1 ..\n")
    process = subprocess.Popen(["./foxentu", "bench", str(path), "--save", str(saved), "--target", str(other)], stdout=subprocess.PIPE, stderr=subprocess.PIPE, text=True)
    try:
        address = process.stdout.readline().strip().removeprefix("bench: ")
        page = Page(browser, address)
        browser.size(1440, 900)
        came, edited = editing(page)
        targeting(page, came)
        keyboard(page)
        looks(page)
        timing(page, 2)
        if PICTURES:
            browser.picture(PICTURES / "page-32.png", True)
        saving(page, saved, edited)
        # a request that the end of the bench cuts would be an error of the page
        browser.until("document.getElementById('picture').complete", "the picture is there")
        browser.go("about:blank")
    finally:
        process.send_signal(signal.SIGINT)
        _, said = process.communicate(timeout=60)
    expect("nothing went wrong in the server", "failed" not in said and "Traceback" not in said, said)
    complaints = [text for text in browser.complaints() if not re.search(r"status of 422", text)]
    expect("no script failed and nothing was blocked", not complaints, complaints)
    asked = [event["params"]["request"]["url"] for event in browser.events if event.get("method") == "Network.requestWillBeSent"]
    expect("nothing is fetched from outside", asked and all(url.startswith(address) or url == "about:blank" for url in asked), [url for url in asked if not url.startswith(address)][:3])


found = chromium.found()
if found is None:
    print("bench_page: LEFT OUT: the page in a browser, since Chromium is not at hand")
    sys.exit(0)
room = pathlib.Path(tempfile.mkdtemp(prefix="foxentu-page-"))
browser = None
try:
    browser = chromium.Chromium(found, wait=int(os.environ.get("FOXENTU_WAIT", "60")))
    run(room, browser)
except RuntimeError as why:
    expect("the page in a browser", False, why)
finally:
    if browser:
        browser.close()
    shutil.rmtree(room, ignore_errors=True)
print(f"bench_page: {count} checks, {failed} not as they should be")
sys.exit(1 if failed else 0)
