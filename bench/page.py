#!/usr/bin/env python3
"""Opens the pages that `lrcheck --page` makes of grammar files in a browser, and uses them.

page.py [--pictures FOLDER] [--without-precedences] LRCHECK FILE..

For each file it makes the page, opens it in Chromium without a window, and prints a row: conflicts, rules and states of the
page, its MB, the seconds that `lrcheck` takes, and those until the page is loaded. Each page is used as its readers do: the
trees of the first conflict are drawn, and differ; its link to a state is clicked, then the state's edges are opened, and one of
them is clicked; words are typed into the filter, which leaves just the parts that have them, marks these words, leaves out what is
empty then, and opens a conflict that is left alone; then they are taken back. Nothing may be fetched but the page, and the console
may have no errors. Ends with status 1 where anything else is seen.

With `--pictures` each page is shown in light and in dark, 1,100 pixels wide, as FOLDER/NAME.png and NAME-dark.png; one of more
than 200 kB is an error. Needs Chromium (Debian's package `chromium`).
"""

import argparse
import base64
import json
import os
import subprocess
import sys
import tempfile
import time
from pathlib import Path

BROWSER = os.environ.get("CHROMIUM", "chromium")
FLAGS = ("--headless=new", "--no-sandbox", "--disable-gpu", "--hide-scrollbars", "--remote-debugging-pipe")
WIDTH, HEIGHT = 1100, 900
LARGEST = 200_000
SECONDS = 120


class Failure(Exception):
    """What is seen is not what it should be."""


class Browser:
    """A browser that is driven through a pipe, by messages of JSON that end with a zero byte."""

    def __init__(self, folder):
        (from_us, self.to_it), (self.from_it, to_us) = os.pipe(), os.pipe()
        flags = [*FLAGS, f"--user-data-dir={folder}"]
        shell = f'exec "$@" 3<&{from_us} 4>&{to_us}'
        self.process = subprocess.Popen(
            ["bash", "-c", shell, "bash", BROWSER, *flags],
            pass_fds=(from_us, to_us), stdout=subprocess.DEVNULL, stderr=subprocess.DEVNULL,
        )
        os.close(from_us)
        os.close(to_us)
        self.number, self.rest, self.session = 0, b"", None
        self.events = []

    def receive(self):
        """The next message."""
        while b"\0" not in self.rest:
            read = os.read(self.from_it, 1 << 20)
            if not read:
                raise Failure("the browser ended")
            self.rest += read
        message, _, self.rest = self.rest.partition(b"\0")
        return json.loads(message)

    def call(self, method, **params):
        """Calls a method of the browser, or of the page once that is there, and gives its result."""
        self.number += 1
        message = {"id": self.number, "method": method, "params": params}
        if self.session:
            message["sessionId"] = self.session
        os.write(self.to_it, json.dumps(message).encode() + b"\0")
        while True:
            answer = self.receive()
            if answer.get("id") == self.number:
                if "error" in answer:
                    raise Failure(f"{method}: {answer['error']['message']}")
                return answer["result"]
            self.events.append(answer)

    def wait_for(self, method):
        """Waits until an event comes."""
        while not any(event.get("method") == method for event in self.events):
            self.events.append(self.receive())

    def open(self):
        """Opens a page without content."""
        target = self.call("Target.createTarget", url="about:blank")["targetId"]
        self.session = self.call("Target.attachToTarget", targetId=target, flatten=True)["sessionId"]
        for domain in ("Page", "Runtime", "Log", "Network"):
            self.call(f"{domain}.enable")
        self.call("Emulation.setDeviceMetricsOverride", width=WIDTH, height=HEIGHT, deviceScaleFactor=1, mobile=False)

    def value(self, script):
        """What a script of the page comes to."""
        result = self.call("Runtime.evaluate", expression=script, returnByValue=True, awaitPromise=True)
        if "exceptionDetails" in result:
            raise Failure(f"{script}: {result['exceptionDetails'].get('exception', {}).get('description')}")
        return result["result"].get("value")

    def until(self, script, what):
        """Waits until a script of the page comes to what is true."""
        end = time.monotonic() + 60
        while not self.value(script):
            if time.monotonic() > end:
                raise Failure(what)
            time.sleep(0.05)

    def click(self, element):
        """Clicks an element, which a script names, in its middle, once it is in sight."""
        place = self.value(
            f"(async () => {{ const element = {element}; let last; for (let turn = 0; element && turn < 99; turn++) {{"
            " element.scrollIntoView({block: 'center'});"
            " await new Promise(done => requestAnimationFrame(() => setTimeout(done, 50)));"
            " const box = element.getClientRects()[0], place = [box.x + box.width / 2, box.y + box.height / 2];"
            " if (place.join() === last && element.contains(document.elementFromPoint(...place))) return place;"
            " last = place.join(); } return null; })()"
        )
        if not place:
            raise Failure(f"nothing to click: {element}")
        for kind in ("mousePressed", "mouseReleased"):
            self.call("Input.dispatchMouseEvent", type=kind, x=place[0], y=place[1], button="left", clickCount=1)

    def faults(self, url):
        """What the console and the network tell of that should not be."""
        found = []
        for event in self.events:
            method, params = event.get("method"), event.get("params", {})
            if method == "Runtime.exceptionThrown":
                details = params["exceptionDetails"]
                found.append(details.get("exception", {}).get("description") or details["text"])
            elif method == "Runtime.consoleAPICalled" and params["type"] in ("error", "warning", "assert"):
                found.append("console: " + " ".join(str(part.get("value")) for part in params["args"]))
            elif method == "Log.entryAdded" and params["entry"]["level"] in ("error", "warning"):
                found.append("log: " + params["entry"]["text"])
            elif method == "Page.javascriptDialogOpening":
                found.append("dialog: " + params["message"])
            elif method == "Network.requestWillBeSent" and params["request"]["url"].partition("#")[0] != url:
                found.append("fetched: " + params["request"]["url"])
        return found

    def end(self):
        """Ends the browser."""
        self.session = None
        try:
            self.call("Browser.close")
        except (Failure, BrokenPipeError):
            pass
        self.process.wait(30)


COUNT = "document.querySelectorAll('#{0} .part').length"
SHOWN = "[...document.querySelectorAll('.part')].filter(part => part.checkVisibility())"
TARGET = "document.getElementById(location.hash.slice(1))"
BAR = "document.querySelector('nav').getBoundingClientRect().bottom"
IN_SIGHT = f"(box => box.top >= {BAR} && box.top < innerHeight)({TARGET}.getBoundingClientRect())"


def look_at_trees(browser):
    """The trees of the first conflict that has a text."""
    if not browser.value("document.querySelector('#conflicts .trees') !== null"):
        return
    browser.value("document.querySelector('#conflicts .trees').closest('.part').open = true")
    trees = "document.querySelector('#conflicts .trees')"
    browser.until(f"{trees}.querySelectorAll('svg').length === 2", "two trees should be drawn")
    browser.until(f"{trees}.querySelectorAll('a.differs').length > 0", "the trees should differ")
    if browser.value(f"[...{trees}.querySelectorAll('svg text')].some(text => text.textContent === '')"):
        raise Failure("a node has no name")


def follow_links(browser):
    """From a conflict to its state, from there along an edge, and to a rule and to the conflict."""
    browser.click("document.querySelector('#c1 > summary + * ~ p > a[href^=\"#s\"]')")
    browser.until("location.hash.startsWith('#s') && " + IN_SIGHT, "the state should be in sight")
    state = "document.querySelector(location.hash)"
    if browser.value(f"{state}.querySelector('.conflict a[href=\"#c1\"]') === null"):
        raise Failure("the state should lead to the conflict")
    before = browser.value("location.hash")
    if browser.value(f"{state}.querySelector('details') !== null"):
        browser.click(f"{state}.querySelector('details > summary')")
        browser.click(f"{state}.querySelector('.names a')")
        browser.until(f"location.hash !== '{before}' && " + IN_SIGHT, "an edge should lead to a state")
    browser.value("document.querySelector('#grammar').scrollIntoView()")
    browser.until("document.querySelector('#grammar ol a') !== null", "the grammar in sight should be there")
    browser.click("document.querySelector('#grammar ol a')")
    browser.until("location.hash.startsWith('#r') && " + IN_SIGHT, "a name should lead to its rule")
    browser.value("document.querySelector('#c1').open = false")
    browser.click(f"document.querySelector('{before} .conflict a')")
    browser.until("location.hash === '#c1' && document.querySelector('#c1').open && " + IN_SIGHT, "the conflict should open")


def use_filter(browser):
    """Types the name of the last state into the filter, and takes it back."""
    word = browser.value("document.querySelector('#states .part:last-child h3').textContent")
    everything = browser.value(SHOWN + ".length")
    browser.click("document.getElementById('filter')")
    browser.call("Input.insertText", text=word)
    browser.until("document.getElementById('told').textContent !== ''", "the filter should tell how many parts it leaves")
    shown = browser.value(SHOWN + ".length")
    if browser.value("CSS.highlights.get('found').size === 0"):
        raise Failure("the filter should mark words")
    if browser.value("[...document.querySelectorAll('main > section')].some(section => section.checkVisibility() &&"
                     " ![...section.querySelectorAll('.part')].some(part => part.checkVisibility()))"):
        raise Failure("the filter should leave no empty section")
    has_all = f"{json.dumps(word.lower().split())}.every(word => part.textContent.toLowerCase().includes(word))"
    right = browser.value(f"[...document.querySelectorAll('.part')].every(part => !part.hidden === {has_all})")
    if not 0 < shown < everything or not right:
        raise Failure(f"of {everything} parts the filter shows {shown}")
    browser.value("document.getElementById('filter').value = ''")
    browser.value("document.getElementById('filter').dispatchEvent(new Event('input'))")
    browser.until(f"{SHOWN}.length === {everything}", "all parts should come back")


def take_pictures(browser, folder, name):
    """Keeps how the page looks from its beginning on, in light and in dark."""
    for scheme, ending in (("light", ""), ("dark", "-dark")):
        browser.call("Emulation.setEmulatedMedia", features=[{"name": "prefers-color-scheme", "value": scheme}])
        browser.value("scrollTo(0, 0)")
        time.sleep(0.3)
        picture = base64.b64decode(browser.call("Page.captureScreenshot", format="png")["data"])
        path = folder / f"{name}{ending}.png"
        path.write_bytes(picture)
        if len(picture) > LARGEST:
            raise Failure(f"{path} has {len(picture)} bytes")


def look_at(browser, page, pictures, name):
    """Opens a page and uses it, and gives how long it took until it was loaded."""
    url = page.as_uri()
    browser.events.clear()
    start = time.monotonic()
    browser.call("Page.navigate", url=url)
    browser.wait_for("Page.loadEventFired")
    seconds = time.monotonic() - start
    if pictures:
        take_pictures(browser, pictures, name)
    if browser.value(COUNT.format("conflicts")):
        look_at_trees(browser)
        follow_links(browser)
    use_filter(browser)
    faults = browser.faults(url)
    if faults:
        raise Failure("; ".join(faults))
    return seconds


def main():
    parser = argparse.ArgumentParser(description=__doc__.partition("\n")[0])
    parser.add_argument("lrcheck")
    parser.add_argument("files", nargs="+", type=Path)
    parser.add_argument("--pictures", type=Path)
    parser.add_argument("--without-precedences", action="store_true", help="leave precedences out of the grammars")
    options = parser.parse_args()
    without = ["--without-precedences"] if options.without_precedences else []
    print("| File | Conflicts | Rules | States | MB | `lrcheck`, s | Loaded, s |\n|---|---|---|---|---|---|---|", flush=True)
    failed = False
    with tempfile.TemporaryDirectory() as room:
        browser = Browser(Path(room) / "profile")
        browser.open()
        for file in options.files:
            page = Path(room) / "page.html"
            start = time.monotonic()
            call = [options.lrcheck, "--summary", *without, "--page", page, file]
            subprocess.run(call, stdout=subprocess.DEVNULL, timeout=SECONDS)
            made = time.monotonic() - start
            try:
                loaded = look_at(browser, page, options.pictures, file.stem)
            except Failure as failure:
                failed = True
                print(f"{file}: {failure}", file=sys.stderr)
                continue
            counts = " | ".join(str(browser.value(COUNT.format(part))) for part in ("conflicts", "grammar", "states"))
            size = page.stat().st_size / 1e6
            print(f"| {file.name} | {counts} | {size:.2f} | {made:.1f} | {loaded:.1f} |", flush=True)
            page.unlink()
        browser.end()
    sys.exit(failed)


if __name__ == "__main__":
    main()
