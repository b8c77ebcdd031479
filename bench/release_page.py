#!/usr/bin/env python3
"""Uses the page that `./release page` makes in a browser, and compares its answers with those of `lrcheck`.

release_page.py PAGE.html LRCHECK FILE..

The page is opened in Chromium without a window, from a server and as a file, and each of the grammar files is checked in it: the
report and the page of trees must be those of the program, byte for byte. A link with the last grammar is made, and opened. Nothing
may be fetched but the page, and the console may have no errors. Ends with status 1 where anything else is seen. Needs Chromium.
"""

import functools
import json
import subprocess
import sys
import tempfile
import threading
from http.server import SimpleHTTPRequestHandler, ThreadingHTTPServer
from pathlib import Path

sys.dont_write_bytecode = True
from page import Browser, Failure


class Quiet(SimpleHTTPRequestHandler):
    def log_message(self, *_):
        pass


def hold(is_so, what):
    if not is_so:
        raise Failure(what)


def native(program, path, folder):
    """What the program answers to a file: status, both streams, and the page."""
    call = [program, "--page", "page.html", path.name]
    (folder / path.name).write_bytes(path.read_bytes())
    (folder / "page.html").unlink(missing_ok=True)
    told = subprocess.run(call, cwd=folder, capture_output=True, text=True)
    page = folder / "page.html"
    return told.returncode, told.stderr + told.stdout, page.read_text() if page.exists() else ""


def answer(browser, path):
    """What the page answers to a file."""
    text = json.dumps(path.read_text())
    browser.value(f"(at('name').value = '{path.name}', at('grammar').value = {text}, check(), 1)")
    browser.until("document.body?.dataset.status !== undefined", f"no answer to {path.name}")
    status, told, page = browser.value(
        "[document.body.dataset.status, at('report').textContent, at('page').srcdoc]"
    )
    return int(status), told, page


def follow_link(browser, url, path):
    """A link that the page makes holds the grammar, and is checked where it is opened."""
    browser.value("link().then(() => 1)")
    linked = browser.value("location.href")
    hold(linked.startswith(url + "#"), f"{linked} is no link to the page")
    browser.call("Page.navigate", url="about:blank")
    browser.call("Page.navigate", url=linked)
    browser.until("document.body?.dataset.status !== undefined", "the link is not checked")
    hold(browser.value("at('grammar').value") == path.read_text(), "the link has another grammar")


def use(url, program, paths):
    """Uses the page, and answers what was wrong."""
    with tempfile.TemporaryDirectory() as folder, tempfile.TemporaryDirectory() as made:
        browser = Browser(folder)
        try:
            browser.open()
            browser.call("Page.navigate", url=url)
            browser.until("document.readyState === 'complete' && !at('check').disabled", "the page is not ready")
            for path in paths:
                hold(answer(browser, path) == native(program, path, Path(made)), f"{path.name} is answered otherwise")
            follow_link(browser, url, paths[-1])
            return [it for it in browser.faults(url) if not it.startswith("fetched: blob:")]
        except Failure as failure:
            return [str(failure)]
        finally:
            browser.end()


def main():
    if len(sys.argv) < 4:
        sys.exit(__doc__.split("\n\n")[1])
    page, program, paths = Path(sys.argv[1]).resolve(), sys.argv[2], [Path(it) for it in sys.argv[3:]]
    server = ThreadingHTTPServer(("127.0.0.1", 0), functools.partial(Quiet, directory=page.parent))
    threading.Thread(target=server.serve_forever, daemon=True).start()
    is_good = True
    for url in (f"http://127.0.0.1:{server.server_port}/{page.name}", page.as_uri()):
        wrong = use(url, program, paths)
        is_good = is_good and not wrong
        print(f"{url.partition(':')[0]}: {len(paths)} files, {'; '.join(wrong) or 'answered as by the program'}")
    sys.exit(0 if is_good else 1)


if __name__ == "__main__":
    main()
