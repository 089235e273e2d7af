"""What tools share that look at the repository and not at a run: another tool as a module, the crates, edits of their sources, a page in a browser.

An `Edit` says which files it changes; `Browser` opens a page without a window, by the DevTools protocol of Chromium over a pipe.
"""
import base64
import functools
import importlib.machinery
import importlib.util
import json
import os
import select
import shutil
import subprocess
import tempfile
import time

import runs

TOOLS = os.path.join(runs.TOP, "tools")
BROWSERS = ["chromium", "chromium-browser", "google-chrome"]
SECONDS = 300


@functools.lru_cache(maxsize=None)
def module_of(tool):
    """A tool as a module."""
    loader = importlib.machinery.SourceFileLoader(tool.replace("-", "_"), os.path.join(TOOLS, tool))
    module = importlib.util.module_from_spec(importlib.util.spec_from_loader(loader.name, loader))
    loader.exec_module(module)
    return module


# ---- crates


@functools.lru_cache(maxsize=None)
def crates():
    """Each crate of crates.txt, with the crates that it names."""
    lines = [line.split("#")[0].partition(":") for line in runs.contents(os.path.join(runs.TOP, "crates.txt")).splitlines()]
    return {name.split()[0]: used.split() for name, colon, used in lines if colon}


@functools.lru_cache(maxsize=None)
def crates_below(crate):
    """The crates on which one stands, lowest first."""
    found = {}
    for used in crates().get(crate, []):
        if used in crates():
            found.update(dict.fromkeys([*crates_below(used), used]))
    return list(found)


def library(crate):
    """Where the library of a crate is built."""
    return os.path.join(runs.TOP, "crates", crate, "out", "rlib", f"{crate}.rlib")


# ---- edits


class BadEdit(Exception):
    """An edit that can't be made, and why."""


def source_of(shown):
    """The text of a file, which is named from the top of the repository."""
    try:
        return runs.contents(os.path.join(runs.TOP, shown))
    except (OSError, runs.Wrong):
        raise BadEdit(f"{shown}: no such file") from None


class Edit:
    """An edit of sources: its changes, each a crate, a file, what stands there once and what is put in its place; and the laws that it names."""

    def __init__(self, path, crate=None):
        self.changes, said = [], {} if crate is None else {"crate": crate}
        for line in source_of(os.path.relpath(path, runs.TOP)).splitlines():
            word, _, text = line.partition(":")
            said[word] = text[1:] if text.startswith(" ") else text
            if word == "new":
                missing = [wanted for wanted in ("crate", "file", "old") if wanted not in said]
                if missing:
                    raise BadEdit(f"a line `new:` has no line `{missing[0]}:` before it")
                self.changes.append((said["crate"].strip(), said["file"], said["old"], said["new"]))
        if not self.changes:
            raise BadEdit("it has no line `new:`")
        self.laws = said.get("laws", "").split()

    def made(self):
        """The files that it changes, by their names from the top of the repository, and what they have then."""
        files = {}
        for crate, file, old, new in self.changes:
            shown = f"crates/{crate}/{file}"
            source = files[shown] if shown in files else source_of(shown)
            if source.count(old) != 1:
                raise BadEdit(f"{shown}: this stands there {source.count(old)} times, and not once: {old}")
            files[shown] = source.replace(old, new)
        return files


# ---- a browser


class Browser:
    """The first browser that is here, without a window. It opens one page after the other, and ends with the `with` that it is made for."""

    def __init__(self, wide, tall):
        path = next(filter(None, map(shutil.which, BROWSERS)), None)
        if path is None:
            raise runs.Wrong("no browser is at hand: " + ", ".join(BROWSERS))
        self.number, self.left, self.session, self.faults = 0, b"", None, []
        self.folder = tempfile.mkdtemp()
        (its_input, self.input), (self.output, its_output) = os.pipe(), os.pipe()
        words = ["--headless", "--no-sandbox", "--disable-gpu", "--hide-scrollbars", f"--user-data-dir={self.folder}", "--remote-debugging-pipe"]
        self.child = subprocess.Popen(["sh", "-c", f'exec "$0" "$@" 3<&{its_input} 4>&{its_output}', path, *words, "about:blank"],
                                      stdout=subprocess.DEVNULL, stderr=subprocess.DEVNULL, pass_fds=(its_input, its_output))
        os.close(its_input)
        os.close(its_output)
        self.size = {"width": wide, "height": tall, "deviceScaleFactor": 1, "mobile": False}

    def __enter__(self):
        page = next(target for target in self.ask("Target.getTargets")["targetInfos"] if target["type"] == "page")
        self.session = self.ask("Target.attachToTarget", targetId=page["targetId"], flatten=True)["sessionId"]
        for part in ("Page", "Runtime"):
            self.ask(f"{part}.enable")
        self.ask("Emulation.setDeviceMetricsOverride", **self.size)
        return self

    def __exit__(self, *_):
        # It ends when nobody asks any more.
        os.close(self.input)
        try:
            self.child.wait(10)
        except subprocess.TimeoutExpired:
            self.child.kill()
            self.child.wait()
        os.close(self.output)
        shutil.rmtree(self.folder, ignore_errors=True)

    def ask(self, method, **values):
        """Has the browser do something, and waits for its answer."""
        self.number += 1
        session = {} if self.session is None else {"sessionId": self.session}
        os.write(self.input, json.dumps({"id": self.number, "method": method, "params": values, **session}).encode() + b"\0")
        answer = self.wait(lambda message: message.get("id") == self.number)
        if "error" in answer:
            raise runs.Wrong(f"the browser doesn't do {method}: {answer['error']['message']}")
        return answer["result"]

    def wait(self, is_wanted):
        """The next message that is wanted. Errors of the page that come before it are kept."""
        end = time.monotonic() + SECONDS
        while True:
            message = self.read(end)
            if message.get("method") == "Runtime.exceptionThrown":
                self.faults.append(said_of(message["params"]["exceptionDetails"]))
            if is_wanted(message):
                return message

    def read(self, end):
        """The next message, which has to come before a moment."""
        while b"\0" not in self.left:
            ready, _, _ = select.select([self.output], [], [], max(0, end - time.monotonic()))
            got = os.read(self.output, 1 << 20) if ready else b""
            if not got:
                raise runs.Wrong("the browser has ended" if ready else f"the browser hasn't answered in {SECONDS} seconds")
            self.left += got
        text, self.left = self.left.split(b"\0", 1)
        return json.loads(text)

    def open(self, path, asked=""):
        """Opens a page, and waits until it is loaded."""
        self.ask("Page.navigate", url=f"file://{os.path.abspath(path)}?{asked}")
        self.wait(lambda message: message.get("method") == "Page.loadEventFired")

    def value_of(self, expression):
        """The value of an expression of the page, or of what it promises."""
        answer = self.ask("Runtime.evaluate", expression=expression, awaitPromise=True, returnByValue=True)
        if "exceptionDetails" in answer:
            raise runs.Wrong(f"the page fails: {said_of(answer['exceptionDetails'])}", 1)
        return answer["result"].get("value")

    def press(self, key):
        """Presses a key, as `a` or `ArrowLeft`."""
        text = {"text": key} if len(key) == 1 else {}
        for kind in ("keyDown", "keyUp"):
            self.ask("Input.dispatchKeyEvent", type=kind, key=key, **(text if kind == "keyDown" else {}))

    def take_picture(self, path):
        """Writes what is seen of the page."""
        data = base64.b64decode(self.ask("Page.captureScreenshot", format="png")["data"])
        with open(path, "wb") as file:
            file.write(data)


def said_of(details):
    return details.get("exception", {}).get("description") or details["text"]
