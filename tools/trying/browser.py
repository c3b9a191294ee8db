"""Drives a browser, and looks at the pages that it opens."""
from __future__ import annotations

import base64
import fcntl
import json
import os
import subprocess
from typing import Any, Dict, Iterator, List

# What tells of a fault on the console of a page.
FAULTS = ("Runtime.exceptionThrown", "Runtime.consoleAPICalled", "Log.entryAdded")
STATE = """JSON.stringify({
  hash: location.hash,
  open: [...document.querySelectorAll('.why')].map(reasons => reasons.open),
  lines: [...document.querySelectorAll(':is(article, section) > ol > li, article > p')]
    .filter(line => line.checkVisibility())
    .map(line => parseInt(line.textContent)),
  titles: [...document.querySelectorAll('article > h2')].filter(title => title.checkVisibility())
    .map(title => title.textContent),
  top: document.querySelector(':target')?.getBoundingClientRect().top,
  bar: document.querySelector('.top')?.getBoundingClientRect().bottom,
  focus: document.activeElement.id || document.activeElement.tagName,
  height: innerHeight,
  width: document.documentElement.scrollWidth,
})"""
FRAMES = "new Promise(drawn => requestAnimationFrame(() => requestAnimationFrame(drawn)))"
OPENING = "performance.getEntriesByType('navigation')[0].loadEventStart"
IS_WHOLE = "[...document.querySelectorAll('main *')].every(part => getComputedStyle(part).contentVisibility != 'auto')"
# How many seconds a page of 10,000 exchanges takes to open, at its best, and how often that is tried.
MOST_SECONDS = 1
TRIES = 5


class Browser:
    """A browser that is driven by its protocol, over two pipes."""

    def __init__(self, program: str, folder: str) -> None:
        theirs, orders = os.pipe()
        answers, told = os.pipe()

        def hand_over() -> None:
            # it reads orders from 3, and answers to 4; neither number may be taken before both are handed over
            ends = [fcntl.fcntl(end, fcntl.F_DUPFD, 10) for end in (theirs, told)]
            os.dup2(ends[0], 3)
            os.dup2(ends[1], 4)

        options = ["--headless", "--no-sandbox", "--disable-gpu", "--remote-debugging-pipe"]
        options.append(f"--user-data-dir={folder}")
        self.process = subprocess.Popen(
            [program, *options], preexec_fn=hand_over, close_fds=False, stderr=subprocess.DEVNULL
        )
        os.close(theirs)
        os.close(told)
        self.orders, self.answers = os.fdopen(orders, "wb", 0), os.fdopen(answers, "rb", 0)
        self.rest, self.count, self.session = b"", 0, ""
        self.events: List[Dict[str, Any]] = []
        target = self.call("Target.createTarget", url="about:blank")["targetId"]
        self.session = self.call("Target.attachToTarget", targetId=target, flatten=True)["sessionId"]
        for domain in ("Page", "Runtime", "Log"):
            self.call(f"{domain}.enable")

    def call(self, method: str, **params: Any) -> Dict[str, Any]:
        """Gives an order, and waits for its answer."""
        self.count += 1
        order = {"id": self.count, "method": method, "params": params}
        if self.session:
            order["sessionId"] = self.session
        self.orders.write(json.dumps(order).encode() + b"\0")
        while True:
            answer = self.next()
            if answer.get("id") == self.count:
                if "error" in answer:
                    raise RuntimeError(f"{method}: {answer['error']}")
                return answer["result"]
            self.events.append(answer)

    def next(self) -> Dict[str, Any]:
        """The next thing that the browser tells."""
        while b"\0" not in self.rest:
            octets = self.answers.read(1 << 16)
            if not octets:
                raise RuntimeError("the browser ended")
            self.rest += octets
        told, _, self.rest = self.rest.partition(b"\0")
        return json.loads(told)

    def open(self, path: str) -> None:
        """Opens a page, and waits until it is there."""
        self.go(f"file://{path}")

    def go(self, address: str) -> None:
        """Goes to an address, and waits until that is there."""
        self.events.clear()
        self.call("Page.navigate", url=address)
        while not any(event.get("method") == "Page.loadEventFired" for event in self.events):
            self.events.append(self.next())

    def evaluate(self, text: str) -> Any:
        """The value of an expression in the page."""
        return self.call("Runtime.evaluate", expression=text)["result"].get("value")

    def settle(self) -> None:
        """Waits until what is on the screen is drawn."""
        self.call("Runtime.evaluate", expression=FRAMES, awaitPromise=True)

    def state(self) -> Dict[str, Any]:
        return json.loads(self.evaluate(STATE))

    def click(self, selector: str) -> None:
        """Clicks on an element, after it is brought into view."""
        found = f"document.querySelector({selector!r})"
        self.evaluate(f"{found}.scrollIntoView({{block: 'center'}})")
        box = json.loads(self.evaluate(f"JSON.stringify({found}.getBoundingClientRect())"))
        self.click_at(box["x"] + box["width"] / 2, box["y"] + box["height"] / 2)

    def click_at(self, left: float, top: float) -> None:
        """Clicks at a place of the window."""
        place = {"x": left, "y": top}
        for kind in ("mousePressed", "mouseReleased"):
            self.call("Input.dispatchMouseEvent", type=kind, button="left", clickCount=1, **place)

    def press(self, key: str, code: int, text: str = "") -> None:
        """Presses a key."""
        for kind, typed in (("keyDown", text), ("keyUp", "")):
            self.call("Input.dispatchKeyEvent", type=kind, key=key, windowsVirtualKeyCode=code, text=typed)

    def show(self, width: int, height: int, scheme: str, media: str = "") -> None:
        """Has pages shown so."""
        features = [{"name": "prefers-color-scheme", "value": scheme}]
        self.call("Emulation.setEmulatedMedia", media=media, features=features)
        self.call("Emulation.setDeviceMetricsOverride", width=width, height=height, deviceScaleFactor=1, mobile=False)

    def draw(self, path: str, width: int, height: int, scheme: str) -> None:
        """Leaves a picture of the page."""
        self.show(width, height, scheme)
        self.call("Emulation.setScrollbarsHidden", hidden=True)
        with open(path, "wb") as file:
            file.write(base64.b64decode(self.call("Page.captureScreenshot")["data"]))

    def end(self) -> None:
        self.session = ""
        self.call("Browser.close")
        self.process.wait()


def slowness(browser: Browser, path: str) -> Iterator[str]:
    """That the page takes too long to open, each time that it is tried."""
    times: List[float] = []
    while len(times) < TRIES and (not times or times[-1] > MOST_SECONDS):
        # else the time to clear away the page before is counted too
        browser.go("about:blank")
        browser.open(path)
        times.append(browser.evaluate(OPENING) / 1000)
    if times[-1] > MOST_SECONDS:
        told = ", ".join(f"{seconds:.2f}" for seconds in times)
        yield f"{os.path.basename(path)}: 10,000 exchanges take {told} seconds to open"


def jump(browser: Browser, selector: str, answer: str) -> Iterator[str]:
    """That a link doesn't lead to an answer, below the bar."""
    browser.click(selector)
    browser.settle()
    state = browser.state()
    if state["hash"] != f"#{answer}" or not state["bar"] <= state["top"] < state["height"]:
        yield f"a link leads to {state['hash']} at {state['top']}, below {state['bar']}, and not to #{answer}"


def console(browser: Browser) -> Iterator[str]:
    """What the page has told on the console."""
    yield from (f"the console has {event}" for event in browser.events if event.get("method") in FAULTS)


def on_paper(browser: Browser) -> Iterator[str]:
    """That parts of a page are drawn only as they come into view, though it is on paper."""
    browser.call("Emulation.setEmulatedMedia", media="print")
    if not browser.evaluate(IS_WHOLE):
        yield "on paper parts may be left out"
    browser.call("Emulation.setEmulatedMedia", media="")
