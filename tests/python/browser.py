"""A real browser for tests: headless Chromium, controlled through a pipe with its DevTools protocol."""

import base64
import json
import os
import pathlib
import shutil
import subprocess
import tempfile
import time
import types
import typing

# The seconds until a test gives up waiting for an answer or a change.
HANGS = 900
# The browser shows only pages of the tests, so it needs no sandbox. On some systems a sandbox is not possible.
WORDS = (
    "--headless=new", "--no-sandbox", "--remote-debugging-pipe", "--disable-gpu", "--hide-scrollbars", "--no-first-run", "--disable-extensions", "--disable-dev-shm-usage",
    "--disable-background-networking", "--disable-component-update", "--disable-sync", "--force-color-profile=srgb", "--lang=en",
)
# The browser reads commands from descriptor 3, and writes answers to 4.
AS_PIPES = 'exec "$@" 3<&0 4>&1 < /dev/null > /dev/null'
KEYS = {"Tab": 9, "Enter": 13}
WIDE, PHONE = (1280, 900), (360, 740)
# Text whose contrast with its background is less than 4.5, the minimum of the accessibility guidelines.
FAINT = """
(() => {
  const numbers = (colour) => colour.match(/[\\d.]+/g).map(Number);
  const part = (value) => value <= 10.03 ? value / 3294.6 : ((value / 255 + 0.055) / 1.055) ** 2.4;
  const light = ([r, g, b]) => 0.2126 * part(r) + 0.7152 * part(g) + 0.0722 * part(b);
  const behind = (it) => { while (it && numbers(getComputedStyle(it).backgroundColor)[3] === 0) it = it.parentElement; return it || document.body; };
  const found = [];
  for (const it of document.querySelectorAll("body *")) {
    const words = [...it.childNodes].filter((node) => node.nodeType === 3).map((node) => node.data.trim()).join(" ").trim();
    if (!words || it.closest(".board i, script, noscript, [hidden]")) continue;
    const style = getComputedStyle(it), ink = light(numbers(it.closest("svg") ? style.fill : style.color));
    const paper = light(numbers(getComputedStyle(behind(it)).backgroundColor));
    const contrast = (Math.max(ink, paper) + 0.05) / (Math.min(ink, paper) + 0.05);
    if (contrast < 4.5) found.push(`${words}: ${contrast.toFixed(2)}`);
  }
  return found;
})()"""
# Describes the focused element: its index among all focusable elements, its address or title, and whether its focus is visible.
REACHED = """
(() => {
  const it = document.activeElement, all = [...document.querySelectorAll("a, button, [tabindex]")];
  return [all.indexOf(it), it.getAttribute("href") || it.title, getComputedStyle(it).outlineStyle !== "none"];
})()"""


class Browser:
    """A browser, until it is closed. `said` lists the logged texts, the errors and the requests of its pages."""

    def __init__(self) -> None:
        self.room = tempfile.TemporaryDirectory(ignore_cleanup_errors=True)
        environment = os.environ | {name: self.room.name for name in ("HOME", "XDG_CONFIG_HOME", "XDG_CACHE_HOME")}
        words = ["sh", "-c", AS_PIPES, "sh", found(), *WORDS, f"--user-data-dir={self.room.name}/profile", "about:blank"]
        pipe = subprocess.PIPE
        self.process = subprocess.Popen(words, stdin=pipe, stdout=pipe, stderr=subprocess.DEVNULL, env=environment, bufsize=0)
        self.commands, self.answers = self.process.stdin.fileno(), self.process.stdout.fileno()
        self.rest, self.number, self.said, self.asked = b"", 0, [], []

    def __enter__(self) -> typing.Self:
        return self

    def __exit__(self, kind: type | None, why: BaseException | None, trace: types.TracebackType | None) -> None:
        self.process.stdin.close()
        self.process.stdout.close()
        try:
            self.process.wait(20)
        except subprocess.TimeoutExpired:
            self.process.kill()
            self.process.wait()
        self.room.cleanup()

    def tell(self, method: str, session: str = "", **values: object) -> dict[str, typing.Any]:
        """Sends a command to the browser, and returns its answer."""
        self.number += 1
        words = {"id": self.number, "method": method, "params": values} | ({"sessionId": session} if session else {})
        text = json.dumps(words).encode() + b"\0"
        while text:
            text = text[os.write(self.commands, text) :]
        while (message := self.next_message()).get("id") != self.number:
            self.take(message)
        if "error" in message:
            raise RuntimeError(f"{method}: {message['error']}")
        return message["result"]

    def next_message(self) -> dict[str, typing.Any]:
        while b"\0" not in self.rest:
            more = os.read(self.answers, 1 << 16)
            if not more:
                raise RuntimeError("the browser has ended")
            self.rest += more
        text, _, self.rest = self.rest.partition(b"\0")
        return json.loads(text)

    def take(self, message: dict[str, typing.Any]) -> None:
        """Records an event of a page."""
        kind, values = message.get("method"), message.get("params", {})
        if kind == "Network.requestWillBeSent":
            self.asked.append(values["request"]["url"])
        elif kind in ("Runtime.consoleAPICalled", "Runtime.exceptionThrown", "Log.entryAdded", "Page.javascriptDialogOpening"):
            self.said.append(json.dumps(values))

    def page(self, address: str) -> "Page":
        """Opens a page."""
        target = self.tell("Target.createTarget", url="about:blank")["targetId"]
        session = self.tell("Target.attachToTarget", targetId=target, flatten=True)["sessionId"]
        for part in ("Page", "Runtime", "Network", "Log"):
            self.tell(f"{part}.enable", session)
        self.tell("Emulation.setFocusEmulationEnabled", session, enabled=True)
        shown = Page(self, session, target)
        shown.go(address)
        return shown


class Page:
    """A page of a browser. Tests see it as people do."""

    def __init__(self, browser: Browser, session: str, target: str) -> None:
        self.browser, self.session, self.target = browser, session, target

    def tell(self, method: str, **values: object) -> dict[str, typing.Any]:
        return self.browser.tell(method, self.session, **values)

    def go(self, address: str) -> None:
        self.tell("Page.navigate", url=address)
        self.until(f"document.readyState === 'complete' && location.href.split('#')[0] === {json.dumps(address.partition('#')[0])}")

    def close(self) -> None:
        self.browser.tell("Target.closeTarget", targetId=self.target)

    def value(self, expression: str) -> typing.Any:
        """Returns the value of a JavaScript expression."""
        answer = self.tell("Runtime.evaluate", expression=expression, returnByValue=True, awaitPromise=True)
        if "exceptionDetails" in answer:
            raise RuntimeError(f"{expression}: {answer['exceptionDetails']}")
        return answer["result"].get("value")

    def until(self, expression: str) -> typing.Any:
        """Waits until a JavaScript expression is true, and returns its value."""
        ends = time.monotonic() + HANGS
        while time.monotonic() < ends:
            try:
                if held := self.value(expression):
                    return held
            except RuntimeError:
                # The page is being loaded, and its document is replaced.
                if self.browser.process.poll() is not None:
                    raise
            time.sleep(0.05)
        raise AssertionError(f"it never holds: {expression}; the page says: {self.text()}")

    def text(self) -> str:
        return self.value("document.body.innerText")

    def screen(self, width: int, height: int) -> None:
        self.tell("Emulation.setDeviceMetricsOverride", width=width, height=height, deviceScaleFactor=1, mobile=False)

    def colours(self, scheme: str) -> None:
        self.tell("Emulation.setEmulatedMedia", features=[{"name": "prefers-color-scheme", "value": scheme}])

    def press(self, key: str) -> None:
        for kind in ("rawKeyDown", "char", "keyUp") if key == "Enter" else ("rawKeyDown", "keyUp"):
            text = {"text": "\r"} if kind == "char" else {}
            self.tell("Input.dispatchKeyEvent", type=kind, key=key, code=key, windowsVirtualKeyCode=KEYS[key], **text)

    def reached(self) -> tuple[int, str, bool]:
        """Describes the focused element: its index among all focusable elements, its address or title, and whether its focus is visible."""
        at, name, is_seen = self.value(REACHED)
        return at, name, is_seen

    def unreadable(self) -> list[str]:
        """Returns the readability problems of a page: text with low contrast in light or dark mode, and a width that exceeds the screen."""
        found = []
        for size in (PHONE, WIDE):
            self.screen(*size)
            width = self.value("document.documentElement.scrollWidth")
            found += [f"{width} wide on a screen of {size[0]}"] if width > size[0] else []
        for scheme in ("dark", "light"):
            self.colours(scheme)
            found += [f"{words} ({scheme})" for words in self.value(FAINT)]
        return [f"{self.value('location.href')}: {fault}" for fault in found]

    def click(self, element: str) -> None:
        """Clicks on the middle of the element that a JavaScript expression returns."""
        middle = f"(({element}).scrollIntoView(), (box => [box.x + box.width / 2, box.y + box.height / 2])(({element}).getBoundingClientRect()))"
        x, y = self.value(middle)
        for kind in ("mousePressed", "mouseReleased"):
            self.tell("Input.dispatchMouseEvent", type=kind, x=x, y=y, button="left", clickCount=1)

    def picture(self, file: pathlib.Path, is_whole: bool = False) -> None:
        """Writes a picture of the visible part, or of the whole page."""
        answer = self.tell("Page.captureScreenshot", format="png", captureBeyondViewport=is_whole)
        file.write_bytes(base64.b64decode(answer["data"]))


def found() -> str:
    """Returns the path of the browser."""
    path = shutil.which("chromium")
    if not path:
        raise FileNotFoundError("chromium is not installed (`tools/needs` says how)")
    return path
