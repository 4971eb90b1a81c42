"""Chromium without a window, spoken to by its DevTools protocol over two pipes: it needs no package of Python."""
import fcntl
import json
import os
import shutil
import subprocess
import tempfile

NAME = shutil.which("chromium") or shutil.which("chromium-browser") or shutil.which("google-chrome")
SECONDS = 1800


class Browser:
    """A browser with one page, which is closed with it."""

    def __init__(self, *flags):
        self.folder = tempfile.TemporaryDirectory(ignore_cleanup_errors=True)
        told, self.asking = os.pipe()
        self.hearing, telling = os.pipe()

        def as_3_and_4():
            ends = [fcntl.fcntl(end, fcntl.F_DUPFD_CLOEXEC, 10) for end in (told, telling)]
            for place, end in enumerate(ends, 3):
                os.dup2(end, place)

        self.child = subprocess.Popen(
            ["timeout", str(SECONDS), NAME, "--headless", "--no-sandbox", "--disable-gpu", "--remote-debugging-pipe",
             f"--user-data-dir={self.folder.name}", *flags, "about:blank"],
            stdin=subprocess.DEVNULL, stdout=subprocess.DEVNULL, stderr=subprocess.DEVNULL, close_fds=False,
            preexec_fn=as_3_and_4)
        os.close(told)
        os.close(telling)
        self.rest, self.asked, self.session = b"", 0, {}
        self.events = []
        pages = [one for one in self.ask("Target.getTargets")["targetInfos"] if one["type"] == "page"]
        session = self.ask("Target.attachToTarget", targetId=pages[0]["targetId"], flatten=True)["sessionId"]
        self.session = {"sessionId": session}
        for part in ("Page", "Runtime", "Log"):
            self.ask(f"{part}.enable")

    def close(self):
        self.child.terminate()
        self.child.wait()
        os.close(self.asking)
        os.close(self.hearing)
        self.folder.cleanup()

    def hear(self):
        """The next message of the browser; they are parted by bytes of 0."""
        while b"\0" not in self.rest:
            part = os.read(self.hearing, 1 << 20)
            if not part:
                raise EOFError("the browser ended")
            self.rest += part
        message, self.rest = self.rest.split(b"\0", 1)
        return json.loads(message)

    def ask(self, method, **given):
        """What the browser answers; what it tells in between is kept in `events`."""
        self.asked += 1
        text = json.dumps({"id": self.asked, "method": method, "params": given, **self.session})
        os.write(self.asking, text.encode() + b"\0")
        while (message := self.hear()).get("id") != self.asked:
            self.events.append(message)
        if "error" in message:
            raise RuntimeError(f"{method}: {message['error']['message']}")
        return message["result"]

    def open(self, name, address=""):
        """Opens a page of the disk; answers once it has loaded."""
        for place in ("about:blank", f"file://{os.path.abspath(name)}{address}"):
            self.events.clear()
            self.ask("Page.navigate", url=place)
            while not any(event.get("method") == "Page.loadEventFired" for event in self.events):
                self.events.append(self.hear())
        self.settle()

    def value(self, script):
        """The value of an expression in the page, or of what it promises."""
        found = self.ask("Runtime.evaluate", expression=script, returnByValue=True, awaitPromise=True)
        if "exceptionDetails" in found:
            raise RuntimeError(found["exceptionDetails"]["exception"]["description"])
        return found["result"].get("value")

    def settle(self):
        """Waits until what was asked of the page is in its picture."""
        self.value("new Promise((done) => requestAnimationFrame(() => requestAnimationFrame(done)))")

    def complaints(self):
        """What stands on the console: faults of scripts, and what could not be had."""
        kinds = ("Runtime.exceptionThrown", "Runtime.consoleAPICalled", "Log.entryAdded")
        return [json.dumps(event["params"]) for event in self.events if event.get("method") in kinds]

    def resize(self, width, height, phone=False):
        """The size of the window; that of a phone is touched."""
        self.ask("Emulation.setDeviceMetricsOverride", width=width, height=height, deviceScaleFactor=1, mobile=phone)
        self.ask("Emulation.setTouchEmulationEnabled", enabled=phone, maxTouchPoints=2)

    def touch(self, kind, *fingers):
        """Fingers on the glass (Start, Move, End): which, and where it is."""
        points = [{"id": which, "x": x, "y": y} for which, x, y in fingers]
        self.ask("Input.dispatchTouchEvent", type=f"touch{kind}", touchPoints=points)
        self.settle()

    def press(self, key, code=0):
        """A key, by its name and, where a page does something by itself with it, its number of Windows."""
        text = {"text": key} if len(key) == 1 else {}
        self.ask("Input.dispatchKeyEvent", type="keyDown", key=key, windowsVirtualKeyCode=code, **text)
        self.ask("Input.dispatchKeyEvent", type="keyUp", key=key, windowsVirtualKeyCode=code)

    def heard(self):
        """What a screen reader tells of the page: the role, the name and the properties of each part."""
        nodes = self.ask("Accessibility.getFullAXTree")["nodes"]
        told = lambda node, key: node.get(key, {}).get("value", "")
        return [(told(node, "role"), told(node, "name").strip(),
                 {one["name"]: one["value"].get("value") for one in node.get("properties", [])})
                for node in nodes if not node.get("ignored")]
