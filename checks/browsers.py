"""Browsers for checks/page, each with one page: Chromium by the protocol of its developer tools over two pipes, and Firefox by Marionette over a socket."""

from __future__ import annotations

import base64
import json
import os
import shutil
import socket
import subprocess
import time
from typing import Any

# How long a browser may take for one thing, in seconds.
PATIENCE = 120


class Browser:
    """What both can do: `value` gives the value of an expression in the page, of a promise its value, and `go` opens an address."""

    def await_value(self, script: str, wanted: object = True) -> bool:
        """Waits until an expression has a value, and gives whether it came to have it."""
        end = time.monotonic() + PATIENCE
        while time.monotonic() < end:
            if self.value(script) == wanted:
                return True
            time.sleep(0.05)
        return False

    def open(self, url: str, is_open: str) -> bool:
        """Opens an address anew, and waits for what says that it is open."""
        self.go("about:blank")
        self.go(url)
        return self.await_value(is_open)

    def picture(self, path: str, width: int, height: int, scheme: str) -> None:
        """Leaves a picture of the page with this size, in light or dark."""
        self.look(width, height, scheme)
        time.sleep(0.5)
        with open(path, "wb") as it:
            it.write(base64.b64decode(self.seen()))


class Chromium(Browser):
    name, program = "chromium", shutil.which("chromium")

    def __init__(self, folder: str) -> None:
        asked, self.to = os.pipe()
        self.of, told = os.pipe()
        options = ["--headless=new", "--no-sandbox", "--disable-gpu", "--disable-dev-shm-usage", "--remote-debugging-pipe", f"--user-data-dir={folder}/chromium"]
        words = ["bash", "-c", f'exec "$@" 3<&{asked} 4>&{told}', "bash", self.program, *options, "about:blank"]
        self.process = subprocess.Popen(words, pass_fds=(asked, told), stdin=subprocess.DEVNULL, stdout=subprocess.DEVNULL, stderr=subprocess.DEVNULL)
        os.close(asked)
        os.close(told)
        self.left, self.number, self.session = b"", 0, None
        target = self.ask("Target.createTarget", url="about:blank")["targetId"]
        self.session = self.ask("Target.attachToTarget", targetId=target, flatten=True)["sessionId"]
        self.ask("Page.enable")

    def ask(self, method: str, **params: object) -> dict[str, Any]:
        self.number += 1
        session = {"sessionId": self.session} if self.session else {}
        os.write(self.to, json.dumps({"id": self.number, "method": method, "params": params, **session}).encode() + b"\0")
        while True:
            while b"\0" not in self.left:
                part = os.read(self.of, 1 << 20)
                if not part:
                    raise EOFError(f"chromium ended at {method}")
                self.left += part
            text, _, self.left = self.left.partition(b"\0")
            answer = json.loads(text)
            if answer.get("id") == self.number:
                if "error" in answer:
                    raise ValueError(f"{method}: {answer['error']}")
                return answer["result"]

    def value(self, script: str) -> Any:
        result = self.ask("Runtime.evaluate", expression=script, awaitPromise=True, returnByValue=True)
        return result["result"].get("value", result.get("exceptionDetails"))

    def go(self, url: str) -> None:
        self.ask("Page.navigate", url=url)

    def press(self, key: str) -> None:
        """Presses a key, as `Tab`."""
        for kind in ("rawKeyDown", "keyUp"):
            self.ask("Input.dispatchKeyEvent", type=kind, key=key, code=key, windowsVirtualKeyCode={"Tab": 9}.get(key, 0))

    def names(self) -> list[tuple[str, str]]:
        """Gives the role and the name of each thing in the page that a screen reader tells of."""
        nodes = self.ask("Accessibility.getFullAXTree")["nodes"]
        return [(it["role"]["value"], it.get("name", {}).get("value", "")) for it in nodes if not it.get("ignored")]

    def look(self, width: int, height: int, scheme: str) -> None:
        self.ask("Emulation.setDeviceMetricsOverride", width=width, height=height, deviceScaleFactor=1, mobile=False)
        self.ask("Emulation.setEmulatedMedia", features=[{"name": "prefers-color-scheme", "value": scheme}])

    def seen(self) -> str:
        return self.ask("Page.captureScreenshot")["data"]

    def end(self) -> None:
        self.process.terminate()
        self.process.wait()


class Firefox(Browser):
    name, program = "firefox", shutil.which("firefox-esr") or shutil.which("firefox")

    def __init__(self, folder: str) -> None:
        profile = f"{folder}/firefox"
        os.makedirs(profile)
        with open(f"{profile}/user.js", "w", encoding="utf-8") as it:
            it.write('user_pref("marionette.port", 0);\nuser_pref("app.update.enabled", false);\nuser_pref("browser.shell.checkDefaultBrowser", false);\n')
        words = [self.program, "--headless", "--no-remote", "--marionette", "-remote-allow-system-access", "--profile", profile, "about:blank"]
        env = {**os.environ, "HOME": folder, "MOZ_HEADLESS": "1"}
        self.process = subprocess.Popen(words, env=env, stdin=subprocess.DEVNULL, stdout=subprocess.DEVNULL, stderr=subprocess.DEVNULL)
        self.left, self.number = b"", 0
        self.socket = self.connected(f"{profile}/MarionetteActivePort")
        self.read()
        self.ask("WebDriver:NewSession")
        self.ask("WebDriver:SetTimeouts", script=1000 * PATIENCE, pageLoad=1000 * PATIENCE)

    def connected(self, path: str) -> socket.socket:
        """Gives a connection to the port that Firefox names in a file once it listens."""
        end = time.monotonic() + PATIENCE
        while time.monotonic() < end and self.process.poll() is None:
            if os.path.exists(path):
                with open(path, encoding="utf-8") as it:
                    port = it.read()
                if port:
                    return socket.create_connection(("127.0.0.1", int(port)))
            time.sleep(0.1)
        raise EOFError("firefox doesn't listen")

    def read(self) -> Any:
        """Gives what Firefox says next: a length in digits, a colon, and so many bytes."""
        while True:
            length, colon, rest = self.left.partition(b":")
            if colon and len(rest) >= int(length):
                self.left = rest[int(length) :]
                return json.loads(rest[: int(length)])
            part = self.socket.recv(1 << 20)
            if not part:
                raise EOFError("firefox ended")
            self.left += part

    def ask(self, method: str, **params: object) -> dict[str, Any]:
        self.number += 1
        said = json.dumps([0, self.number, method, params]).encode()
        self.socket.sendall(b"%d:%s" % (len(said), said))
        _, _, error, result = self.read()
        if error:
            raise ValueError(f"{method}: {error}")
        return result

    def value(self, script: str) -> Any:
        text = f"const done = arguments[0]; Promise.resolve().then(() => eval({json.dumps(script)})).then(done, (error) => done(String(error)))"
        return self.ask("WebDriver:ExecuteAsyncScript", script=text, args=[], newSandbox=False)["value"]

    def go(self, url: str) -> None:
        self.ask("WebDriver:Navigate", url=url)

    def look(self, width: int, height: int, scheme: str) -> None:
        self.ask("Marionette:SetContext", value="chrome")
        # (a window is at least 500 pixels wide, and what it shows may be less)
        narrow = f"{width}px" if width < 500 else "none"
        for script in (
            f"Services.prefs.setIntPref('layout.css.prefers-color-scheme.content-override', {int(scheme == 'light')})",
            f"gBrowser.selectedBrowser.style.maxWidth = '{narrow}'",
        ):
            self.ask("WebDriver:ExecuteScript", script=script, args=[])
        self.ask("Marionette:SetContext", value="content")
        self.ask("WebDriver:SetWindowRect", width=width, height=height)

    def seen(self) -> str:
        return self.ask("WebDriver:TakeScreenshot", full=False, hash=False)["value"]

    def end(self) -> None:
        self.socket.close()
        self.process.terminate()
        self.process.wait()
