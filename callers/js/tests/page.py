#!/usr/bin/env python3
"""Tests of the page in Chromium and Firefox, headless: callers/js/tests/page.py [FOLDER [SHOTS]]

FOLDER is what callers/js/build made, out/js/play if none is given; a picture of each state is written to SHOTS, out/js/shots. Debian's packages: chromium,
chromium-driver, python3-selenium and firefox-esr, which is driven by its own protocol, Marionette. Expected values are those of PEP 440. The last line is
`N passed, M failed`; exit status 0 if none failed.
"""
import base64
import contextlib
import functools
import http.server
import json
import os
import pathlib
import shutil
import socket
import subprocess
import sys
import tempfile
import threading
import time
import traceback
import urllib.parse

TOP = pathlib.Path(__file__).resolve().parents[3]
PAGE, SHOTS = (pathlib.Path(word) for word in (sys.argv[1:] + [TOP / "out/js/play", TOP / "out/js/shots"][len(sys.argv) - 1 :]))
BACKSPACE, TAB, SHIFT_TAB = "\ue003", "\ue004", "\ue008\ue004"
PORTS = []  # of the page, and of one without its module
# Milliseconds; longer where other programs want the processors too.
FRAME, LONG_PASTE, FIRST_ANSWER = (it * max(1, os.getloadavg()[0] / os.cpu_count()) for it in (16, 1000, 200))


class Chromium:
    def __init__(self):
        from selenium import webdriver
        from selenium.webdriver.chrome.service import Service

        options = webdriver.ChromeOptions()
        for word in ("--headless=new", "--no-sandbox", "--disable-gpu", "--hide-scrollbars"):
            options.add_argument(word)
        options.set_capability("goog:loggingPrefs", {"browser": "ALL"})
        self.driver = webdriver.Chrome(service=Service(shutil.which("chromedriver")), options=options)
        self.name = f"Chromium {self.driver.capabilities['browserVersion']}"

    def look(self, width, height, is_dark):
        self.driver.execute_cdp_cmd("Emulation.setDeviceMetricsOverride", {"width": width, "height": height, "deviceScaleFactor": 1, "mobile": False})
        self.driver.execute_cdp_cmd("Emulation.setEmulatedMedia", {"features": [{"name": "prefers-color-scheme", "value": "dark" if is_dark else "light"}]})

    def go(self, url):
        self.driver.get("about:blank")
        self.driver.get(url)

    def run(self, script, *words):
        return self.driver.execute_script(script, *words)

    def type(self, name, keys):
        self.driver.find_element("id", name).send_keys(keys)

    def press(self, keys):
        self.driver.switch_to.active_element.send_keys(keys)

    def accessible(self, css):
        node = self.driver.execute_cdp_cmd("Runtime.evaluate", {"expression": f"document.querySelector({json.dumps(css)})"})["result"]["objectId"]
        found = self.driver.execute_cdp_cmd("Accessibility.getPartialAXTree", {"objectId": node, "fetchRelatives": False})["nodes"][0]
        return found["role"]["value"], found["name"]["value"]

    def picture(self):
        return self.driver.get_screenshot_as_png()

    def complaints(self):
        return [it["message"] for it in self.driver.get_log("browser")]

    def close(self):
        self.driver.quit()


class Firefox:
    """Marionette: messages of JSON with their length before them."""

    ELEMENT = "element-6066-11e4-a52e-4f735466cecf"

    def __init__(self):
        self.profile, self.number = tempfile.mkdtemp(), 0
        with contextlib.closing(socket.socket()) as free:
            free.bind(("127.0.0.1", 0))
            port = free.getsockname()[1]
        settings = {"marionette.port": port, "browser.shell.checkDefaultBrowser": False, "datareporting.policy.dataSubmissionEnabled": False}
        settings |= {"toolkit.telemetry.enabled": False, "network.captive-portal-service.enabled": False, "app.update.enabled": False}
        lines = [f"user_pref({json.dumps(name)}, {json.dumps(value)});\n" for name, value in settings.items()]
        pathlib.Path(self.profile, "user.js").write_text("".join(lines))
        words = ["firefox-esr", "--headless", "--marionette", "--remote-allow-system-access", "--no-remote", "--profile", self.profile]
        self.process = subprocess.Popen(words, stdout=subprocess.DEVNULL, stderr=subprocess.DEVNULL)
        self.socket = self.connected(port)
        self.reply()
        capabilities = self.ask("WebDriver:NewSession", {})["capabilities"]
        self.name = f"Firefox {capabilities['browserVersion']}"

    def connected(self, port):
        for _ in range(600):
            with contextlib.suppress(OSError):
                return socket.create_connection(("127.0.0.1", port), timeout=120)
            time.sleep(0.1)
        raise TimeoutError("Firefox does not answer")

    def reply(self):
        length = b""
        while not length.endswith(b":"):
            length += self.socket.recv(1)
        found = b""
        while len(found) < int(length[:-1]):
            found += self.socket.recv(1 << 16)
        return json.loads(found)

    def ask(self, command, words):
        self.number += 1
        message = json.dumps([0, self.number, command, words]).encode()
        self.socket.sendall(b"%d:%s" % (len(message), message))
        _, _, error, result = self.reply()
        if error:
            raise RuntimeError(f"{command}: {error['message']}")
        return result

    def chrome(self, script, *words):
        """Runs a script of the browser itself."""
        self.ask("Marionette:SetContext", {"value": "chrome"})
        try:
            return self.run(script, *words)
        finally:
            self.ask("Marionette:SetContext", {"value": "content"})

    def look(self, width, height, is_dark):
        self.chrome("Services.prefs.setIntPref('ui.systemUsesDarkTheme', arguments[0]); Services.prefs.setIntPref('layout.css.prefers-color-scheme.content-override', 1 - arguments[0])", int(is_dark))
        self.ask("WebDriver:SetWindowRect", {"width": width, "height": height})
        inner = self.run("return [innerWidth, innerHeight]")
        self.ask("WebDriver:SetWindowRect", {"width": 2 * width - inner[0], "height": 2 * height - inner[1]})

    def go(self, url):
        self.ask("WebDriver:Navigate", {"url": "about:blank"})
        self.ask("WebDriver:Navigate", {"url": url})

    def run(self, script, *words):
        return self.ask("WebDriver:ExecuteScript", {"script": script, "args": list(words)})["value"]

    def element(self, using, value):
        return self.ask("WebDriver:FindElement", {"using": using, "value": value})["value"][self.ELEMENT]

    def type(self, name, keys):
        self.ask("WebDriver:ElementSendKeys", {"id": self.element("css selector", f"#{name}"), "text": keys})

    def press(self, keys):
        active = self.ask("WebDriver:GetActiveElement", {})["value"][self.ELEMENT]
        self.ask("WebDriver:ElementSendKeys", {"id": active, "text": keys})

    def accessible(self, css):
        element = {"id": self.element("css selector", css)}
        return self.ask("WebDriver:GetComputedRole", element)["value"], self.ask("WebDriver:GetComputedLabel", element)["value"]

    def picture(self):
        return base64.b64decode(self.ask("WebDriver:TakeScreenshot", {"full": False})["value"])

    def complaints(self):
        return self.chrome("return Services.console.getMessageArray().map(String).filter((it) => it.includes('127.0.0.1') && it.includes('Error'))")

    def close(self):
        with contextlib.suppress(Exception):
            self.ask("Marionette:Quit", {"flags": ["eForceQuit"]})
        self.process.wait(60)
        shutil.rmtree(self.profile, ignore_errors=True)


# The contrast of each piece of text with what is behind it, where it is below 4.5.
CONTRAST = """
const parts = (color) => color.match(/[\\d.]+/g).map(Number);
const light = ([r, g, b]) => [r, g, b].map((it) => it / 255).map((it) => (it <= 0.04045 ? it / 12.92 : ((it + 0.055) / 1.055) ** 2.4)).reduce((sum, it, i) => sum + it * [0.2126, 0.7152, 0.0722][i], 0);
const behind = (node) => { for (let it = node; it; it = it.parentElement) { const color = parts(getComputedStyle(it).backgroundColor); if (color.length < 4 || color[3] > 0) return color; } return [255, 255, 255]; };
const found = [], walk = document.createTreeWalker(document.body, NodeFilter.SHOW_TEXT);
while (walk.nextNode()) {
  const it = walk.currentNode.parentElement;
  if (!walk.currentNode.data.trim() || it.closest('.under, .unseen, script, noscript, [hidden], title')) continue;
  const style = getComputedStyle(it), color = parts(it.closest('svg') ? style.fill : style.color), [high, low] = [light(color), light(behind(it))].sort((a, b) => b - a);
  if ((high + 0.05) / (low + 0.05) < 4.5) found.push([walk.currentNode.data.trim(), color.join(), ((high + 0.05) / (low + 0.05)).toFixed(2)]);
}
return found;
"""


class Tests:
    def __init__(self, browser, url):
        self.browser, self.url, self.looks = browser, url, None

    def open(self, a=None, b=None, v=None, pre=None, look=(1200, 900, False)):
        if look != self.looks:
            self.browser.look(*look)
            self.looks = look
        given = {"a": a, "b": b, "v": v and "\n".join(v.split()), "pre": pre}
        self.browser.go(self.url + "".join("#" + urllib.parse.urlencode({name: it for name, it in given.items() if it is not None}) for _ in [0] if any(it is not None for it in given.values())))
        self.wait(lambda: self.run("return performance.getEntriesByName('ready').length"))

    def expect(self, verdict, *words):
        """That the page, opened with the words if there are any, has this verdict."""
        if words:
            self.open(*words)
        found = self.text("verdict")
        assert found == verdict, found

    def wait(self, holds):
        for _ in range(200):
            if found := holds():
                return found
            time.sleep(0.05)
        raise AssertionError("waited 10 seconds")

    def run(self, script, *words):
        return self.browser.run(script, *words)

    def text(self, name):
        return self.run("return document.getElementById(arguments[0]).textContent.trim().toWellFormed()", name)

    def rows(self):
        return self.run("return Array.from(document.querySelectorAll('#rows tr'), (row) => Array.from(row.children, (it) => it.textContent.trim().toWellFormed()).join(' | '))")

    def marked(self, css):
        return self.run("return Array.from(document.querySelectorAll(arguments[0] + ' mark'), (it) => it.textContent)", css)

    def clear(self, name):
        self.run("const it = document.getElementById(arguments[0]); it.value = ''; it.dispatchEvent(new Event('input', { bubbles: true }))", name)

    def shot(self, name):
        SHOTS.mkdir(parents=True, exist_ok=True)
        (SHOTS / f"{self.browser.name.split()[0].lower()}-{name}.png").write_bytes(self.browser.picture())

    def test_start(self):
        self.open()
        self.expect("7 of 15 versions match; the newest is 2.10.0.")
        rows = self.rows()
        for row in ("3.0 | rejected by ~=2.2", "2.10.0 | matches", "2.5.1 | rejected by !=2.5.*", "2.3rc1 | pre-release, not asked for", "2.2 written v2.2 | matches", "2.0 | rejected by ~=2.2"):
            assert row in rows, (row, rows)
        assert [it.split()[0] for it in rows] == "3.0 3.0a1 3.0.dev4 2.10.0 2.6 2.5.1 2.5.0 2.4.0.post1 2.4.0 2.3.0 2.3rc1 2.2.1 2.2 2.1.3 2.0".split()
        assert self.text("intervals") == "[2.2, 2.5.dev0) [2.6.dev0, 3.dev0)", self.text("intervals")
        assert self.run("return [document.querySelectorAll('svg .dot').length, document.querySelectorAll('svg .tick').length, document.querySelectorAll('svg .end.closed').length, document.querySelectorAll('svg .end.open').length]") == [12, 3, 2, 2]
        self.shot("start")

    def test_typing(self):
        self.open()
        self.clear("a")
        self.expect("12 of 15 versions match; the newest is 3.0.")
        self.browser.type("a", ">=2.4, <3")
        self.expect("6 of 15 versions match; the newest is 2.10.0.")
        self.browser.type("a", ",")
        assert self.text("verdict") == "The list is not valid." and "Beside a comma" in self.text("a-errors")
        self.browser.type("a", BACKSPACE)
        assert self.text("a-errors") == ""
        self.browser.type("b", "!=2.6")
        self.expect("5 of 15 versions match; the newest is 2.10.0.")
        self.browser.type("v", "\n2.11\n2.x")
        self.expect("6 of 16 versions match; the newest is 2.11.")
        assert self.rows()[0].startswith("line 17 2.x | after parsing 2, found .x"), self.rows()[0]
        self.wait(lambda: "2.x" in urllib.parse.unquote_plus(self.run("return location.hash")))

    def test_errors(self):
        self.open(">=2.0,, =>3, ~=1", None, "2.0 2.0-final-1 2..1 latest")
        self.expect("The list is not valid.")
        assert self.marked("#a-errors") == [] and self.marked(".grows:has(#a) .under") == ["", "=>", "~=1"], self.marked(".grows:has(#a) .under")
        assert self.marked("#marks") == ["-final-1", "..1", "latest"], self.marked("#marks")
        assert self.run("return [document.getElementById('a').ariaInvalid, document.getElementById('v').ariaInvalid]") == ["true", "true"]
        self.run("document.querySelector('button[data-line=\"1\"]').click()")
        assert self.run("const it = document.activeElement; return it.value.slice(it.selectionStart, it.selectionEnd)") == "-final-1"
        self.wait(lambda: "lines are not a version" in self.text("live"))
        self.shot("errors")

    def test_two_lists(self):
        self.expect("7 of 15 versions match; the newest is 2.5.0.", ">=2.0, !=2.5.1", "<2.6, !=2.1.*")
        assert self.text("normal") == ">=2.0, !=2.1.*, !=2.5.1, <2.6"
        assert self.run("return document.querySelectorAll('svg .name').length") == 3
        self.shot("two-lists")
        self.open(">=2.0, !=2.5.1", "<2.6, !=2.1.*", look=(900, 704, False))
        self.shot("picture")

    def test_conflict(self):
        self.expect("Nothing satisfies both: >=2.4 and ~=2.2.1 exclude each other.", ">=2.4, <3", "~=2.2.1, !=2.2.5")
        self.shot("conflict")
        self.expect("Nothing satisfies the list: >=1 and !=1.* and !=2.* and <3 exclude each other.", ">=1, !=1.*, <3, !=2.1, !=2.*")
        self.open("<1, >2, >=3, <2")
        assert self.text("verdict").count(" and ") == 1, self.text("verdict")

    def test_prereleases(self):
        self.expect("3 of 4 versions match; the newest is 3.1a1.", ">=3.0rc1", None, "3.0rc1 3.0 3.1a1 2.0")
        self.expect("2 of 4 versions match; the newest is 3.2.dev1.", ">=3", None, "3.1a1 2.0 3.0rc1 3.2.dev1")
        self.expect("1 of 3 versions matches; the newest is 3.5.", ">=3", None, "3.1a1 3.5 2.0")
        self.expect("2 of 3 versions match; the newest is 3.6a1.", ">=3", None, "3.6a1 3.5 2.0", "1")

    def test_local_versions(self):
        # "Inclusive ordered comparison" and "Version matching": the local part of a candidate is ignored
        self.expect("3 of 8 versions match; the newest is 2.0+cu121.", ">1.0, <=2.0", None, "1.0 1.0.post1 1.0+cu118 1.5 2.0.dev3 2.0 2.0+cu121 2.0.post1")
        assert "1.0+cu118 | rejected by >1.0" in self.rows() and "1.0.post1 | rejected by >1.0" in self.rows()
        self.shot("local")

    def test_odd_lists(self):
        self.expect("1 of 3 versions matches; the newest is 1.0.", "===1.0", None, "1.0 1.0.0 1.0+a")
        self.expect("3 of 4 versions match; the newest is 1.0+a.", "==1.0", None, "1.0 1.0.0 1.0+a 1.1")
        self.expect("1 of 1 version matches; the newest is 1.0.", "", None, "1.0")
        self.expect("1 of 2 versions matches; the newest is 18446744073709551615.1.", "==18446744073709551615.*", None, "18446744073709551615.1 2")
        self.expect("6 of 20 versions match; the newest is 1.19.", ", ".join(f"!=1.{i}" for i in range(14)), "", " ".join(f"1.{i}" for i in range(20)))
        self.shot("holes")
        self.clear("v")
        self.expect("No versions to ask about yet.")
        self.shot("no-versions")

    def test_link(self):
        self.open()
        self.clear("a")
        self.browser.type("a", ">=2.4")
        self.run("document.getElementById('pre').click()")
        link = self.wait(lambda: (it := self.run("return location.hash")).endswith("pre=1") and it)
        self.browser.go(self.url + link)
        self.wait(lambda: self.run("return performance.getEntriesByName('ready').length"))
        assert self.run("return [document.getElementById('a').value, document.getElementById('pre').checked]") == [">=2.4", True]
        self.run("document.querySelector('nav a').click()")
        self.wait(lambda: self.text("verdict") == "8 of 15 versions match; the newest is 2.5.1.")
        self.run("history.back()")
        self.wait(lambda: self.run("return document.getElementById('a').value") == ">=2.4")

    def updated(self, name, script):
        """The milliseconds of the update that the script makes in a field."""
        self.run(f"const it = document.getElementById(arguments[0]); {script}; it.dispatchEvent(new Event('input', {{ bubbles: true }}))", name)
        return self.run("return performance.getEntriesByName('update')[0].duration")

    def test_many_versions(self):
        self.open()
        pasted = self.updated("v", "it.value = Array.from({ length: 10000 }, (_, i) => `${i % 50}.${i % 97}.${i}` + ['', '', '', 'rc1', '.post2', '.dev3', '+local'][i % 7]).join('\\n')")
        assert self.text("caption") == "The newest 60 of 10,000 versions", self.text("caption")
        texts = (">=2", ">=2.", ">=2.5", ">=2.5,", ">=2.5, <", ">=2.5, <3", ">=2.5, <30, !=7.*")
        steps = [min(self.updated("a", f"it.value = {text!r}") for _ in range(5)) for text in texts]
        lines = [min(self.updated("v", f"it.value += {text!r}") for _ in range(5)) for text in ("\n9", ".1", "\n1.2rc3", "4", "\n1.")]
        print(f"    10,000 versions: pasted {pasted:.0f} ms; a character of a list at most {max(steps):.1f} ms, of a version {max(lines):.1f}")
        assert max(steps) <= FRAME and max(lines) <= FRAME and pasted < LONG_PASTE, (steps, lines, pasted)
        self.run("document.getElementById('more').click()")
        assert len([it for it in self.rows() if not it.startswith("line ")]) == 560
        self.wait(lambda: self.run("return !document.getElementById('too-long').hidden"))
        self.shot("many")

    def test_first_answer(self):
        times = []
        for _ in range(10):
            self.open()
            times.append(self.run("return performance.getEntriesByName('ready')[0].startTime - performance.getEntriesByType('navigation')[0].responseEnd"))
        print(f"    first answer {min(times):.0f} ms after the page was loaded")
        assert min(times) < FIRST_ANSWER, times

    def test_phone_and_dark(self):
        for width in (360, 320) if isinstance(self.browser, Chromium) else (500,):
            for is_dark in (False, True):
                self.open(">=2.0, !=2.5.1", "<2.6, !=2.1.*", look=(width, 800, is_dark))
                assert self.run("return document.documentElement.scrollWidth <= innerWidth"), width
        self.shot("phone-dark")
        for look in ((1200, 900, False), (1200, 900, True)):
            for words in ((), (">=2.0,, =>3", None, "2.0 2..1"), (">=2.4", "<2.4")):
                self.open(*words, look=look)
                assert self.run(CONTRAST) == [], (look, words, self.run(CONTRAST))
        self.shot("dark")

    def test_turned(self):
        narrow = 390 if isinstance(self.browser, Chromium) else 500
        self.open(">=2.0, !=2.5.1", "<2.6, !=2.1.*", look=(1280, 900, False))
        self.run("window.told = []; addEventListener('error', ({ message }) => told.push(message))")
        for width, height in [(narrow, 844), (1280, 900)] * 3:
            self.looks = (width, height, False)
            self.browser.look(*self.looks)
            self.wait(lambda: self.run("const it = document.querySelector('svg'); return it.clientWidth === it.viewBox.baseVal.width && it.clientWidth <= innerWidth"))
            assert self.run("return [told, document.getElementById('broken').hidden]") == [[], True], (width, self.run("return told"), self.text("broken"))

    def test_accessible(self):
        self.open(">=2.0,=>", None, "1 x")
        fields = {"#a": "Specifiers", "#b": "Second list (optional: both must allow a version)", "#v": "Versions, one a line"}
        for css, name in fields.items():
            assert self.browser.accessible(css) == ("textbox", name), self.browser.accessible(css)
        assert self.browser.accessible("#pre") == ("checkbox", "Pre-releases match without being asked for")
        assert self.browser.accessible("nav") == ("navigation", "Examples")
        role, name = self.browser.accessible("svg")
        assert role in ("img", "image") and name.startswith("Number line."), (role, name)
        assert self.browser.accessible("table")[0] == "table" and self.browser.accessible("#rows th")[0] == "rowheader"
        assert self.browser.accessible("#live")[0] == "status"
        self.open()
        assert self.browser.accessible("svg")[1] == "Number line. from 2.2 to 2.5.dev0, left out; from 2.6.dev0 to 3.dev0, left out.", self.browser.accessible("svg")

    def test_keyboard(self):
        self.open(">=2.0", None, "1 x")
        self.run("document.getElementById('a').focus()")
        order = []
        for _ in range(10):
            order.append(self.run("const it = document.activeElement; return it.id || it.textContent.trim()"))
            self.browser.press(TAB)
        assert order == ["a", "b", "pre", "two lists", "conflict", "pre-release", "local", "errors", "v", "line 2"], order
        self.run("document.getElementById('a').focus()")
        self.browser.press("\ue007")
        assert self.run("return document.getElementById('a').value") == ">=2.0"

    def test_forbidden_bytes(self):
        self.open()
        self.updated("a", "it.value = '>=1\\ud800'")
        assert "not well-formed UTF-16" in self.text("a-errors"), self.text("a-errors")
        self.updated("v", "it.value = '<b>1</b>\\n1.0\\u{1f40d}\\n\\ud800'")
        assert self.rows()[0].startswith("line 1 <b>1</b> |") and self.rows()[1].startswith("line 2 1.0\U0001f40d | after parsing 1.0, found \U0001f40d"), self.rows()

    def test_no_complaints(self):
        assert not self.browser.complaints(), self.browser.complaints()

    def test_without_module(self):
        self.browser.go(self.url.replace(str(PORTS[0]), str(PORTS[1])))
        self.wait(lambda: self.run("return !document.getElementById('broken').hidden"))
        assert self.text("broken").startswith("The page could not start: ") and "404" in self.text("broken"), self.text("broken")


class Quiet(http.server.SimpleHTTPRequestHandler):
    def log_message(self, *_):
        pass


def run_in(browser, url):
    passed, failed = 0, 0
    tests = Tests(browser, url)
    for name in [it for it in vars(Tests) if it.startswith("test_")]:
        try:
            getattr(tests, name)()
            passed += 1
        except Exception:
            failed += 1
            print(f"{browser.name}: {name[5:]}: FAILED\n{traceback.format_exc(limit=-2)}")
    print(f"{browser.name}: {passed} passed, {failed} failed", flush=True)
    return passed, failed


def serve(folder):
    server = http.server.ThreadingHTTPServer(("127.0.0.1", 0), functools.partial(Quiet, directory=str(folder)))
    threading.Thread(target=server.serve_forever, daemon=True).start()
    PORTS.append(server.server_port)


def main():
    without = tempfile.TemporaryDirectory()
    shutil.copytree(PAGE, without.name, dirs_exist_ok=True, ignore=shutil.ignore_patterns("*.wasm"))
    serve(PAGE)
    serve(without.name)
    passed = failed = 0
    for kind in (Chromium, Firefox):
        browser = kind()
        try:
            found = run_in(browser, f"http://127.0.0.1:{PORTS[0]}/")
        finally:
            browser.close()
        passed, failed = passed + found[0], failed + found[1]
    print(f"{passed} passed, {failed} failed")
    return 1 if failed else 0


sys.exit(main())
