"""The console in a headless browser: status, a call, rows, an error, orders that end."""
import base64
import contextlib
import json
import os
import shutil
import subprocess
import unittest
import urllib.error
import urllib.request

from etcd_nodes import free_port
from fixtures import LONG, ROOT, ServerTest, until

ELEMENT = "element-6066-11e4-a52e-4f735466cecf"  # the key of an element's reference (W3C WebDriver)
THERE = bool(shutil.which("chromedriver") and shutil.which("chromium"))


class Browser:
    """A headless browser, by the WebDriver protocol."""

    def __init__(self, folder):
        self.port = free_port()
        self.driver = subprocess.Popen(["chromedriver", f"--port={self.port}"], stdout=subprocess.DEVNULL, stderr=subprocess.DEVNULL, env={**os.environ, "HOME": folder})
        until(self.answers)
        options = ["--headless=new", "--no-sandbox", "--disable-gpu", "--disable-dev-shm-usage", "--window-size=1100,1000", "--force-prefers-reduced-motion"]
        wanted = {"capabilities": {"alwaysMatch": {"browserName": "chrome", "goog:chromeOptions": {"args": options, "binary": "/usr/bin/chromium"}}}}
        self.session = self.ask("POST", "/session", wanted)["sessionId"]

    def answers(self):
        with contextlib.suppress(OSError):
            return self.ask("GET", "/status")["ready"]

    def ask(self, method, path, body=None):
        raw = None if body is None else json.dumps(body).encode()
        asked = urllib.request.Request(f"http://127.0.0.1:{self.port}{path}", raw, {"Content-Type": "application/json"}, method=method)
        with urllib.request.urlopen(asked, timeout=LONG) as answer:
            return json.load(answer)["value"]

    def do(self, method, path, body=None):
        return self.ask(method, f"/session/{self.session}{path}", body)

    def found(self, css):
        with contextlib.suppress(urllib.error.HTTPError):  # it isn't there yet
            return self.do("POST", "/element", {"using": "css selector", "value": css})[ELEMENT]

    def find(self, css):
        return until(lambda: self.found(css))

    def text(self, css):
        with contextlib.suppress(urllib.error.HTTPError):  # it is drawn anew
            if element := self.found(css):
                return self.do("GET", f"/element/{element}/text")
        return ""

    def click(self, css):
        self.do("POST", f"/element/{self.find(css)}/click", {})

    def fill(self, css, text):
        element = self.find(css)
        self.do("POST", f"/element/{element}/clear", {})
        self.do("POST", f"/element/{element}/value", {"text": text})

    def choose(self, css, value):
        self.click(f'{css} option[value="{value}"]')

    def close(self):
        with contextlib.suppress(OSError):
            self.do("DELETE", "")
        self.driver.kill()
        self.driver.wait()


@unittest.skipUnless(THERE, "no browser is here (apt-get install chromium chromium-driver)")
class Console(ServerTest):
    def test_a_person_looks_and_calls(self):
        with open(f"{ROOT}/examples/ledger/settings") as file:
            self.settings(file.read())
        token, hashed = (it.split()[1] for it in self.client("token")[1])
        with open(f"{self.folder}/roles", "w") as file:
            json.dump({"roles": [{"name": "clerk", "tokens": [hashed], "call": ["*"], "rights": ["rows"]}]}, file)
        web = free_port()
        more = ["--http", f"127.0.0.1:{web}", "--layout", f"{ROOT}/examples/ledger/layout.json", "--roles", f"{self.folder}/roles"]
        more += ["--keep", "0s"]
        server = self.serve("ledger", *more).begun()
        browser = Browser(self.folder)
        self.addCleanup(browser.close)
        browser.do("POST", "/url", {"url": f"http://127.0.0.1:{web}/"})
        until(lambda: browser.text("#state") == "ready")
        self.assertIn("position", browser.text("#now"))
        browser.choose("#procedure", "open")
        # nobody may call without a token
        browser.fill("#fields input", "7")
        browser.click("#call button")
        until(lambda: "may not do this" in browser.text("#answers li"))
        browser.fill("#token", token)
        for amount, answer in (("", "committed"), ("", "cancelled: ACCOUNT_EXISTS")):
            browser.click("#call button")
            until(lambda: answer in browser.text("#answers li"))
        browser.choose("#procedure", "deposit")
        browser.fill('#fields input[data-field="account"]', "7")
        browser.fill('#fields input[data-field="amount"]', "5000")
        browser.fill('#fields input[data-field="day"]', "1")
        browser.click("#call button")
        until(lambda: "deposit: committed" in browser.text("#answers li"))
        browser.fill('#fields input[data-field="amount"]', "much")
        browser.click("#call button")
        until(lambda: "no number" in browser.text("#answers li"))
        browser.click("#scan button")
        until(lambda: "5000" in browser.text("#rows") or "fault L2" in browser.text("#rows-said"))
        until(lambda: browser.text("#per-second") != "")
        self.look_at_orders(browser, server)
        picture = base64.b64decode(browser.do("GET", "/screenshot"))
        self.assertTrue(picture.startswith(b"\x89PNG"))
        if path := os.environ.get("SCREENSHOT"):
            with open(path, "wb") as file:
                file.write(picture)
        server.kill()
        self.lose_a_session(browser, lambda: self.serve("ledger", *more).begun())

    def look_at_orders(self, browser, server):
        """Ends two orders. The page's session does nothing in the second, and is closed: the page begins another one."""
        head = "order first position last position"
        self.assertEqual(browser.text("#orders").splitlines(), [head, "1 1 goes on"])
        # behind the first string: the page's session, `open` and `deposit`
        for how, shown in (((), ["2 5 goes on", "1 1 4"]), (("--idle",), ["3 6 goes on", "2 5 5", "1 1 4"])):
            self.assertEqual(self.client("roll", "--at", server.data, *how)[0], 0)
            until(lambda: browser.text("#orders").splitlines() == [head, *shown])
        browser.fill('#fields input[data-field="amount"]', "300")
        browser.click("#call button")
        # behind the third order's first string and the other session
        until(lambda: browser.text("#answers li") == "deposit: committed 8, reply 0")
        browser.click("#scan button")
        until(lambda: "5300" in browser.text("#rows"))

    def lose_a_session(self, browser, start):
        """Calls where no server is, and again where the page's session was closed meanwhile: it committed in the order before."""
        browser.click("#call button")
        until(lambda: "no answer" in browser.text("#answers li"))
        server = start()
        for _ in range(2):
            self.assertEqual(self.client("roll", "--at", server.data, "--idle")[0], 0)
        browser.click("#call button")
        until(lambda: "may have been done before; a new session begins" in browser.text("#answers li"))
        browser.click("#call button")
        until(lambda: browser.text("#answers li").startswith("deposit: committed "))
