"""The page: what it shows, what its forms do, and that nothing is done without its key. With $SCREENSHOT, a path, it is also looked at in Chromium."""
import http.client
import http.server
import os
import re
import shutil
import signal
import subprocess
import sys
import threading
import time
import unittest
import unittest.mock
import urllib.parse

from machines import AGENT, SECRET, Machines, begin, end_process
from pulse import bound, until

import page

SCREENSHOT = os.environ.get("SCREENSHOT")


class Page(unittest.TestCase):
    """At three real agents."""

    @classmethod
    def setUpClass(cls):
        cls.machines = Machines(["a", "b", "c"])
        cls.addClassCleanup(cls.machines.end)
        cls.machines.begin_all()
        cls.machines.start("a", ["web", "queue", "mail"])
        until(20, lambda: cls.machines.each_once(["web", "queue", "mail"]), "all run")
        cls.page = begin([sys.executable, AGENT, "serve", f"127.0.0.1:{cls.machines.ports['a']}", "--port", "0", "--secret", cls.machines.path("secret")], stdout=subprocess.PIPE, text=True)
        cls.addClassCleanup(cls.page.stdout.close)
        cls.addClassCleanup(end_process, cls.page)
        cls.url = cls.page.stdout.readline().strip()
        port, cls.key = re.fullmatch(r"http://127\.0\.0\.1:(\d+)/\?key=(\S+)", cls.url).groups()
        cls.port = int(port)
        first = cls.ask("GET", "/?key=" + cls.key).headers
        cls.cookie, cls.place = first["Set-Cookie"].split(";")[0], first["Location"]

    @classmethod
    def ask(cls, method, path, body=None, **headers):
        link = http.client.HTTPConnection("127.0.0.1", cls.port, timeout=20)
        try:
            link.request(method, path, body, headers)
            answer = link.getresponse()
            answer.text = answer.read().decode()
            return answer
        finally:
            link.close()

    def get(self, path=""):
        answer = self.ask("GET", self.place + path, Cookie=self.cookie)
        self.assertEqual(answer.status, 200, answer.text)
        return answer.text

    def post(self, **form):
        return self.ask("POST", self.place + "do", urllib.parse.urlencode({"live": "1", **form})).text

    def test_the_key_goes_out_of_the_address_into_a_cookie(self):
        answer = self.ask("GET", "/?key=" + self.key)
        self.assertEqual(answer.status, 303)
        self.assertRegex(answer.headers["Set-Cookie"], r"^sebrakt-[0-9a-f]{8}=\S+; HttpOnly; SameSite=Lax; Path=" + answer.headers["Location"] + "$")
        shown = self.get()
        self.assertEqual(re.findall(r'(?:href|src|action)="[^"]*' + self.key, shown), [])

    def test_the_cookie_is_of_a_place_that_nobody_else_knows(self):
        """A browser tells a cookie of `/` to each port of the host, where another user may listen."""
        self.assertRegex(self.place, "^/[0-9a-f]{32}/$")
        self.assertNotIn(self.place.strip("/"), self.ask("GET", "/").text + self.ask("GET", "/page.js").text)
        self.assertEqual(self.ask("GET", "/", Cookie=self.cookie).status, 404)

    def test_each_answer_says_what_a_browser_may_do(self):
        for path in (self.place, self.place + "child?id=web", self.place + "events", "/", "/page.css", "/page.js", "/metrics", "/nix", "/?key=x"):
            answer = self.ask("GET", path, Cookie=self.cookie)
            policy = answer.headers["Content-Security-Policy"]
            self.assertIn("default-src 'none'; script-src 'self'; style-src 'self'", policy)
            self.assertNotIn("unsafe", policy)
            self.assertEqual((answer.headers["X-Frame-Options"], answer.headers["X-Content-Type-Options"], answer.headers["Cache-Control"]), ("DENY", "nosniff", "no-store"))
        self.assertEqual(self.ask("GET", "/page.js").headers["Content-Type"], "text/javascript; charset=utf-8")

    def test_without_its_key_nothing_is_shown_and_nothing_done(self):
        tables, name = self.machines.tables("a"), self.cookie.split("=")[0]
        for path in ("/", self.place, "/?key=x", self.place + "child?id=web", self.place + "events?live=1", "/nix"):
            for headers in ({}, {"Cookie": name + "=x"}, {"Cookie": name + "="}, {"Cookie": "x=" + self.key}, {"Cookie": "; ; =\"" + self.key}, {"Cookie": self.cookie, "Host": "evil.example"}):
                self.assertEqual(self.ask("GET", path, **headers).status, 403, (path, headers))
        for key in ({}, {"key": "x"}, {"key": self.key[:-1]}, {"key": "\u00e9"}):
            for headers in ({}, {"Cookie": self.cookie}):
                self.assertEqual(self.ask("POST", "/do", urllib.parse.urlencode({"do": "delete web", "sure": "yes", **key}), **headers).status, 403)
        self.assertEqual(self.ask("POST", "/do", urllib.parse.urlencode({"do": "delete web", "sure": "yes", "key": self.key}), Host="evil.example").status, 403)
        for path, body in ("/", "x"), ("/do", "x" * 9000), ("/done", "key=" + self.key):
            self.assertEqual(self.ask("POST", path, body).status, 400)
        self.assertEqual(self.machines.tables("a"), tables)

    def test_metrics_need_no_key_and_tell_no_id(self):
        until(20, lambda: 'sebrakt_members{state="open"} 3' in self.ask("GET", "/metrics").text, "all are open")
        self.assertNotIn("queue", self.ask("GET", "/metrics").text)

    def test_children_are_shown_with_place_run_restarts_and_last_exit(self):
        os.kill(self.machines.process("web"), signal.SIGKILL)
        until(10, lambda: re.search(r"<b class=\"good\">running</b>.*", self.get("?find=web")) and "signal 9" in self.get("?find=web"), "the exit is shown")
        until(10, lambda: self.machines.each_once(["web", "queue", "mail"]), "each runs")
        place = self.machines.where(["web"])["web"]
        until(10, lambda: re.search(rf"<code>{place}</code> <span class=\"quiet\">run [0-9.]+, process {self.machines.process('web')}, for ", self.get("?find=web")), "its run is shown")
        until(10, lambda: re.search(r"signal 9.*began on", self.get("child?id=web"), re.DOTALL), "its runs and what has happened are shown")
        until(10, lambda: "web ended on" in self.get("events?id=web"), "and among the events")

    def test_the_last_lines_of_a_child_are_on_its_page(self):
        self.machines.start("a", ["talker"], kind="talks", arg="x")
        until(20, lambda: "&lt;b&gt;&amp;" in self.get("child?id=talker"), "they are shown")
        lines = re.search("<pre>(.*)</pre>", self.get("child?id=talker"), re.DOTALL)[1].split("\n")
        self.assertEqual([line.split(" ")[-1] for line in lines], [*map(str, range(112, 131)), "&lt;b&gt;&amp;"])
        self.machines.ask("a", "delete talker")
        until(20, lambda: "talker" not in self.get(), "it is gone")

    def test_a_child_that_waits_says_why_and_the_title_tells_it(self):
        self.machines.start("a", ["bad"], kind="bad")
        until(20, lambda: re.search(r"waits [\d.]+ s, \d+ restarts, status 1", self.get()), "it is shown")
        until(20, lambda: "don't run - Sebrakt a" in urllib.parse.unquote(self.ask("GET", self.place + "?live=1", Cookie=self.cookie).headers["X-Title"]), "the title tells it, whenever it waits")
        self.assertTrue(self.ask("GET", self.place + "?live=1", Cookie=self.cookie).text.startswith("<p"))
        self.post(key=self.key, do="delete bad", sure="yes")

    def test_forms_start_replace_restart_drain_and_delete(self):
        self.assertIn("ok (a,", self.post(key=self.key, verb="start", id="one", kind="sleep", arg="1000"))
        until(10, lambda: self.machines.each_once(["one"]), "it runs")
        self.assertIn("refused 4 AlreadyPresent\nthere is a child one already", self.post(key=self.key, verb="start", id="one", kind="sleep"))
        before = self.machines.process("one")
        self.assertIn("ok (a,", self.post(key=self.key, do="restart one", sure="yes"))
        until(10, lambda: self.machines.each_once(["one"]) and self.machines.process("one") != before, "it is another run")
        self.assertIn("ok (a,", self.post(key=self.key, verb="replace", id="one", kind="sleep", arg="2000", restart="transient", shutdown="100"))
        self.assertEqual([self.machines.child("a", "one")[key] for key in ("kind", "arg", "restart", "shutdown")], ["sleep", "2000", "transient", "100"])
        self.assertIn("ok removed", self.post(key=self.key, do="delete one", sure="yes"))
        until(10, lambda: not self.machines.watcher.now()[1].get("one"), "it has ended")
        self.assertIn("there is no such child", self.post(key=self.key, do="restart one", sure="yes"))
        self.assertIn("ok (a,", self.post(key=self.key, do="drain b", sure="yes"))
        until(10, lambda: "draining, by" in self.get(), "b is draining")
        self.assertIn("ok removed", self.post(key=self.key, do="leave b", sure="yes"))
        until(20, lambda: {one["member"] for one in self.machines.status("a")["machines"]} == {"open"} and self.machines.each_once(["web", "queue", "mail"]), "b has joined again")
        for form in ({"verb": "start", "id": "x arg=y"}, {"do": "exit web"}, {"do": "delete"}, {"do": "delete a b"}, {"verb": "start"}, {"do": "start x kind=sleep"}, {}):
            self.assertIn("no such command", self.post(key=self.key, sure="yes", **form))
        told = [event for _, event in sorted((event["at"], event["line"]) for event in page.View(self.machines.address("a"), SECRET, "k").events(None, 99) if event["what"] == "command" and "one" in event["line"])]
        self.assertTrue(told)

    def test_what_ends_something_is_asked_for_first(self):
        for do in ("delete web", "drain b", "restart web", "leave b"):
            asked = self.ask("POST", "/do", urllib.parse.urlencode({"key": self.key, "do": do})).text
            self.assertIn(f'<button name="do" value="{do}">yes</button>', asked)
        self.assertIn("web", [child["id"] for child in self.machines.status("a")["children"]])
        for asked in ("Delete web?", "Restart web?", "Drain b?"):
            until(20, lambda: f'data-ask="{asked}' in self.get(), asked)

    def test_what_is_shown_is_made_once_a_second_for_fifty_browsers(self):
        view, made = page.View(self.machines.address("a"), SECRET, "key"), []
        look = view.look
        view.look = lambda: made.append(1) or look()
        with page.Server(("127.0.0.1", 0), page.Handler) as server:
            server.view = view
            threading.Thread(target=server.serve_forever, daemon=True).start()
            slowest, shown, began = [], [], time.monotonic()

            def browse():
                for _ in range(5):
                    asked, link = time.monotonic(), http.client.HTTPConnection("127.0.0.1", server.server_address[1], timeout=30)
                    link.request("GET", view.place + "?live=1", headers={"Cookie": f"{view.cookie}=key"})
                    shown.append(b"<code>queue</code>" in link.getresponse().read())
                    link.close()
                    slowest.append(time.monotonic() - asked)
            browsers = [threading.Thread(target=browse) for _ in range(50)]
            for browser in browsers:
                browser.start()
            for browser in browsers:
                browser.join()
            server.shutdown()
        self.assertEqual((len(slowest), shown), (250, [True] * 250))
        self.assertLess(max(slowest), bound(5, began))
        self.assertLessEqual(len(made), 2 + (time.monotonic() - began) / page.GOOD_FOR)
        self.assertEqual({one["member"] for one in self.machines.status("b")["machines"]}, {"open"})
        self.assertIn("ok (a,", view.do({"verb": "start", "id": "now", "kind": "sleep", "arg": "1000"}))
        self.assertIn("<code>now</code>", view.part("/", {})[1])
        view.do({"do": "delete now"})

    def test_a_port_that_another_one_has_is_told(self):
        said = subprocess.run([sys.executable, AGENT, "serve", f"127.0.0.1:{self.machines.ports['a']}", "--port", str(self.port), "--secret", self.machines.path("secret")],
                              stdout=subprocess.PIPE, stderr=subprocess.PIPE, text=True, timeout=60)
        self.assertEqual((said.returncode, said.stdout), (1, ""))
        self.assertTrue(said.stderr.endswith(f"port {self.port}: Address already in use\n"), said.stderr)

    def test_an_agent_that_is_away_is_told_at_once_to_all(self):
        view = page.View(("127.0.0.1", 9), SECRET, "key")
        for _ in range(3):
            with self.assertRaises(page.client.NoAnswer):
                view.part("/", {})
        self.assertIn("Connection refused", view.do({"do": "delete x"}))

    @unittest.skipUnless(shutil.which("chromium"), "chromium")
    def test_a_browser_shows_it_and_refreshes_it_and_runs_nothing_that_is_named(self):
        self.machines.ask("a", 'start <img/src=x/onerror=document.title="bad"> kind=sleep arg=<script>document.title="bad"</script>')
        view, calls = page.View(self.machines.address("a"), SECRET, "key"), []
        shown = view.part

        def part(path, words):
            calls.append(path)
            if len(calls) == 2:  # what is begun once the page is there is seen by its refresh alone
                self.machines.start("a", ["cache"])
                until(10, lambda: self.machines.each_once(["web", "queue", "mail", "cache"]), "all run")
            return shown(path, words)
        view.part = part
        with unittest.mock.patch.object(page, "GOOD_FOR", 0), page.Server(("127.0.0.1", 0), page.Handler) as server:
            server.view = view
            threading.Thread(target=server.serve_forever, daemon=True).start()
            seen = self.browse(f"http://127.0.0.1:{server.server_address[1]}/?key=key", "--dump-dom")
            server.shutdown()
        self.assertGreater(len(calls), 2)
        self.assertIn("<code>cache</code>", seen)
        self.assertRegex(seen, "<title>[^<]*Sebrakt a</title>")
        self.assertIn("&lt;img/src=x/onerror", seen)
        self.machines.ask("a", 'delete <img/src=x/onerror=document.title="bad">')
        self.machines.ask("a", "delete cache")
        if SCREENSHOT:
            self.machines.start("a", ["api"], kind="http")
            self.machines.ask("a", "register www web")
            time.sleep(8)
            self.browse(self.url, "--screenshot=" + SCREENSHOT)
            self.assertGreater(os.path.getsize(SCREENSHOT), 10000)

    def browse(self, url, what):
        words = ["chromium", "--headless=new", "--no-sandbox", "--disable-gpu", "--hide-scrollbars", "--window-size=1250,800",
                 "--user-data-dir=" + self.machines.path("browser"), "--virtual-time-budget=2500", what, url]
        return subprocess.run(words, check=True, timeout=180, stdout=subprocess.PIPE, stderr=subprocess.DEVNULL, text=True).stdout


if __name__ == "__main__":
    unittest.main()
