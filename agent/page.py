"""A page for people: an agent's view of machines and children as HTML, at the loopback, refreshed while one looks.

The page has a key of its own, made anew by each `serve` and told in its address. Without it nothing is shown but /metrics, and nothing is done. The
first load puts it into a cookie, so that it stands in no address. A browser tells a cookie to each port of a host, and any user may listen at one; so the
page has a place of its own, which nobody else knows, and the cookie is of that place alone. The key stands in every form, so that no other page in the same browser, and no other
user of the machine, gives commands. No script and no style stands in the page itself, so a name that looked like one would not be taken for one. The
secret of the cluster never leaves this process.
"""
import hashlib
import hmac
import http.cookies
import http.server
import json
import os
import secrets
import sys
import threading
import time
import urllib.parse

import asking
import client
import event_commands
import groups
import metrics
import page_parts
import refusals
import wanted

MOST_OF_A_FORM = 8192  # bytes
LONGEST_WAIT = 5       # seconds for an answer of the agent
GOOD_FOR = 1           # seconds for which what was made is shown again
MOST_MADE = 200        # parts that are kept for so long
EVENTS = 200           # that are shown
LINES = 20             # of a child that are shown
FOLDER = os.path.dirname(os.path.abspath(__file__))
FILES = {"/page.css": "text/css", "/page.js": "text/javascript"}
ASKED = {"delete": "Delete {}? Its run ends, and it is kept no more.", "drain": "Drain {}? Its children run elsewhere then.",
         "leave": "Take {} back?", "restart": "Restart {}? Its run ends, and a new one begins."}
VERBS = {*ASKED, "start", "replace"}
CHOOSE = ("find", "state", "sort", "from", "id")  # words of an address that choose what is shown
HEADERS = (("Cache-Control", "no-store"), ("X-Content-Type-Options", "nosniff"), ("X-Frame-Options", "DENY"), ("Referrer-Policy", "no-referrer"), (
    "Content-Security-Policy", "default-src 'none'; script-src 'self'; style-src 'self'; connect-src 'self'; img-src data:; form-action 'self'; base-uri 'none'; frame-ancestors 'none'"))


class View:
    """What the page shows and does, for one agent and one key."""

    def __init__(self, address, secret, key):
        self.address, self.secret, self.key, self.cookie = address, secret, key, "sebrakt-" + hashlib.sha256(key.encode()).hexdigest()[:8]
        self.place = f"/{hashlib.sha256(b'place ' + key.encode()).hexdigest()[:32]}/"
        self.lock, self.made, self.made_at, self.seen, self.fault = threading.Lock(), {}, float("-inf"), None, None

    def part(self, path, words):
        """(title, what changes) of a page, made at most once a second for all browsers that ask for it, and anew once something was done. NoAnswer."""
        words = {name: value for name, value in words.items() if name in CHOOSE}  # what is made stands in links, too
        asked = path, *sorted(words.items())
        with self.lock:
            if time.monotonic() - self.made_at >= GOOD_FOR:
                self.look()
            if self.fault:
                raise self.fault
            if asked not in self.made and len(self.made) < MOST_MADE:
                self.made[asked] = self.make(path, words)
            return self.made.get(asked) or self.make(path, words)

    def look(self):
        """Asks the agent. That it doesn't answer is told as long as what it answers."""
        self.made, self.fault = {}, None
        try:
            self.seen = page_parts.prepared(client.status(self.address, self.secret, LONGEST_WAIT))
        except client.NoAnswer as none:
            self.fault = none
        self.made_at = time.monotonic()

    def make(self, path, words):
        said = page_parts.title(self.seen)
        if path == "/events":
            return said, page_parts.happenings(self.events(words.get("id"), EVENTS))
        if path == "/child":
            ident = words.get("id", "")
            return f"{ident}: {said}", page_parts.child_page(self.seen, ident, self.log(ident), self.events(ident, 20))
        return said, page_parts.overview(self.seen, words)

    def events(self, about, most):
        try:
            told = json.loads("".join(client.ask(self.address, self.secret, "events", LONGEST_WAIT)))["events"]
        except (ValueError, KeyError):
            return []
        return [event for event in told if event_commands.is_about(event, about)][-most:]

    def log(self, ident):
        """The last lines that a child has printed; none where nobody keeps them."""
        try:
            return json.loads("".join(client.ask(self.address, self.secret, f"logs {ident} {LINES} - -", LONGEST_WAIT))).get("lines", [])
        except (ValueError, client.NoAnswer):
            return []

    def page(self, path, words, told=""):
        said, live = self.part(path, words)
        child = next((child for child in self.seen["children"] if child["id"] == words.get("id")), None) if path == "/child" else None
        before = page_parts.spec_form(self.key, "start", {}) + page_parts.filter_form(words) if path == "/" else ""
        return page_parts.page(self.key, said, live, told, before, page_parts.spec_form(self.key, "replace", child) if child else "")

    # -- what is done

    def do(self, form):
        """Does what a form asks for. What was answered."""
        verb, _, what = form.pop("do", f"{form.get('verb', '')} {form.get('id', '')}").partition(" ")
        if verb not in VERBS or not what or " " in "".join([what, *form.values()]):
            return "no such command: words have no spaces"
        try:
            line = self.line(verb, what, form)
            told = client.ask(self.address, self.secret, line, LONGEST_WAIT)
            self.made_at = float("-inf")
            answer = ", ".join(dict.fromkeys(groups.first_lines(told)))
            return f"{line}: {answer}" + ("" if groups.is_done(told) else "\n" + refusals.words_of(line, answer)[0])
        except client.NoAnswer as none:
            return f"{verb} {what}: {none}"
        except (wanted.NotShown, KeyError) as fault:
            return f"{verb} {what}: {'there is no such child' if isinstance(fault, KeyError) else fault}"

    def line(self, verb, what, form):
        """The node's line. A restart is a replace by the same. KeyError where there is no child to restart."""
        if verb == "restart":
            return asking.Agent(self.address, self.secret, "", LONGEST_WAIT, 0).tables().children[what].line("replace")
        options = [f"{key}={form[key]}" for key in ("kind", "arg", "restart", "shutdown") if form.get(key)] if verb in ("start", "replace") else []
        return " ".join([verb, what, *options])


class Handler(http.server.BaseHTTPRequestHandler):
    timeout = 10

    def do_GET(self):
        path, _, query = self.path.partition("?")
        words, view = fields(query), self.server.view
        if not self.is_own_host():
            self.answer(403, "text/plain", "this page is asked for at 127.0.0.1 or localhost")
        elif path in FILES:
            with open(FOLDER + path, encoding="utf-8") as file:
                self.answer(200, FILES[path], file.read())
        elif path == "/metrics":
            self.try_to(lambda: self.answer(200, metrics.KIND, "\n".join(client.ask(view.address, view.secret, "metrics", LONGEST_WAIT)) + "\n"))
        elif self.has_key(words.get("key", "")):  # from now on it stands in no address
            self.answer(303, "text/plain", "", ("Location", view.place), ("Set-Cookie", f"{view.cookie}={view.key}; HttpOnly; SameSite=Lax; Path={view.place}"))
        elif not self.has_cookie():
            self.answer(403, "text/plain", "this page has a key, told by `agent.py serve`")
        elif path in (view.place, view.place + "child", view.place + "events"):
            self.try_to(lambda: self.show("/" + path[len(view.place):], words))
        else:
            self.answer(404, "text/plain", "no such page")

    def try_to(self, show):
        try:
            show()
        except client.NoAnswer as none:
            self.answer(503, "text/plain", f"The agent doesn't answer: {none}")

    def show(self, path, words):
        if words.get("live"):
            said, live = self.server.view.part(path, words)
            self.answer(200, "text/html", live, ("X-Title", urllib.parse.quote(said)))
        else:
            self.answer(200, "text/html", self.server.view.page(path, words))

    def do_POST(self):
        size = self.headers.get("Content-Length", "")
        if not size.isdecimal() or int(size) > MOST_OF_A_FORM or self.path not in ("/do", self.server.view.place + "do"):
            self.answer(400, "text/plain", "no such form")
            return
        form, view = fields(self.rfile.read(int(size)).decode("ascii", "replace")), self.server.view
        if not self.is_own_host() or not self.has_key(form.pop("key", "")):
            self.answer(403, "text/plain", "without the page's key nothing is done")
            return
        is_live, is_sure = form.pop("live", ""), form.pop("sure", "")
        verb, _, what = form.get("do", "").partition(" ")
        if verb in ASKED and not is_sure:
            self.answer(200, "text/html", page_parts.page(view.key, "Sebrakt asks", page_parts.question(view.key, form["do"], ASKED[verb].format(what))))
            return
        told = view.do(form)
        if is_live:
            self.answer(200, "text/plain", told)
        else:
            self.try_to(lambda: self.answer(200, "text/html", view.page("/", {}, told)))

    def is_own_host(self):
        """Whether the page was asked for by its own address: a name of another host may lead here, too."""
        return self.headers.get("Host", "").rsplit(":", 1)[0] in ("127.0.0.1", "localhost")

    def has_key(self, key):
        return hmac.compare_digest(key.encode("utf-8"), self.server.view.key.encode())

    def has_cookie(self):
        try:
            known = http.cookies.SimpleCookie(self.headers.get("Cookie", "")).get(self.server.view.cookie)
        except http.cookies.CookieError:
            return False
        return known is not None and self.has_key(known.value)

    def answer(self, status, kind, content, *more):
        data = content.encode("utf-8")
        self.send_response(status)
        for name, value in (("Content-Type", kind if "charset" in kind else kind + "; charset=utf-8"), ("Content-Length", str(len(data))), *HEADERS, *more):
            self.send_header(name, value)
        self.end_headers()
        self.wfile.write(data)

    def log_message(self, *_):
        pass


class Server(http.server.ThreadingHTTPServer):
    request_queue_size = 128  # browsers that come at once

    def handle_error(self, request, address):
        """A browser that has gone away is no fault."""
        if not isinstance(sys.exc_info()[1], OSError):
            super().handle_error(request, address)


def fields(query):
    try:
        return {name: values[-1] for name, values in urllib.parse.parse_qs(query, max_num_fields=20, keep_blank_values=True).items()}
    except ValueError:
        return {}


def server_at(port):
    try:
        return Server(("127.0.0.1", port), Handler)
    except OSError as fault:
        raise client.NoAnswer(f"port {port}: {fault.strerror}") from None


def serve(address, secret, port, wait=0):
    """Serves the page until it is interrupted. NoAnswer where no agent is at the address within `wait` seconds, or the port can't be had."""
    client.through = "the page"
    client.status(address, secret, wait=wait)
    with server_at(port) as server:
        server.view = View(address, secret, secrets.token_urlsafe(24))
        print(f"http://127.0.0.1:{server.server_address[1]}/?key={server.view.key}", flush=True)
        try:
            server.serve_forever()
        except KeyboardInterrupt:
            print("no longer served", file=sys.stderr)
