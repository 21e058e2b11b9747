"""What the page makes of a status, as HTML."""
import html.parser
import re
import time
import unittest
import urllib.parse

from pulse import PACE
from test_apply import CHARACTERS

import page
import page_parts

NOW = time.time()


def child_of(ident, state="running", why="", **more):
    runs = [["b", "1.2", 17, 1, "signal 9"]] if state == "running" else []
    return {"id": ident, "group": 0, "kind": "http", "restart": "permanent", "shutdown": "5000", "arg": "80", "place": "b", "runs": runs, "why": why or state, "restarts": 1, "last": "signal 9",
            "state": state, "by": None, "seconds": None, "health": "", "history": [["b", "1.1", 16, NOW - 90, NOW - 70, "signal 9"], ["b", "1.2", 17, NOW - 61, None, ""]], **more}


def status_of(*children, **more):
    counts = {}
    for child in children:
        counts[child["state"]] = counts.get(child["state"], 0) + 1
    machine = {"member": "open", "label": "x", "heard": 0.2, "how": "in touch", "hinders": "", "reasons": []}
    return page_parts.prepared({"name": "a", "groups": 1, "boot": "1", "node": "runs", "refused": {}, "machines": [{"name": name, **machine} for name in "ab"], "counts": counts, "names": [], "losers": [],
                                "ending": [], "children": list(children), **more})


class Elements(html.parser.HTMLParser):
    """The elements of a page, and its text."""

    def __init__(self, text):
        super().__init__()
        self.names, self.attributes, self.texts = [], [], []
        self.feed(text)

    def handle_starttag(self, tag, attributes):
        self.names.append(tag)
        self.attributes += [(tag, *one) for one in attributes]

    def handle_data(self, data):
        self.texts.append(data)


class Parts(unittest.TestCase):
    """What is made of a status."""

    def test_what_is_wrong_with_files_of_the_machine_is_told(self):
        faults = {"kinds": "what was read before goes on, since <x>: line 1", "logs": "lines of children aren't kept: no space"}
        texts = Elements(page_parts.overview(status_of(**faults), {})).texts
        for what, fault in faults.items():
            self.assertIn(f"a: {what}: {fault}", texts)

    def rows(self, status, **words):
        return re.findall(r'<a href="child\?id=([^"]*)"><code>', page_parts.children(status, words))

    def test_a_title_tells_trouble(self):
        status = status_of(child_of("x"), child_of("y", "waiting"), child_of("z", "stopping"))
        self.assertEqual(page_parts.title(status), "1 of 3 don't run - Sebrakt a")
        status["machines"][1]["member"], status["losers"] = "out", [{}]
        self.assertEqual(page_parts.title(status), "1 of 3 don't run, 1 of 2 machines not open, a command lost - Sebrakt a")
        self.assertEqual(page_parts.title(status_of(child_of("x"))), "all well - Sebrakt a")

    def test_trouble_stands_first_and_children_are_found_by_what_they_are(self):
        status = status_of(child_of("a"), child_of("b", "held back"), child_of("c", kind="nginx"), child_of("d", place="z", restarts=7), child_of("e", "begins"), names=["www (a,3) c on b"])
        self.assertEqual(self.rows(status), ["b", "e", "a", "c", "d"])
        self.assertEqual([self.rows(status, **words) for words in ({"find": "WWW"}, {"find": "nginx"}, {"find": "z"}, {"state": "held back"}, {"sort": "restarts"}, {"sort": "id", "find": "no"}, {"sort": "x"})],
                         [["c"], ["c"], ["d"], ["b"], ["d", "a", "b", "c", "e"], [], ["b", "e", "a", "c", "d"]])

    def test_of_many_children_a_hundred_are_shown_and_the_rest_is_a_step_away(self):
        status = status_of(*[child_of(f"x{number:04}") for number in range(9000)])
        whole = page_parts.overview(status, {})
        self.assertLess(len(whole), 300_000)
        self.assertIn("1 to 100 of 9000 <a href=\"./?from=100\">next</a>", whole)
        self.assertEqual(self.rows(status, **{"from": "8950"})[::49], ["x8950", "x8999"])
        for first in ("-1", "9000", "x", "9" * 50):
            self.assertEqual(self.rows(status, **{"from": first})[0], "x0000")
        began = time.thread_time()
        page_parts.overview(status, {"find": "x1"})
        self.assertLess(time.thread_time() - began, 0.5 * PACE)

    def test_a_refresh_and_odd_words_of_an_address_leave_no_trace_in_links(self):
        view = page.View(("127.0.0.1", 1), None, "key")
        view.look = lambda: setattr(view, "seen", status_of(*[child_of(f"x{number:03}") for number in range(250)]))
        for words in {"live": "1"}, {"path": "x", "said": "y", "live": "1"}:
            self.assertEqual(set(re.findall('href="([^"]*)"', view.part("/", words)[1])) & {"./?from=100", "./?state=running&amp;from=0"}, {"./?from=100", "./?state=running&amp;from=0"})
            view.made = {}

    def test_a_replace_is_asked_for_first(self):
        self.assertIn('data-ask="Replace &lt;x&gt;? Its run ends', page_parts.spec_form("k", "replace", child_of("<x>")))
        self.assertNotIn("data-ask", page_parts.spec_form("k", "start", {}))

    def test_reasons_runs_names_and_losers_are_shown(self):
        lost = {"table": "child", "key": "web", "dot": "(b,7)", "at": "b", "line": "start web kind=x", "by": "me@there", "whence": "h", "when": NOW}
        status = status_of(child_of("web", "waiting", "waits 2.5 s, 3 restarts, status 1", health="failing"), losers=[lost], names=["www (a,3) web on b", "old (a,4) gone-child gone"], ending=[["was", "b"]])
        status["machines"][1].update(member="draining", reasons=["draining, by me@there"])
        told = " ".join(Elements(page_parts.overview(status, {})).texts)
        for part in ("waits 2.5 s, 3 restarts, status 1", "failing", "www", "Of two commands the one that lost", "start web kind=x", "me@there", "old", "gone-child", "was", "draining, by me@there", "undrain"):
            self.assertIn(part, told)
        one = " ".join(Elements(page_parts.child_page(status, "web", ["line 1", "<b>line 2</b>"], [])).texts)
        for part in ("signal 9", "line 1\n<b>line 2</b>", time.strftime("%H:%M:%S", time.localtime(NOW - 90))):
            self.assertIn(part, one)

    def test_what_is_named_with_every_character_is_shown_and_is_no_markup(self):
        whole = "".join(CHARACTERS)
        names = [whole[:64], whole[64:], '<script>alert(1)</script>', '"><img/src=x/onerror=alert(1)>', "'onclick='x", "&lt;b&gt;", "javascript:x", "</code></td><td>", "--!>", "%22%3E", "x\"onfocus=x\""]
        lost = {"table": "child", "dot": "(b,7)", "at": "b", "whence": "h", "when": None}
        status = status_of(*[child_of(one, "waiting", one, kind=one, arg=one, last=one, health=one, history=[["b", "1.1", 1, NOW, NOW, one]]) for one in names],
                           names=[f"{one} (a,3) {one} on b" for one in names] + [f"{one} (a,3) nix{one} gone" for one in names], losers=[{**lost, "key": one, "line": one, "by": one} for one in names],
                           ending=[[one, "b"] for one in names], refused={one: 1 for one in names})
        for machine, one in zip(status["machines"], names[2:]):
            machine.update(label=one, reasons=[one], member=one, hinders=one)
        happened = [{"at": NOW, "what": "command", "machine": one, "line": one, "answer": one, "by": one, "whence": one} for one in names]
        plain = status_of(*[child_of("x", "waiting", "x", history=[["b", "1.1", 1, NOW, NOW, "x"]])] * len(names))
        known = set(Elements(page_parts.page("k", "t", page_parts.overview(plain, {}) + page_parts.child_page(plain, "x", ["x"], happened[:1]), "x",
                                             page_parts.filter_form({}) + page_parts.spec_form("k", "start", {}), page_parts.question("k", "x", "x"))).names) | {"h2", "pre"}
        for one in names:
            words = {"find": one, "sort": one, "state": one}
            made = page_parts.page("k", one, page_parts.overview(status, {}) + page_parts.overview(status, words) + page_parts.child_page(status, one, [one], happened), one,
                                   page_parts.filter_form(words) + page_parts.spec_form("k", "replace", child_of(one)), page_parts.question("k", "delete " + one, one))
            seen = Elements(made)
            self.assertEqual(set(seen.names) - known, set())
            self.assertEqual((seen.names.count("script"), seen.names.count("img")), (1, 0))
            self.assertEqual([name for _, name, _ in seen.attributes if name.startswith("on") or name == "style"], [])
            self.assertTrue(all(value.startswith(("/page.", "./", "child?")) or value in ("data:,", "do", "events") for _, name, value in seen.attributes if name in ("href", "src", "action")))
            self.assertIn(("button", "value", "delete " + one), seen.attributes)
            self.assertIn(("a", "href", "child?" + urllib.parse.urlencode({"id": one})), seen.attributes)


if __name__ == "__main__":
    unittest.main()
