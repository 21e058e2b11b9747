"""What an agent counts, as Prometheus reads it: its text, its port, and the example of alerts."""
import errno
import os
import re
import signal
import socket
import tempfile
import time
import unittest
import unittest.mock
import urllib.error
import urllib.request

from machines import OfMachines, free_ports
from pulse import bound, until

import client
import metrics

ALERTS = os.path.join(os.path.dirname(os.path.dirname(os.path.abspath(__file__))), "alerts.yml")
NAME = r"[a-z_]+"
LABELS = rf'\{{{NAME}="(?:[^"\\]|\\.)*"(?:,{NAME}="(?:[^"\\]|\\.)*")*\}}'
SAMPLE = re.compile(rf"({NAME})({LABELS})? (-?[0-9.]+(?:e[+-]?[0-9]+)?)")


def samples_of(text):
    """Of each sample its value. AssertionError where the text isn't as Prometheus wants it."""
    assert text.endswith("\n")
    samples, kinds, helped = {}, {}, []
    for line in text.splitlines():
        about = re.fullmatch(rf"# (HELP|TYPE) ({NAME}) (.+)", line)
        if about and about[1] == "TYPE":
            assert about[2] not in kinds and about[3] in ("counter", "gauge", "histogram"), line
            kinds[about[2]] = about[3]
        elif about:
            helped.append(about[2])
        else:
            sample = SAMPLE.fullmatch(line)
            assert sample, line
            family = next((name for name in (sample[1], re.sub("_(bucket|sum|count)$", "", sample[1])) if name in kinds), None)
            assert family and (sample[1] == family or kinds[family] == "histogram"), line
            assert (sample[1] + (sample[2] or "")) not in samples, line
            assert kinds[family] != "counter" or sample[1].endswith("_total"), line
            samples[sample[1] + (sample[2] or "")] = float(sample[3])
    assert helped == list(kinds)
    return samples


class Counted(unittest.TestCase):
    def test_a_histogram_counts_what_is_at_most_each_edge(self):
        one = metrics.Histogram()
        for seconds in (0.001, 0.003, 0.3, 99):
            one.note(seconds)
        self.assertEqual([value for _, _, value in one.rows()], [1, 2, 2, 2, 3, 3, 3, 4, 99.304, 4])

    def test_an_image_and_the_records_behind_it_are_told_apart(self):
        sizes = metrics.Sizes()
        with tempfile.TemporaryDirectory() as folder:
            path = os.path.join(folder, "image")
            self.assertIsNone(sizes.of(path))
            for content, told in ((b"{}", (2, 0)), (b'{"a":1}\n12 x\n', (7, 6)), (b'{"a":1}\n12 x\n34 y\n', (7, 11)), (b"{}", (2, 0))):
                with open(path + ".new", "wb") as file:
                    file.write(content)
                os.rename(path + ".new", path)
                self.assertEqual(sizes.of(path), told)

    def test_where_no_more_files_can_be_opened_the_rest_is_told(self):
        of_agent = metrics.Metrics(None)
        with unittest.mock.patch("builtins.open", side_effect=OSError(errno.EMFILE, "Too many open files")):
            few = of_agent.of_process()
        self.assertEqual(samples_of("\n".join(few) + "\n").keys(), {"process_cpu_seconds_total", "process_start_time_seconds"})
        self.assertEqual(len(samples_of("\n".join(of_agent.of_process()) + "\n")), 4)

    def test_a_label_with_odd_characters_stays_one(self):
        line = "refused" + metrics.labels_of({"why": 'a"b\\c\nd'}) + " 1"
        self.assertEqual(line, 'refused{why="a\\"b\\\\c\\nd"} 1')
        self.assertTrue(SAMPLE.fullmatch(line))

    def test_numbers_are_plain(self):
        self.assertEqual([metrics.number(value) for value in (0, 7, 0.25, 12345678, 1764567062.25, 1e-7)], ["0", "7", "0.25", "12345678", "1764567062.2", "1e-07"])


class AtAgents(OfMachines):
    def begun_two(self):
        self.ports = free_ports(2)
        machines = self.machines("ab")
        words = machines.words
        machines.words = lambda name: [*words(name), "--metrics", f"127.0.0.1:{self.ports['ab'.index(name)]}"]
        machines.begin_all()
        return machines

    def get(self, number=0, path="/metrics"):
        with urllib.request.urlopen(f"http://127.0.0.1:{self.ports[number]}{path}", timeout=10) as answer:
            self.assertEqual(answer.headers["Content-Type"], metrics.KIND)
            return answer.read().decode()

    def value(self, name, number=0):
        return samples_of(self.get(number)).get(name)

    def size_told(self):
        seen = samples_of(self.get())
        return seen['sebrakt_image_bytes{group="0"}'] + seen['sebrakt_journal_bytes{group="0"}']

    def test_it_tells_of_members_children_restarts_steps_images_and_refused_lines(self):
        machines = self.begun_two()
        machines.start("a", ["good", "secret-id"])
        machines.start("a", ["kindless"], kind="nix")
        until(20, lambda: (self.value('sebrakt_children{state="running"}'), self.value('sebrakt_children{state="kind missing"}')) == (2, 1), "all are counted")
        before = sum(self.value("sebrakt_restarts_total", number) for number in (0, 1))
        os.kill(machines.process("good"), signal.SIGKILL)
        until(10, lambda: sum(self.value("sebrakt_restarts_total", number) for number in (0, 1)) > before, "the restart is counted")
        with self.assertRaises(client.NoAnswer):
            client.ask(machines.address("a"), b"another secret, as long as it has to be", "members")
        until(10, lambda: self.value('sebrakt_refused_lines_total{why="wrong seal"}') == 1, "the refused line is counted")
        until(10, lambda: samples_of("\n".join(client.ask(machines.address("a"), machines.secret, "metrics")) + "\n").keys() == samples_of(self.get()).keys(), "who asks is told the same")
        until(10, lambda: self.size_told() == os.path.getsize(machines.path("a.image")), "the size of the image is told")
        text = self.get()
        seen = samples_of(text)
        self.assertEqual((seen['sebrakt_members{state="open"}'], seen["sebrakt_commands_total"], seen['sebrakt_node_up{group="0"}']), (2, 3, 1))
        self.assertTrue(seen["sebrakt_step_seconds_count"] > 5 and 0 < seen["sebrakt_step_seconds_sum"] < 60 and seen["process_resident_memory_bytes"] > 1e6)
        self.assertTrue(0 <= seen['sebrakt_machine_contact_seconds{machine="b"}'] < bound(5, time.monotonic()))
        self.assertNotIn("secret-id", text)
        holds = self.value("sebrakt_holds_total", 1)
        machines.agents["b"].send_signal(signal.SIGSTOP)
        until(20, lambda: self.value('sebrakt_members{state="out"}') == 1, "b is out")
        machines.agents["b"].send_signal(signal.SIGCONT)
        until(20, lambda: self.value("sebrakt_holds_total", 1) > holds and self.value("sebrakt_held_seconds_total", 1) > 0.7, "b knows that it was held")
        with open(ALERTS) as file:
            self.assertEqual({name for name in re.findall(r"sebrakt_[a-z_]+", file.read())} - {re.sub(r"\{.*", "", name) for name in seen}, set())

    def test_strangers_at_the_port_hold_nothing_up(self):
        machines, sockets = self.begun_two(), []
        for said in [b"", b"GET ", b"GET /metrics HTTP/1.1\r\nHost: x\r\n\r\n" * 50, b"x" * 100_000, b"\n\n\n", b"\xff\n\n", b"POST /metrics HTTP/1.0\r\n\r\n"] * 15:
            link = socket.create_connection(("127.0.0.1", self.ports[0]), 10)
            sockets.append(link)
            try:
                link.sendall(said)
            except OSError:
                pass
        began = time.monotonic()
        self.assertIn("sebrakt_members", self.get())
        for path in ("/", "/metricsx", "/metrics/"):
            with self.assertRaises(urllib.error.HTTPError) as fault:
                self.get(path=path)
            fault.exception.close()
            self.assertEqual(fault.exception.code, 404)
        self.assertEqual(machines.members("a"), ["a", "b"])
        self.assertLess(time.monotonic() - began, bound(5, began))
        for link in sockets:
            link.close()

    def test_a_port_that_is_taken_is_told(self):
        with socket.create_server(("127.0.0.1", 0)) as taken:
            machines = self.machines("a")
            words = machines.words
            machines.words = lambda name: [*words(name), "--metrics", f"127.0.0.1:{taken.getsockname()[1]}"]
            machines.begin("a")
            self.assertEqual(machines.wait("a"), 2)
        self.assertIn("Address already in use", machines.log("a"))


class Alerts(unittest.TestCase):
    def test_each_rule_says_when_and_what(self):
        with open(ALERTS) as file:
            rules = file.read().split("      - alert: ")[1:]
        self.assertGreater(len(rules), 8)
        for rule in rules:
            self.assertRegex(rule, r"(?s)^Sebrakt\w+\n        expr: .+\n(?:        for: \d+m\n)?        labels: \{severity: (page|ticket)\}\n        annotations: \{summary: \".+\"\}\n$")
            self.assertEqual([rule.count(one) for one in "([{"], [rule.count(one) for one in ")]}"])


if __name__ == "__main__":
    unittest.main()
