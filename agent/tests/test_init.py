"""How a machine is made one of a cluster: the files that `sebrakt init` makes, and how an agent reads them."""
import os
import pathlib
import re
import shutil
import subprocess
import sys
import tempfile
import unittest

from fake_agent import COMMAND
from machines import SUPD, begin, end_process, free_ports
from pulse import until

import conf
import init
import options
import seals


class OfFolder(unittest.TestCase):
    def setUp(self):
        self.folder = tempfile.mkdtemp(prefix="sebrakt-init-")
        self.addCleanup(shutil.rmtree, self.folder)

    def path(self, *names):
        return os.path.join(self.folder, *names)

    def init(self, name, *words, status=0):
        """What `init` prints for a machine whose files are in a folder of its name."""
        words = ["init", "--name", name, "--folder", self.path(name, "etc"), "--state", self.path(name, "var"), "--supd", SUPD, *words]
        done = subprocess.run([sys.executable, COMMAND, *words], capture_output=True, text=True, timeout=60)
        self.assertNotIn("Traceback", done.stderr)
        self.assertEqual(done.returncode, status, done)
        return done.stdout + done.stderr

    def files(self, name):
        return sorted(os.path.join(os.path.relpath(folder, self.path(name)), file) for folder, _, files in os.walk(self.path(name)) for file in files)

    def contents(self, name):
        return {file: pathlib.Path(self.path(name, file)).read_bytes() for file in self.files(name)}


class Init(OfFolder):
    def test_the_first_machine_has_a_secret_and_an_image_and_prints_what_the_others_say(self):
        told = self.init("a", "--address", "10.7.0.1:7001", "--peer", "b=10.7.0.2:7001", "--peer", "a=10.7.0.1:7001")
        self.assertEqual(self.files("a"), ["etc/kinds.json", "etc/sebrakt.conf", "etc/secret", "var/a.image", "var/a.image.lock"])
        self.assertEqual(os.stat(self.path("a", "etc", "secret")).st_mode & 0o777, 0o600)
        self.assertGreaterEqual(len(seals.read_secret(self.path("a", "etc", "secret"))), 32)
        with open(self.path("a", "var", "a.image")) as file:
            self.assertIn('["member","a",["a",1],{"label":"10.7.0.1:7001","status":"open"}]', file.read())
        self.assertIn("    sebrakt init --name b --address 10.7.0.2:7001 --peer a=10.7.0.1:7001 --peer b=10.7.0.2:7001 --secret secret\n", told)
        self.assertIn(f"sebrakt run --conf {self.path('a', 'etc', 'sebrakt.conf')}", told)

    def test_another_machine_takes_the_secret_and_makes_no_image(self):
        self.init("a", "--address", "10.7.0.1:7001")
        told = self.init("b", "--address", "10.7.0.2:7001", "--peer", "a=10.7.0.1:7001", "--secret", self.path("a", "etc", "secret"))
        self.assertEqual(self.files("b"), ["etc/kinds.json", "etc/sebrakt.conf", "etc/secret"])
        self.assertEqual(seals.read_secret(self.path("a", "etc", "secret")), seals.read_secret(self.path("b", "etc", "secret")))
        self.assertNotIn("copy", told)

    def test_nothing_that_is_there_is_touched(self):
        self.init("a", "--address", "10.7.0.1:7001")
        before = self.contents("a")
        self.assertIn("sebrakt.conf is there already", self.init("a", "--address", "10.7.0.9:7001", status=2))
        os.unlink(self.path("a", "etc", "sebrakt.conf"))
        self.assertIn("a.image is there already", self.init("a", "--address", "10.7.0.9:7001", status=2))
        del before["etc/sebrakt.conf"]
        self.assertEqual(self.contents("a"), before)

    def test_what_can_not_be_made_leaves_nothing_behind(self):
        words = ["--address", "10.7.0.1:7001"]
        self.assertIn("made no image", self.init("a", *words, "--supd", "/bin/false", status=2))
        self.assertEqual(self.files("a"), [])
        with open(self.path("short"), "w") as file:
            file.write("short")
        os.chmod(self.path("short"), 0o600)
        self.assertIn("at least 16 bytes", self.init("a", *words, "--secret", self.path("short"), status=2))
        os.chmod(self.path("short"), 0o644)
        self.assertIn("chmod 600", self.init("a", *words, "--secret", self.path("short"), status=2))
        self.assertIn("No such file", self.init("a", *words, "--secret", self.path("none"), status=2))
        self.assertIn("--folder", self.init("a", *words, "--folder", status=2))
        self.assertEqual(self.files("a"), [])

    def test_another_secret_than_the_one_that_is_there_is_refused(self):
        self.init("a", "--address", "10.7.0.1:7001")
        self.init("b", "--address", "10.7.0.2:7001")
        os.unlink(self.path("b", "etc", "sebrakt.conf"))
        os.unlink(self.path("b", "var", "b.image"))
        self.assertIn("another one than", self.init("b", "--address", "10.7.0.2:7001", "--secret", self.path("a", "etc", "secret"), status=2))
        self.assertIn("etc/secret", self.files("b"))

    def test_a_secret_is_of_any_bytes(self):
        with open(self.path("odd"), "wb") as file:
            file.write(bytes(range(0x80, 0xc0)))
        os.chmod(self.path("odd"), 0o600)
        self.init("a", "--address", "10.7.0.1:7001", "--secret", self.path("odd"))
        with open(self.path("a", "etc", "secret"), "rb") as file:
            self.assertEqual(file.read(), bytes(range(0x80, 0xc0)) + b"\n")

    def test_two_machines_of_their_files_find_each_other(self):
        ports = dict(zip("ab", free_ports(2)))
        peers = [word for name, port in ports.items() for word in ("--peer", f"{name}=127.0.0.1:{port}")]
        self.init("a", "--address", f"127.0.0.1:{ports['a']}", *peers)
        self.init("b", "--address", f"127.0.0.1:{ports['b']}", *peers, "--secret", self.path("a", "etc", "secret"))
        for name in "ab":
            agent = begin([sys.executable, COMMAND, "run", "--conf", self.path(name, "etc", "sebrakt.conf"), "--supd", SUPD], stderr=subprocess.DEVNULL)
            self.addCleanup(end_process, agent)
        asked = [sys.executable, COMMAND, "--address", f"127.0.0.1:{ports['b']}", "--secret", self.path("b", "etc", "secret"), "ask", "members"]
        until(30, lambda: subprocess.run(asked, capture_output=True, text=True).stdout.count("member ") == 2, "both are members")


class Conf(OfFolder):
    def read(self, content):
        with open(self.path("sebrakt.conf"), "w") as file:
            file.write(content)
        return conf.words(self.path("sebrakt.conf"))

    def test_each_key_is_an_option(self):
        said = self.read("name = \"a\" # here\naddress = '10.7.0.1:7001'\nsecret = \"secret\"\nimage = \"/i\"\nleast = 2\nsilent = 3.5\nalone = true\n[peer]\nb = \"10.7.0.2:1\"\n")
        self.assertEqual(said, ["--name=a", "--listen=10.7.0.1:7001", "--secret=" + self.path("secret"), "--image=/i", "--least=2", "--silent=3.5", "--alone", "--peer", "b=10.7.0.2:1"])
        self.assertEqual(self.read("alone = false\n"), [])

    def test_each_option_of_run_is_a_key(self):
        keys = set(options.keys_of_run()) - {"peer", "listen", "conf", "check-upgrade"}
        self.assertGreater(len(keys), 20)
        for key in keys:
            self.assertEqual(len(self.read(f'{key} = "1"\n')), 1, key)

    def test_a_mistake_is_told_with_its_line(self):
        for content, line in (("nam = \"a\"", 1), ("\nname = a", 2), ("name = \"a\"\nname = \"b\"", 2), ("[peers]", 1), ("[peer]\n[peer]", 2), ("[peer]\nb = \"x:1\"\nb = \"x:2\"", 3),
                              ("name = \"\"", 1), ("peer = \"b=x:1\"", 1), ("listen = \"x:1\"", 1), ("conf = \"x\"", 1), ("check-upgrade = true", 1), ("name = \"a\\n\"", 1), ("\x00", 1), ("name = [\"a\"]", 1)):
            with self.assertRaises(conf.Mistake) as told:
                self.read(content)
            self.assertTrue(str(told.exception).startswith(f"{self.path('sebrakt.conf')}:{line}: "), told.exception)
        with self.assertRaises(conf.Mistake):
            conf.read(self.path("none"))

    def test_what_is_said_beside_the_file_counts_before_it(self):
        self.read('name = "a"\naddress = "127.0.0.1:1"\nimage = "i"\nkinds = "k"\nleast = 2\n')
        told = subprocess.run([sys.executable, COMMAND, "run", "--conf", self.path("sebrakt.conf"), "--every", "2", "--silent", "3", "--supd", SUPD], capture_output=True, text=True)
        self.assertEqual((told.returncode, told.stderr), (2, "--silent is at least three times --every\n"))

    def test_what_init_writes_is_read(self):
        said = self.read(init.CONF.format(name="a", address="[fd00::1]:7001", image="/i", peers='b = "[fd00::2]:7001"\n'))
        self.assertEqual(said[:2] + said[-2:], ["--name=a", "--listen=[fd00::1]:7001", "--peer", "b=[fd00::2]:7001"])
        keys = re.findall(r"^#(\w+) = ", init.CONF, re.MULTILINE)
        self.assertTrue(keys and set(keys) <= conf.KEYS, keys)


if __name__ == "__main__":
    unittest.main()
