"""Lines that carry who says them."""
import os
import sys
import tempfile
import unittest

sys.path.insert(0, os.path.dirname(os.path.dirname(os.path.abspath(__file__))))

import seals

SECRET = b"a secret of this test alone"


class Seals(unittest.TestCase):
    def test_a_line_is_opened_once_and_by_its_receiver_alone(self):
        seal = seals.Seal(SECRET, "a", "0" * 32, "b", "1" * 32)
        first, second = seal.line("letter x").encode(), seal.line("runs {}").encode()
        guard = seals.Guard(SECRET, "b", "1" * 32)
        self.assertEqual(guard.open(first), ("a", "0" * 32, "letter x"))
        self.assertEqual(guard.open(second), ("a", "0" * 32, "runs {}"))
        for line in (first, second):
            with self.assertRaises(seals.Refused):
                guard.open(line)
        for receiver, challenge, secret in (("c", "1" * 32, SECRET), ("b", "2" * 32, SECRET), ("b", "1" * 32, SECRET + b"x"), ("b", "1" * 32, None)):
            with self.assertRaises(seals.Refused):
                seals.Guard(secret, receiver, challenge).open(first)

    def test_no_byte_of_a_line_can_be_changed(self):
        line = seals.Seal(SECRET, "a", "0" * 32, "b", "1" * 32).line("letter x").encode()
        for place in range(len(line)):
            for byte in (b" ", b"1", b"a", b"~", b"\x00", b"\xff"):
                changed = line[:place] + byte + line[place + 1:]
                if changed != line:
                    with self.assertRaises(seals.Refused):
                        seals.Guard(SECRET, "b", "1" * 32).open(changed)

    def test_words_are_kept_apart(self):
        """A text that begins with a count is no other line's seal: sessions and counts have no spaces."""
        line = seals.Seal(SECRET, "a", "0" * 32, "b", "1" * 32).line("1 x").encode()
        sender, session, count, seal, _ = line.decode().split(" ", 4)
        with self.assertRaises(seals.Refused):
            seals.Guard(SECRET, "b", "1" * 32).open(f"{sender} {session} {count} {seal} x".encode())

    def test_a_line_that_was_lost_is_missed_by_nobody(self):
        seal, guard = seals.Seal(SECRET, "a", "0" * 32, "b", "1" * 32), seals.Guard(SECRET, "b", "1" * 32)
        lines = [seal.line(f"letter {number}").encode() for number in range(10)]
        self.assertEqual([guard.open(lines[number])[2] for number in (0, 4, 9)], ["letter 0", "letter 4", "letter 9"])
        with self.assertRaises(seals.Refused):
            guard.open(lines[5])

    def test_a_secret_is_its_owners_alone_and_not_short(self):
        with tempfile.NamedTemporaryFile() as file:
            for mode, secret, good in ((0o600, SECRET, True), (0o640, SECRET, False), (0o604, SECRET, False), (0o600, b"short", False)):
                os.chmod(file.name, mode)
                with open(file.name, "wb") as out:
                    out.write(secret + b"\n")
                if good:
                    self.assertEqual(seals.read_secret(file.name), SECRET)
                else:
                    self.assertRaises(seals.BadSecret, seals.read_secret, file.name)
        self.assertRaises(seals.BadSecret, seals.read_secret, file.name)


if __name__ == "__main__":
    unittest.main()
