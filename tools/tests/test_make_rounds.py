"""`tools/make-rounds`: recordings of rounds as `flowvisor gen` draws them."""
import functools
import pathlib
import re
import subprocess
import tempfile
import unittest

from program import needs_program, run_program
from running import EXAMPLES, TOOLS

LINE = re.compile(r"\d+ \d+ (?:to )?(lane|alice|bob) ([0-9a-f]+)")


def checksum(recording):
    return functools.reduce(lambda number, byte: (31 * number + byte) % 2**32, recording, 0)


def summary_of(report):
    """What `gen` tells of a recording with this report."""
    *lines, end = report.splitlines()
    sent = {name: [] for name in ("lane", "alice", "bob")}
    for line in lines:
        name, digits = LINE.fullmatch(line).groups()
        sent[name].append(len(digits) // 2)
    counts = (f"{name} {len(sizes)} {sum(sizes)}" for name, sizes in sent.items())
    return "\n".join([end.replace("end", "events"), *counts, ""])


class MakeRounds(unittest.TestCase):
    def setUp(self):
        place = tempfile.TemporaryDirectory()
        self.addCleanup(place.cleanup)
        self.path = pathlib.Path(place.name) / "rounds.rec"

    def make(self, *numbers):
        subprocess.run([TOOLS / "make-rounds", self.path, *map(str, numbers)], check=True)
        return self.path.read_bytes()

    def test_one_switch_has_the_recording_of_gen(self):
        """The numbers are those of the tests of the generator."""
        for numbers, size, expected in [((7, 100, 1), 8_992, 2_744_533_698), ((2**64 - 1, 3, 1), 560, 1_527_315_496)]:
            recording = self.make(*numbers)
            self.assertEqual((len(recording), checksum(recording)), (size, expected))

    def test_rounds_go_to_the_switches_in_turn(self):
        one, three = self.make(7, 90, 1), self.make(7, 90, 3)
        self.assertEqual(len(three) - len(one), 2 * (len(self.make(7, 0, 1)) - 8))

    @needs_program
    def test_one_switch_has_the_summary_of_gen(self):
        self.make(7, 1000, 1)
        replayed = run_program("replay", EXAMPLES / "two-slices.toml", self.path)
        made = run_program("gen", "7", "1000")
        self.assertEqual((replayed.returncode, made.returncode), (0, 0))
        self.assertEqual(summary_of(replayed.stdout.decode()), made.stdout.decode())


if __name__ == "__main__":
    unittest.main()
