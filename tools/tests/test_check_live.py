"""`tools/check-live`: what it says where it can't run. What it checks needs Open vSwitch and a minute, and isn't tried here."""
import re
import subprocess
import unittest

from running import EXAMPLES, TOOLS

from live import proxies


class Lacking(unittest.TestCase):
    def test_what_is_missing_is_named(self):
        outcome = subprocess.run([TOOLS / "check-live", "no-such-program"], capture_output=True, text=True, check=False)
        self.assertEqual(outcome.returncode, 2)
        self.assertRegex(outcome.stdout, r"\Amissing: .*the program \S+/no-such-program\n\Z")


class Balancers(unittest.TestCase):
    def test_each_end_that_stands_for_another_is_there_once(self):
        for name, count in (("haproxy.cfg", 3), ("haproxy-tls.cfg", 4)):
            lines = [line.strip() for line in (EXAMPLES / name).read_text().splitlines() if not line.startswith("#")]
            ends = [line.split()[1 if line.startswith("bind") else 2] for line in lines if re.match("bind|server", line)]
            self.assertEqual((len(ends), len(set(ends))), (count, count))

    def test_the_proxies_go_on_until_they_are_stopped(self):
        unit = (EXAMPLES / "flowvisor.service").read_text()
        self.assertIn(f" 0.0.0.0:6653 {proxies.CONNECTIONS}\n", unit)


if __name__ == "__main__":
    unittest.main()
