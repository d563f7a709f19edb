"""What all subcommands of `flowvisor-tool` have in common: their help, and how they tell of files that can't be read."""
import os
import pathlib
import re
import tempfile
import unittest

from running import EXAMPLES, ROOT, run_script, run_tool

from flowvisor_tool.files import CAPTURE_MAGICS

POLICY, REPORT, RECORDING = (EXAMPLES / name for name in ("two-slices.toml", "web-session.report", "web-session.rec"))
PORT = ["--switch-port", "6653"]
# A terminal's lines and columns; one line is the next prompt's.
LINES, COLUMNS = 24, 80


class Help(unittest.TestCase):
    def test_of_each_subcommand_is_one_screen(self):
        for words in ([], ["lint"], ["explain"], ["try"], ["show"], ["to-pcap"], ["from-pcap"], ["compare"], ["watch"], ["clean"]):
            for option in ("--help", "-h"):
                outcome = run_script(*words, option, env={**os.environ, "COLUMNS": str(COLUMNS)})
                self.assertEqual((outcome.returncode, outcome.stderr), (0, ""))
                lines = outcome.stdout.splitlines()
                self.assertLess(len(lines), LINES, words)
                self.assertLessEqual(max(map(len, lines)), COLUMNS, words)

    def test_the_version_is_that_of_the_program(self):
        texts = (ROOT / "crates/flowvisor/src/help_and_version.rt").read_text()
        version = re.search(r'VERSION: &str = "flowvisor (\S+) ', texts)[1]
        self.assertEqual(run_tool("--version").out, f"flowvisor-tool {version}\n")

    def test_words_without_a_form(self):
        for words in ([], ["check"], ["lint"], ["show", "a", "b"], ["lint", "--policy", "a"]):
            outcome = run_tool(*words)
            self.assertEqual((outcome.status, outcome.out), (2, ""))


class Files(unittest.TestCase):
    def setUp(self):
        place = tempfile.TemporaryDirectory()
        self.addCleanup(place.cleanup)
        self.folder = pathlib.Path(place.name)
        self.new = self.folder / "new"

    def assert_fault(self, text, *words):
        outcome = run_tool(*words)
        self.assertEqual((outcome.status, outcome.out, outcome.err), (1, "", f"flowvisor-tool: {text}\n"))
        self.assertFalse(self.new.exists())

    def readers(self, path):
        """The words of each subcommand that read this file."""
        yield "lint", path
        yield "explain", path, "tcp"
        yield "try", path, "tcp", "1"
        yield "show", path
        yield "to-pcap", path, self.new
        yield "to-pcap", REPORT, "--recording", path, self.new
        yield "from-pcap", *PORT, path, self.new
        yield "from-pcap", *PORT, "--policy", path, REPORT, self.new
        yield "compare", *PORT, REPORT, path
        yield "compare", *PORT, "--policy", path, self.capture(), REPORT
        yield "watch", "--to-end", path, REPORT
        yield "watch", "--to-end", POLICY, path
        yield "clean", "--ovs", "br0", path

    def capture(self):
        """A capture of the shipped session."""
        path = self.folder / "session.pcap"
        self.assertEqual(run_tool("to-pcap", REPORT, path).status, 0)
        return path

    def test_that_are_not_there(self):
        for path, reason in ((self.folder / "none", "No such file or directory"), (self.folder, "Is a directory")):
            for words in self.readers(path):
                self.assert_fault(f"{path}: {reason}", *words)

    def test_that_cannot_be_written(self):
        self.addCleanup(os.chdir, os.getcwd())
        os.chdir(self.folder)
        run_tool("to-pcap", RECORDING, "capture")
        for words in (("to-pcap", RECORDING), ("from-pcap", *PORT, "capture")):
            self.assert_fault("none/new: No such file or directory", *words, "none/new")
            self.assert_fault(".: can't be written: it is no file", *words, ".")

    def test_captures_in_the_place_of_recordings(self):
        path = self.folder / "capture"
        for magic in CAPTURE_MAGICS:
            path.write_bytes(magic + bytes(20))
            for words in (("to-pcap", path, self.new), ("to-pcap", REPORT, "--recording", path, self.new)):
                self.assert_fault(f"{path}: is a capture, not a recording: see from-pcap", *words)

    def test_what_else_is_in_the_place_of_a_recording(self):
        for path in (POLICY, REPORT):
            self.assert_fault(f"{path}: is no recording", "to-pcap", REPORT, "--recording", path, self.new)


if __name__ == "__main__":
    unittest.main()
