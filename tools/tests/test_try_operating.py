"""`tools/try-operating`: commands that are typed into one shell, and those of which each has a shell of its own."""
import pathlib
import subprocess
import tempfile
import time
import unittest

from running import TOOLS

PATIENCE = 10
FILE = "```text name.txt\nalice\n```\n\n"
SESSION = "```console live\n$ name=$(cat name.txt)\n$ sleep 60 > sleep.log 2>&1 & echo $!\nPROCESS\n$ echo $name\nalice\n```\n"


def tried(text):
    """The status of the examples of a document, and what is printed of them."""
    with tempfile.TemporaryDirectory() as folder:
        document = pathlib.Path(folder) / "document.md"
        document.write_text(text)
        outcome = subprocess.run([TOOLS / "try-operating", "/bin/true", document], capture_output=True, text=True, check=False)
    return outcome.returncode, outcome.stdout + outcome.stderr


def is_running(number):
    """Whether a process runs, and isn't only waited for."""
    try:
        return pathlib.Path(f"/proc/{number}/stat").read_text().rpartition(")")[2].split()[0] != "Z"
    except FileNotFoundError:
        return False


class Sessions(unittest.TestCase):
    def test_commands_share_a_shell(self):
        status, printed = tried(FILE + SESSION.replace(" & echo $!\nPROCESS", " &"))
        self.assertEqual((status, printed), (0, "document.md: 3 examples, each as it should be\n"))

    def test_what_was_started_is_ended(self):
        status, printed = tried(FILE + SESSION)
        self.assertEqual(status, 1)
        number = printed.split("printed:\n")[1].split("\n")[0]
        end = time.monotonic() + PATIENCE
        while is_running(number) and time.monotonic() < end:
            time.sleep(0.05)
        self.assertFalse(is_running(number))

    def test_another_output_another_status_and_an_end(self):
        for typed, fault in (("echo bob", "status 0, printed:\nbob\n"), ("false", "status 1"), ("exit", "has not ended")):
            status, printed = tried(f"```console live\n$ {typed}\nalice\n```\n")
            self.assertEqual(status, 1)
            self.assertIn(f"$ {typed}\n{fault}", printed)

    def test_other_commands_share_none(self):
        status, printed = tried("```console\n$ name=alice\n$ echo $name\nalice\n```\n")
        self.assertEqual(status, 1)
        self.assertIn("$ echo $name\nprinted:\n\nand not:\nalice\n", printed)


if __name__ == "__main__":
    unittest.main()
