"""The processes of a check, in a folder of its own. Each is ended by its id, and none but those that were started here."""
import os
import pathlib
import shutil
import signal
import subprocess
import tempfile
import time

# Seconds after which a process that is asked to end is killed.
PATIENCE = 3
POLL = 0.05
# Where Debian has daemons; a user's path may lack it.
SYSTEM_PATH = "/usr/sbin:/usr/bin:/sbin:/bin"
# The state of a socket, as Linux spells it.
LISTENING = "0A"


class Unmet(Exception):
    """Something that should be seen wasn't; the text says what."""


def wait_for(what, seconds, is_met):
    """Waits until something holds, and gives it."""
    end = time.monotonic() + seconds
    while True:
        if met := is_met():
            return met
        if time.monotonic() > end:
            raise Unmet(f"not within {seconds} seconds: {what}")
        time.sleep(POLL)


class LeftOut(Exception):
    """A check that can't be made here; the text says why."""


def is_listening(port):
    """Whether somebody listens at a port: seen without a connection, since the proxy counts each."""
    lines = pathlib.Path("/proc/net/tcp").read_text().splitlines()[1:]
    return any(fields[1].endswith(f":{port:04X}") and fields[3] == LISTENING for fields in map(str.split, lines))


def lacks(command):
    """Whether a command isn't there."""
    return shutil.which(command, path=search_path()) is None


def search_path():
    return f"{os.environ['PATH']}:{SYSTEM_PATH}"


class Processes:
    """The processes, with a folder for what they write. Open vSwitch has its sockets, its database and its ids there."""

    def __init__(self):
        self.place = tempfile.TemporaryDirectory(prefix="check-live-")
        self.folder = pathlib.Path(self.place.name)
        folders = {name: str(self.folder) for name in ("OVS_RUNDIR", "OVS_LOGDIR", "OVS_DBDIR", "OVS_SYSCONFDIR")}
        self.env = os.environ | folders | {"PATH": search_path()}
        self.running = []

    def __enter__(self):
        return self

    def __exit__(self, *_):
        for process in reversed(self.running):
            self.end(process)
        self.place.cleanup()

    def log(self, name):
        """The file that a process of this name writes to."""
        return self.folder / f"{name}.log"

    def start(self, name, *words, output=None):
        """Starts a process, which writes to its log; what it prints may go to a file instead."""
        with open(self.log(name), "ab") as log, open(output or self.log(name), "ab") as printed:
            process = subprocess.Popen(
                [str(word) for word in words], stdout=printed, stderr=log, stdin=subprocess.DEVNULL, env=self.env, cwd=self.folder)
        self.running.append(process)
        return process

    def end(self, process, how=signal.SIGTERM):
        """Ends a process that was started here, and waits until it has ended."""
        if process.poll() is None:
            process.send_signal(how)
            try:
                process.wait(PATIENCE)
            except subprocess.TimeoutExpired:
                process.kill()
                process.wait()
        if process in self.running:
            self.running.remove(process)

    def run(self, *words):
        """Runs a command to its end, and gives what it prints."""
        done = subprocess.run([str(word) for word in words], capture_output=True, text=True, check=False, env=self.env, cwd=self.folder)
        if done.returncode:
            raise Unmet(f"{' '.join(map(str, words))} ended with {done.returncode}: {(done.stderr or done.stdout).strip()}")
        return done.stdout

    def lines(self, name, text):
        """How many lines of a process's log have a text."""
        log = self.log(name)
        return log.read_text(errors="replace").count(text) if log.exists() else 0
